# SPDX-License-Identifier: Apache-2.0
"""The native part over a library that tells another length at each call: no byte past the room is read.

It is built here over such a library, which is a function of C.
"""

import os
import subprocess
import sys
import sysconfig
import tempfile
import unittest
from typing import List, Tuple

PACKAGE = os.path.dirname(os.path.dirname(os.path.dirname(os.path.abspath(__file__))))
NATIVE = os.path.join(PACKAGE, "native")
HEADERS = os.path.join(os.path.dirname(PACKAGE), "c", "include")

# The length of each call in its turn. Bytes are written where they fit.
LIBRARY = """
#include "npm_calls.h"
#include <string.h>

static const size_t lengths[] = {LENGTHS};
static size_t calls;

npm_status npm_call(const char *name, size_t name_length, const char *text, size_t text_length, char *room, size_t size,
                    size_t *length)
{
    *length = lengths[calls++];
    if (*length <= size)
        memset(room, 'a', *length);
    return NPM_OK;
}
"""

CALL = """
import importlib.machinery, importlib.util, sys
[path] = sys.argv[1:]
loader = importlib.machinery.ExtensionFileLoader("node_semver._calls", path)
module = importlib.util.module_from_spec(importlib.util.spec_from_loader(loader.name, loader))
loader.exec_module(module)
try:
    status, answer = module.call("pick", "{}")
    print(status, len(answer), set(answer) <= {"a"})
except SystemError as error:
    print("SystemError", error)
"""

# The room that the first call of a text of two bytes has.
ROOM = 4098
LARGE = 1 << 26
TOLD = f"SystemError the library told an answer of {ROOM + 1} bytes, and then one of"

# The lengths of the calls, and what is printed.
ROWS: List[Tuple[List[int], str]] = [
    ([5], "0 5 True"),
    ([0], "0 0 True"),
    ([ROOM], f"0 {ROOM} True"),
    ([ROOM + 1] * 2, f"0 {ROOM + 1} True"),
    ([ROOM + 1, LARGE], f"{TOLD} {LARGE}"),
    ([ROOM + 1, 5], f"{TOLD} 5"),
]  # fmt: skip


class Lengths(unittest.TestCase):
    def answer_of(self, lengths: List[int], room: str) -> str:
        """What a call prints over a library that tells these lengths."""
        library, built = os.path.join(room, "library.c"), os.path.join(room, f"calls-{len(os.listdir(room))}.so")
        with open(library, "w", encoding="utf-8") as file:
            file.write(LIBRARY.replace("LENGTHS", ", ".join(map(str, lengths))))
        sources = [os.path.join(NATIVE, "calls", "calls.c"), os.path.join(NATIVE, "shared", "arguments.c"), library]
        folders = [f"-I{folder}" for folder in (sysconfig.get_paths()["include"], HEADERS)]
        subprocess.run([os.environ.get("CC", "cc"), "-shared", "-fPIC", "-o", built, *folders, *sources], check=True)
        done = subprocess.run([sys.executable, "-c", CALL, built], capture_output=True, text=True)
        self.assertEqual((done.returncode, done.stderr), (0, ""))
        return done.stdout.strip()

    def test_a_length_that_changes(self) -> None:
        with tempfile.TemporaryDirectory() as room:
            for lengths, wanted in ROWS:
                with self.subTest(lengths=lengths):
                    self.assertEqual(self.answer_of(lengths, room), wanted)


if __name__ == "__main__":
    unittest.main()
