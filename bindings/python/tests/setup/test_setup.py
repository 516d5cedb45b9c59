# SPDX-License-Identifier: Apache-2.0
"""setup.py: it links the libraries of the sources that stand, and not those that were built before they changed; and it says
what is missing.

It runs setup.py in a copy, beside a C package whose libraries are a single function with a text in it.
"""

import os
import re
import shutil
import subprocess
import sys
import tempfile
import unittest
from glob import glob
from typing import Tuple

PACKAGE = os.path.dirname(os.path.dirname(os.path.dirname(os.path.abspath(__file__))))

with open(os.path.join(PACKAGE, "src", "node_semver", "__init__.py"), encoding="utf-8") as file:
    [VERSION] = re.findall(r'^__version__ = "(.*)"$', file.read(), re.M)

SOURCE = 'const char *node_semver_satisfies_text(void)\n{\n    return "the %s library";\n}\n'

MAKEFILE = """
all: build/libnode_semver.a
calls: all
\tcp build/libnode_semver.a build/libnpm_calls.a
build/libnode_semver.a: ../../crates/one/source.c
\tmkdir -p build
\tcc -fPIC -c -o build/source.o $<
\trm -f $@
\tar rcs $@ build/source.o
\techo built >> build/log
"""


class Setup(unittest.TestCase):
    def setUp(self) -> None:
        room = tempfile.TemporaryDirectory()
        self.addCleanup(room.cleanup)
        self.python, self.c = (os.path.join(room.name, "bindings", name) for name in ("python", "c"))
        self.source = os.path.join(room.name, "crates", "one", "source.c")
        skipped = shutil.ignore_patterns("build", "tests", "__pycache__", "*.egg-info")
        shutil.copytree(PACKAGE, self.python, ignore=skipped)
        os.makedirs(os.path.join(self.c, "include"))
        for name in ("node_semver.h", "npm_calls.h"):
            header = os.path.join("include", name)
            shutil.copy(os.path.join(os.path.dirname(PACKAGE), "c", header), os.path.join(self.c, header))
        os.makedirs(os.path.dirname(self.source))
        self.write(os.path.join(self.c, "Makefile"), MAKEFILE)

    def write(self, path: str, text: str) -> None:
        with open(path, "w", encoding="utf-8") as file:
            file.write(text)

    def build(self, **named: str) -> Tuple[int, str]:
        """Runs the build with these variables: its status, and what it writes."""
        environment = {key: value for key, value in os.environ.items() if not key.startswith("NODE_SEMVER_")}
        done = subprocess.run(
            [sys.executable, "setup.py", "-q", "build"], cwd=self.python, env={**environment, "CFLAGS": "-O0", **named},
            stdout=subprocess.PIPE, stderr=subprocess.STDOUT, text=True,
        )  # fmt: skip
        return done.returncode, done.stdout

    def linked(self, **named: str) -> str:
        """Builds, and returns which library the extension has in it."""
        status, said = self.build(**named)
        self.assertEqual(status, 0, said)
        [module] = glob(os.path.join(self.python, "build", "released", "lib*", "node_semver", "_native*.so"))
        with open(module, "rb") as file:
            content = file.read()
        [found] = [word for word in ("first", "second", "third") if f"the {word} library".encode() in content]
        return found

    def refused(self, first: str, **named: str) -> None:
        """Whether the build stops with this line, and says how to get the libraries."""
        status, said = self.build(**named)
        self.assertEqual(status, 1, said)
        self.assertIn(f"\nerror: {first}\nThis package links the proved libraries for C", "\n" + said)
        self.assertRegex(said, r"unpack denimscree-\d+\.\d+\.\d+-linux-x86_64\.tar\.gz, and set NODE_SEMVER_LIBRARY")
        self.assertTrue(said.endswith("\nThe wheel of a release needs neither these libraries nor a compiler.\n"), said)
        self.assertNotIn("Traceback", said)

    def times_built(self) -> int:
        with open(os.path.join(self.c, "build", "log"), encoding="utf-8") as file:
            return len(file.readlines())

    def test_links_the_library_of_the_sources(self) -> None:
        self.write(self.source, SOURCE % "first")
        self.assertEqual((self.linked(), self.times_built()), ("first", 1))
        self.write(self.source, SOURCE % "second")
        self.assertEqual((self.linked(), self.times_built()), ("second", 2))
        self.assertEqual((self.linked(), self.times_built()), ("second", 2))
        self.write(self.source, SOURCE % "third")
        os.utime(self.source, (0, 0))
        self.assertEqual((self.linked(), self.times_built()), ("third", 3))
        self.assertEqual((self.linked(), self.times_built()), ("third", 3))

    def installed(self) -> str:
        """The path of a library, installed with its header and the two others into a folder of their own."""
        self.write(self.source, SOURCE % "first")
        self.linked()
        prefix = os.path.join(os.path.dirname(self.python), "prefix")
        shutil.copytree(os.path.join(self.c, "build"), os.path.join(prefix, "lib"))
        shutil.copytree(os.path.join(self.c, "include"), os.path.join(prefix, "include"))
        return os.path.join(prefix, "lib", "libnode_semver.a")

    def test_links_the_library_that_is_named(self) -> None:
        older = self.installed()
        os.utime(older, (0, 0))
        self.write(self.source, SOURCE % "second")
        self.assertEqual(self.linked(), "second")
        self.assertEqual(self.linked(NODE_SEMVER_LIBRARY=older), "first")
        moved = os.path.join(self.python, "moved")
        os.mkdir(moved)
        for name in ("libnode_semver.a", "libnpm_calls.a"):
            shutil.copy(os.path.join(os.path.dirname(older), name), moved)
        headers = os.path.join(self.c, "include")
        moved = os.path.join(moved, "libnode_semver.a")
        self.assertEqual(self.linked(NODE_SEMVER_LIBRARY=moved, NODE_SEMVER_INCLUDE=headers), "first")
        both = f"{moved}:{os.path.join(os.path.dirname(older), 'libnpm_calls.a')}"
        self.assertEqual(self.linked(NODE_SEMVER_LIBRARY=both, NODE_SEMVER_INCLUDE=headers), "first")

    def test_says_what_is_missing(self) -> None:
        library = self.installed()
        header = os.path.join(os.path.dirname(os.path.dirname(library)), "include", "npm_calls.h")
        calls = os.path.join(os.path.dirname(library), "libnpm_calls.a")
        shutil.rmtree(self.c)
        self.refused("NODE_SEMVER_LIBRARY is not set.")
        self.refused("NODE_SEMVER_LIBRARY is not set.", NODE_SEMVER_LIBRARY="")
        self.refused("There is no library /absent/lib/libnode_semver.a.", NODE_SEMVER_LIBRARY="/absent/lib/libnode_semver.a")
        with open(header, encoding="utf-8") as file:
            text = file.read()
        self.write(header, text.replace('LIBRARY_VERSION "', 'LIBRARY_VERSION "9.'))
        self.refused(f"{header} is of version 9.{VERSION}.", NODE_SEMVER_LIBRARY=library)
        self.write(header, "")
        self.refused(f"{header} is of version None.", NODE_SEMVER_LIBRARY=library)
        os.remove(header)
        self.refused(f"There is no header {header}.", NODE_SEMVER_LIBRARY=library)
        self.write(header, text)
        self.assertEqual(self.linked(NODE_SEMVER_LIBRARY=library), "first")
        os.remove(calls)
        self.refused(f"There is no library {calls}.", NODE_SEMVER_LIBRARY=library)

    def test_says_that_make_failed(self) -> None:
        self.write(os.path.join(self.c, "Makefile"), "all calls:\n\t@echo rt is not in PATH >&2; exit 1\n")
        status, said = self.build()
        self.assertEqual(status, 1, said)
        self.assertIn("\nrt is not in PATH\n", "\n" + said)
        self.assertIn("\nerror: the libraries for C are not built: Command '['make', ", said)
        self.assertNotIn("Traceback", said)
        self.assertIn("error: the libraries for C are not built: [Errno 2] ", self.build(PATH="/absent")[1])


if __name__ == "__main__":
    unittest.main()
