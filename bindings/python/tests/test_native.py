# SPDX-License-Identifier: Apache-2.0
"""What the C of the package must not have: calls that borrow the values of a dict which code of a caller can clear."""

import os
import re
import tempfile
import unittest
from typing import List

NATIVE = os.path.join(os.path.dirname(os.path.dirname(os.path.abspath(__file__))), "native")

# All of Python's readers of arguments, and the convention of calls with a dict.
REFUSED = re.compile(r"\b_?PyArg_\w+|\bMETH_VARARGS\b")


def refused(folder: str) -> List[str]:
    """The places below a folder of what is refused, in files of C and headers."""
    found = []
    for at, _, names in os.walk(folder):
        for name in sorted(names):
            with open(os.path.join(at, name), encoding="utf-8") as file:
                for number, line in enumerate(file, 1):
                    found += [f"{name}:{number}: {word}" for word in REFUSED.findall(line)]
    return found


class Native(unittest.TestCase):
    def test_no_argument_is_borrowed_of_a_dict(self) -> None:
        self.assertEqual(refused(NATIVE), [])
        self.assertGreater(sum(len(names) for _, _, names in os.walk(NATIVE)), 15)

    def test_what_is_refused_is_found(self) -> None:
        lines = [
            'if (!PyArg_ParseTuple(arguments, "O", &one))',
            'if (!PyArg_ParseTupleAndKeywords(arguments, keywords, "O|$p", names, &one, &two))',
            'PyArg_UnpackTuple(arguments, "name", 1, 1, &one); PyArg_Parse(one, "s", &text);',
            "_PyArg_ParseStackAndKeywords(stack); PyArg_VaParse(words); PyArg_ValidateKeywordArguments(dict);",
            '{"name", name, METH_VARARGS | METH_KEYWORDS, doc},',
            '{"name", name, METH_FASTCALL | METH_KEYWORDS, doc},',
        ]
        with tempfile.TemporaryDirectory() as folder:
            os.mkdir(os.path.join(folder, "inner"))
            with open(os.path.join(folder, "inner", "made.h"), "w", encoding="utf-8") as file:
                file.write("\n".join(lines))
            self.assertEqual(refused(folder), [
                "made.h:1: PyArg_ParseTuple", "made.h:2: PyArg_ParseTupleAndKeywords", "made.h:3: PyArg_UnpackTuple",
                "made.h:3: PyArg_Parse", "made.h:4: _PyArg_ParseStackAndKeywords", "made.h:4: PyArg_VaParse",
                "made.h:4: PyArg_ValidateKeywordArguments", "made.h:5: METH_VARARGS",
            ])  # fmt: skip


if __name__ == "__main__":
    unittest.main()
