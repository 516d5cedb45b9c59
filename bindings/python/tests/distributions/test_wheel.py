# SPDX-License-Identifier: Apache-2.0
"""The wheel: its name, its files and its metadata, and that it is installed, used and removed in a fresh environment."""

import os
import re
import tempfile
import unittest
import zipfile
from typing import List, Set

from made import PACKAGE, PRINTED, PROGRAM, PYTHON, ROOT, VERSION, WHEEL, content, fields, run

INFO = f"denimscree_semver-{VERSION}.dist-info"
FILES = [
    "node_semver/__init__.py", "node_semver/_calling.py", "node_semver/_calls.abi3.so", "node_semver/_calls.pyi",
    "node_semver/_checking.py", "node_semver/_error.py", "node_semver/_native.abi3.so", "node_semver/_native.pyi",
    "node_semver/_picking.py", "node_semver/_resolving.py", "node_semver/_shorter.py", "node_semver/_types.py",
    "node_semver/py.typed",
    f"{INFO}/LICENSE", f"{INFO}/METADATA", f"{INFO}/RECORD", f"{INFO}/WHEEL", f"{INFO}/top_level.txt",
]  # fmt: skip
METADATA = [
    ("Metadata-Version", "2.1"),
    ("Name", "denimscree-semver"),
    ("Version", VERSION),
    ("Summary", "npm's versions and version ranges, over a library that is proved to do what it says"),
    ("License", "Apache-2.0"),
    ("Classifier", "Operating System :: POSIX :: Linux"),
    ("Classifier", "Programming Language :: C"),
    ("Classifier", "Programming Language :: Python :: 3"),
    ("Classifier", "Programming Language :: Python :: Implementation :: CPython"),
    ("Classifier", "Typing :: Typed"),
    ("Requires-Python", ">=3.10"),
    ("Description-Content-Type", "text/markdown"),
    ("License-File", "LICENSE"),
]


class Wheel(unittest.TestCase):
    def setUp(self) -> None:
        room = tempfile.TemporaryDirectory()
        self.addCleanup(room.cleanup)
        self.room = room.name

    def read(self, name: str) -> str:
        with zipfile.ZipFile(WHEEL) as archive:
            return archive.read(f"{INFO}/{name}").decode()

    def test_the_files(self) -> None:
        with zipfile.ZipFile(WHEEL) as archive:
            self.assertEqual(sorted(archive.namelist()), sorted(FILES))
        # This compares each file with RECORD.
        status, said = run(self.room, PYTHON, "-m", "wheel", "unpack", WHEEL)
        self.assertEqual(status, 0, said)

    def test_the_metadata(self) -> None:
        self.assertEqual(fields(self.read("METADATA")), METADATA)
        self.assertTrue(self.read("METADATA").endswith("\n\n" + content(PACKAGE, "README.md")))
        self.assertEqual(self.read("LICENSE"), content(ROOT, "LICENSE"))
        self.assertEqual(self.read("top_level.txt"), "node_semver\n")

    def test_the_tag_is_that_of_the_pages(self) -> None:
        name = os.path.basename(WHEEL)
        tag = re.fullmatch(rf"denimscree_semver-{re.escape(VERSION)}-(cp310-abi3-manylinux_2_\d+_x86_64)\.whl", name)
        assert tag is not None, name
        self.assertIn(f"\nTag: {tag[1]}\n", self.read("WHEEL"))
        for page in (content(ROOT, "CONTRIBUTING.md"), content(PACKAGE, "README.md")):
            self.assertEqual(set(re.findall(r"[\w.-]+\.whl", page)), {name})

    def installed(self) -> Set[str]:
        """The files and folders of the environment. (Its lib64 is a link to lib.)"""
        return {os.path.join(at, name) for at, folders, names in os.walk(os.path.join(self.room, "env")) for name in folders + names}

    def test_a_fresh_environment(self) -> None:
        python = os.path.join(self.room, "env", "bin", "python")
        commands: List[List[str]] = [
            [PYTHON, "-m", "venv", "env"],
            [python, "-m", "pip", "install", "--no-index", WHEEL],
            [python, "-I", "-B", "-c", PROGRAM],
            [python, "-m", "pip", "uninstall", "-y", "denimscree-semver"],
        ]
        seen: List[Set[str]] = []
        for command in commands:
            status, said = run(self.room, *command)
            self.assertEqual(status, 0, said)
            if command[-1] == PROGRAM:
                self.assertEqual(said, PRINTED)
            seen.append(self.installed())
        fresh, full, _, left = seen
        self.assertEqual(len([path for path in full - fresh if path.endswith((".so", ".pyi"))]), 4)
        self.assertEqual(left, fresh)


if __name__ == "__main__":
    unittest.main()
