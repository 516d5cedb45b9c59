# SPDX-License-Identifier: Apache-2.0
"""The stubs: mypy --strict on the package, on a caller and on mistakes, and stubtest, which compares them with the
module. Without mypy these tests are skipped."""

import importlib.util
import os
import re
import subprocess
import sys
import tempfile
import unittest
from glob import glob

import node_semver

HERE = os.path.dirname(os.path.abspath(__file__))
PACKAGE = os.path.dirname(os.path.abspath(node_semver.__file__))
HAS_MYPY = importlib.util.find_spec("mypy") is not None


@unittest.skipUnless(HAS_MYPY, "there is no mypy")
class Typing(unittest.TestCase):
    room: "tempfile.TemporaryDirectory[str]"

    @classmethod
    def setUpClass(cls) -> None:
        cls.room = tempfile.TemporaryDirectory()
        cls.addClassCleanup(cls.room.cleanup)

    def run_python(self, *words: str) -> "subprocess.CompletedProcess[str]":
        """Runs a module of Python in an empty folder, so that it finds the installed package alone."""
        places = {"MYPYPATH": os.path.dirname(PACKAGE), "PYTHONPATH": os.pathsep.join(sys.path)}
        environment = {**os.environ, **places, "MYPY_CACHE_DIR": os.path.join(self.room.name, "cache")}
        return subprocess.run(
            [sys.executable, "-m", *words], cwd=self.room.name, env=environment, capture_output=True, text=True
        )

    def accepts(self, *words: str) -> None:
        done = self.run_python(*words)
        self.assertEqual(done.returncode, 0, done.stdout + done.stderr)

    def test_the_package(self) -> None:
        self.assertTrue(os.path.exists(os.path.join(PACKAGE, "py.typed")))
        self.accepts("mypy", "--strict", "-p", "node_semver")

    def test_a_caller(self) -> None:
        self.accepts("mypy", "--strict", os.path.join(HERE, "typing", "caller.py"))

    def test_mistakes(self) -> None:
        path = os.path.join(HERE, "typing", "wrong.py")
        with open(path, encoding="utf-8") as file:
            wanted = [number for number, line in enumerate(file, 1) if line.rstrip().endswith("# wrong")]
        done = self.run_python("mypy", "--strict", path)
        found = sorted({int(number) for number in re.findall(r"wrong\.py:(\d+): error", done.stdout)})
        self.assertEqual(found, wanted, done.stdout + done.stderr)
        self.assertGreater(len(wanted), 20)

    def test_the_stubs_are_those_of_the_module(self) -> None:
        # mypy 1.0 takes an alias of several literals for a Union, which it is not when it runs, and knows no metaclass of a TypedDict.
        with tempfile.NamedTemporaryFile("w", suffix=".txt") as file:
            file.write("node_semver.FaultKind\nnode_semver._error.FaultKind\n")
            file.write("node_semver.CutKind\nnode_semver._types.CutKind\n")
            file.write("node_semver.Bump\nnode_semver._types.Bump\n")
            file.write("node_semver.BumpFault\nnode_semver._error.BumpFault\n")
            file.write("node_semver.ReleaseType\nnode_semver._types.ReleaseType\n")
            for name in ("PickCode", "PickFault"):
                file.write(f"node_semver.{name}\nnode_semver._picking.{name}\n")
            for name in ("Audit", "Excepted", "Report"):
                file.write(f"node_semver.{name}\nnode_semver._checking.{name}\n")
            for name in ("Chosen", "Culprit", "Group", "LockFile", "Names", "NoSelection", "Reason", "Selected", "Undecided", "Unread", "Wish"):
                file.write(f"node_semver.{name}\nnode_semver._resolving.{name}\n")
            file.flush()
            self.accepts("mypy.stubtest", "node_semver", "--allowlist", file.name, "--ignore-unused-allowlist")

    def test_the_tests_and_the_example(self) -> None:
        example = os.path.join(os.path.dirname(HERE), "examples", "installed.py")
        files = [os.path.join(HERE, name) for name in sorted(os.listdir(HERE)) if name.endswith(".py")]
        files += [os.path.join(HERE, "refused", "test_refused.py"), os.path.join(HERE, "setup", "test_setup.py")]
        files += sorted(glob(os.path.join(HERE, "distributions", "*.py")))
        self.accepts("mypy", "--strict", example, *files)


if __name__ == "__main__":
    unittest.main()
