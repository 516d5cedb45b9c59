# SPDX-License-Identifier: Apache-2.0
"""The source distribution: it has nothing built, its build says what is missing, and with that it makes the wheel."""

import os
import re
import shutil
import tarfile
import tempfile
import unittest
import zipfile
from glob import glob
from typing import Set

from made import PACKAGE, PRINTED, PROGRAM, PYTHON, ROOT, SOURCES, VERSION, WHEEL, content, fields, run

NAME = f"denimscree_semver-{VERSION}"
C_PACKAGE = os.path.join(ROOT, "bindings", "c")
# What a build leaves in the folder, and what belongs to git.
LEFT_OUT = re.compile(r"build|dist|__pycache__|\.mypy_cache|\.gitignore|.*\.egg-info")
# How the build is run.
BUILDS = {
    "pip": [PYTHON, "-m", "pip", "wheel", "--no-build-isolation", "--no-index", "--no-deps", "-w", "made", SOURCES],
    "build": [PYTHON, "-m", "build", "--no-isolation", "--wheel", "--outdir", "made", os.path.join("unpacked", NAME)],
}


def names_below(folder: str) -> Set[str]:
    """The paths of all files below a folder, but for those that are left out."""
    found = set()
    for at, folders, names in os.walk(folder):
        folders[:] = [name for name in folders if not LEFT_OUT.fullmatch(name)]
        found |= {os.path.relpath(os.path.join(at, name), folder) for name in names if not LEFT_OUT.fullmatch(name)}
    return found


class Sources(unittest.TestCase):
    def setUp(self) -> None:
        room = tempfile.TemporaryDirectory()
        self.addCleanup(room.cleanup)
        self.room = room.name
        with tarfile.open(SOURCES) as archive:
            self.assertEqual({name.split("/")[0] for name in archive.getnames()}, {NAME})
            archive.extractall(os.path.join(self.room, "unpacked"))
        self.unpacked = os.path.join(self.room, "unpacked", NAME)
        # The libraries and headers as a release has them, below a folder.
        self.library = os.path.join(self.room, "prefix", "lib", "libnode_semver.a")
        self.include = os.path.join(self.room, "prefix", "include")
        os.makedirs(os.path.dirname(self.library))
        for name in ("libnode_semver.a", "libnpm_calls.a"):
            shutil.copy(os.path.join(C_PACKAGE, "build", name), os.path.dirname(self.library))
        shutil.copytree(os.path.join(C_PACKAGE, "include"), self.include)

    def test_the_name(self) -> None:
        self.assertEqual(os.path.basename(SOURCES), f"{NAME}.tar.gz")
        for page in (content(ROOT, "CONTRIBUTING.md"), content(PACKAGE, "README.md")):
            self.assertIn(f"{NAME}.tar.gz", page)

    def test_the_files(self) -> None:
        self.assertEqual(names_below(self.unpacked), names_below(PACKAGE) | {"PKG-INFO", "setup.cfg"})

    def test_nothing_is_built(self) -> None:
        for name in names_below(self.unpacked):
            self.assertNotIn(os.path.splitext(name)[1], (".a", ".o", ".so", ".pyc"))
            with open(os.path.join(self.unpacked, name), "rb") as file:
                self.assertFalse(file.read().startswith((b"!<arch>", b"!<thin>", b"\x7fELF")), name)

    def test_nothing_that_is_built_gets_in(self) -> None:
        for name in ("native/made.o", "tests/made.a", "examples/made.so"):
            shutil.copy(self.library, os.path.join(self.unpacked, name))
        status, said = run(self.room, PYTHON, "-m", "build", "--no-isolation", "--sdist", "--outdir", "again", self.unpacked)
        self.assertEqual(status, 0, said)
        [again] = glob(os.path.join(self.room, "again", "*"))
        with tarfile.open(again) as archive, tarfile.open(SOURCES) as first:
            found, wanted = ({member.name for member in it if member.isfile()} for it in (archive, first))
        self.assertEqual(found, wanted)

    def test_the_metadata_is_that_of_the_wheel(self) -> None:
        with zipfile.ZipFile(WHEEL) as archive:
            wanted = archive.read(f"{NAME}.dist-info/METADATA").decode()
        self.assertEqual(fields(content(self.unpacked, "PKG-INFO")), fields(wanted))

    def test_says_that_the_library_is_missing(self) -> None:
        for how, command in BUILDS.items():
            status, said = run(self.room, *command)
            self.assertEqual(status, 1, said)
            lines = [line.strip() for line in said.split("\n")]
            self.assertIn("error: NODE_SEMVER_LIBRARY is not set.", lines, how)
            self.assertIn(f"libnode_semver.a and libnpm_calls.a of version {VERSION}.", said)
            self.assertIn(f"unpack denimscree-{VERSION}-linux-x86_64.tar.gz", said)
            self.assertNotIn("Traceback", said)
            self.assertEqual(glob(os.path.join(self.room, "made", "*")), [])

    def test_is_built_over_the_library_of_a_release(self) -> None:
        for how, command in BUILDS.items():
            status, said = run(self.room, *command, NODE_SEMVER_LIBRARY=self.library)
            self.assertEqual(status, 0, said)
            [wheel] = glob(os.path.join(self.room, "made", "*"))
            with zipfile.ZipFile(wheel) as archive, zipfile.ZipFile(WHEEL) as first:
                self.assertEqual(sorted(archive.namelist()), sorted(first.namelist()), how)
            target = os.path.join(self.room, how)
            status, said = run(self.room, PYTHON, "-m", "pip", "install", "--no-index", "--target", target, wheel)
            self.assertEqual(status, 0, said)
            self.assertEqual(run(self.room, PYTHON, "-B", "-c", PROGRAM, PYTHONPATH=target), (0, PRINTED))
            os.remove(wheel)


if __name__ == "__main__":
    unittest.main()
