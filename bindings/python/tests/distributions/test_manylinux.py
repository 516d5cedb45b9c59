# SPDX-License-Identifier: Apache-2.0
"""packaging/manylinux.py: the tag that a wheel gets, and the wheels that are refused.

The native parts of the made-up wheels need symbols of made-up libraries, with the names and versions that a row says.
"""

import base64
import hashlib
import os
import shutil
import subprocess
import tempfile
import unittest
import zipfile
from glob import glob
from typing import Dict, List, Tuple

from made import PYTHON, ROOT, WHEEL, run

SCRIPT = os.path.join(ROOT, "packaging", "manylinux.py")
C = "libc.so.6"
INFO = "made_up-1.0.dist-info"

# What the native part needs, as pairs of a library and a version of its symbols, and the tag. Versions are compared as numbers.
TAGGED: List[Tuple[List[Tuple[str, str]], str]] = [
    ([], "manylinux_2_5_x86_64"),
    ([(C, "GLIBC_2.2.5")], "manylinux_2_5_x86_64"),
    ([(C, "GLIBC_2.3.4"), ("libm.so.6", "GLIBC_2.4")], "manylinux_2_5_x86_64"),
    ([(C, "GLIBC_2.4"), (C, "GLIBC_2.14")], "manylinux_2_14_x86_64"),
    ([(C, "GLIBC_2.14"), (C, "GLIBC_2.9")], "manylinux_2_14_x86_64"),
    ([("libpthread.so.0", "GLIBC_2.12"), (C, "GLIBC_2.17")], "manylinux_2_17_x86_64"),
    ([(C, "GLIBC_2.28"), ("libdl.so.2", "GLIBC_2.3")], "manylinux_2_28_x86_64"),
]
# What it needs, and the reasons why there is no tag.
REFUSED: List[Tuple[List[Tuple[str, str]], List[str]]] = [
    ([(C, "GLIBC_2.29")], ["it needs symbols of GLIBC_2.29, and the tag allows 2.28"]),
    ([(C, "GLIBC_2.100")], ["it needs symbols of GLIBC_2.100, and the tag allows 2.28"]),
    ([(C, "GLIBC_3.0")], ["it needs symbols of GLIBC_3.0, and the tag allows 2.28"]),
    ([(C, "GLIBC_PRIVATE")], ["it needs symbols of GLIBC_PRIVATE"]),
    ([(C, "GLIBC_ABI_DT_RELR")], ["it needs symbols of GLIBC_ABI_DT_RELR"]),
    ([("libpython3.11.so.1.0", "")], ["it needs the library libpython3.11.so.1.0"]),
    ([("libnode_semver.so.1", ""), (C, "GLIBC_2.4")], ["it needs the library libnode_semver.so.1"]),
    (
        [("libstdc++.so.6", "GLIBCXX_3.4"), (C, "GLIBC_2.34")],
        [
            "it needs the library libstdc++.so.6",
            "it needs symbols of GLIBCXX_3.4",
            "it needs symbols of GLIBC_2.34, and the tag allows 2.28",
        ],
    ),
]


class Manylinux(unittest.TestCase):
    def setUp(self) -> None:
        room = tempfile.TemporaryDirectory()
        self.addCleanup(room.cleanup)
        self.room = room.name
        self.out = os.path.join(self.room, "out")

    def compile(self, path: str, source: str, *words: str) -> None:
        done = subprocess.run(
            ["cc", "-shared", "-fPIC", "-nostdlib", "-o", path, "-x", "c", "-", "-x", "none", *words],
            cwd=self.room, input=source, capture_output=True, text=True,
        )  # fmt: skip
        self.assertEqual(done.returncode, 0, done.stderr)

    def part(self, needed: List[Tuple[str, str]], *words: str) -> str:
        """A native part that calls a function of each library, in the version that is named."""
        versions: Dict[str, List[str]] = {}
        for library, version in needed:
            versions.setdefault(library, []).append(version)
        libraries: List[str] = []
        calls, place = "", 0
        for library, listed in versions.items():
            code, script = "", ""
            for version in listed:
                name = f"made_up_{place}"
                place += 1
                code += f"int {name}(void) {{ return 0; }}\n"
                script += f"{version} {{ global: {name}; }};\n" if version else ""
                calls += f"int {name}(void);\nint call_{name}(void) {{ return {name}(); }}\n"
            path = os.path.join(self.room, library)
            with open(path + ".map", "w", encoding="utf-8") as file:
                file.write(script)
            versioned = [f"-Wl,--version-script={path}.map"] if script else []
            self.compile(path, code, f"-Wl,-soname,{library}", *versioned, *words)
            libraries.append(path)
        made = os.path.join(self.room, "part.so")
        self.compile(made, calls or "int no_call;", "-Wl,--no-as-needed", *libraries, *words)
        return made

    def wheel(self, platform: str, *parts: str) -> str:
        """A wheel with these native parts, for this platform."""
        folder = tempfile.mkdtemp(dir=self.room)
        made = os.path.join(folder, f"made_up-1.0-cp310-abi3-{platform}.whl")
        wheel = f"Wheel-Version: 1.0\nGenerator: made_up\nRoot-Is-Purelib: false\nTag: cp310-abi3-{platform}\n"
        files = {f"{INFO}/METADATA": b"Metadata-Version: 2.1\nName: made-up\nVersion: 1.0\n", f"{INFO}/WHEEL": wheel.encode()}
        for number, part in enumerate(parts):
            with open(part, "rb") as file:
                files[f"made_up/part_{number}"] = file.read()
        record = ""
        for name, content in files.items():
            digest = base64.urlsafe_b64encode(hashlib.sha256(content).digest()).decode().rstrip("=")
            record += f"{name},sha256={digest},{len(content)}\n"
        with zipfile.ZipFile(made, "w") as archive:
            for name, content in {**files, f"{INFO}/RECORD": f"{record}{INFO}/RECORD,,\n".encode()}.items():
                archive.writestr(name, content)
        return made

    def tag(self, wheel: str) -> Tuple[int, List[str], List[str]]:
        """The status, the lines that are written, and the names of the wheels that are made."""
        status, said = run(self.room, PYTHON, SCRIPT, "tag", wheel, self.out)
        return status, said.splitlines(), [os.path.basename(path) for path in glob(os.path.join(self.out, "*"))]

    def check(self, wheel: str) -> Tuple[int, List[str]]:
        status, said = run(self.room, PYTHON, SCRIPT, "check", wheel)
        return status, said.splitlines()

    def test_the_tag_is_by_the_greatest_version(self) -> None:
        for needed, platform in TAGGED:
            with self.subTest(needed=needed):
                name = f"made_up-1.0-cp310-abi3-{platform}.whl"
                self.assertEqual(self.tag(self.wheel("linux_x86_64", self.part(needed))), (0, [], [name]))
                made = os.path.join(self.out, name)
                with zipfile.ZipFile(made) as archive:
                    self.assertIn(f"\nTag: cp310-abi3-{platform}\n".encode(), archive.read(f"{INFO}/WHEEL"))
                self.assertEqual(run(self.room, PYTHON, "-m", "wheel", "unpack", made)[0], 0)
                self.assertEqual(self.check(made), (0, []))
                os.remove(made)

    def test_the_greatest_of_all_parts(self) -> None:
        one = self.part([(C, "GLIBC_2.17")])
        os.rename(one, one + ".first")
        wheel = self.wheel("linux_x86_64", self.part([(C, "GLIBC_2.4")]), one + ".first", self.part([(C, "GLIBC_2.14")]))
        self.assertEqual(self.tag(wheel), (0, [], ["made_up-1.0-cp310-abi3-manylinux_2_17_x86_64.whl"]))

    def test_what_no_tag_allows_is_refused(self) -> None:
        for needed, reasons in REFUSED:
            with self.subTest(needed=needed):
                wheel = self.wheel("linux_x86_64", self.part(needed))
                self.assertEqual(self.tag(wheel), (1, [f"made_up/part_0: {reason}" for reason in reasons], []))

    def test_another_processor_is_refused(self) -> None:
        wheel = self.wheel("linux_i686", self.part([(C, "GLIBC_2.4")], "-m32"))
        self.assertEqual(self.tag(wheel), (1, ["made_up/part_0: it is not elf64-x86-64"], []))

    def test_a_stack_that_can_be_run_is_refused(self) -> None:
        wheel = self.wheel("linux_x86_64", self.part([(C, "GLIBC_2.4")], "-Wl,-z,execstack"))
        self.assertEqual(self.tag(wheel), (1, ["made_up/part_0: it needs a stack that can be run"], []))

    def test_a_wheel_that_says_too_little_is_refused(self) -> None:
        part = self.part([(C, "GLIBC_2.14"), (C, "GLIBC_2.4")])
        for minor in (5, 9, 13):
            reason = f"made_up/part_0: it needs symbols of GLIBC_2.14, and the tag allows 2.{minor}"
            self.assertEqual(self.check(self.wheel(f"manylinux_2_{minor}_x86_64", part)), (1, [reason]))
        for minor in (14, 17, 40):
            self.assertEqual(self.check(self.wheel(f"manylinux_2_{minor}_x86_64", part)), (0, []))
        other = self.part([(C, "GLIBC_2.4"), ("libz.so.1", "")])
        reason = "made_up/part_0: it needs the library libz.so.1"
        self.assertEqual(self.check(self.wheel("manylinux_2_17_x86_64", other)), (1, [reason]))

    def test_a_wheel_without_such_a_tag_is_refused(self) -> None:
        part = self.part([(C, "GLIBC_2.4")])
        for platform in ("linux_x86_64", "musllinux_1_2_x86_64", "manylinux_2_17_aarch64", "any"):
            wheel = self.wheel(platform, part)
            self.assertEqual(self.check(wheel), (1, [f"{wheel}: {platform} is no tag of manylinux on x86-64"]))
        wheel = self.wheel("manylinux_2_17_x86_64", part)
        renamed = wheel.replace("2_17", "2_5")
        os.rename(wheel, renamed)
        self.assertEqual(self.check(renamed), (1, [f"{renamed} has the tags cp310-abi3-manylinux_2_17_x86_64 inside"]))

    def test_a_wheel_without_a_native_part_is_refused(self) -> None:
        for wheel in (self.wheel("linux_x86_64"), self.wheel("linux_x86_64", SCRIPT)):
            self.assertEqual(self.tag(wheel), (1, [f"{wheel} has no native part"], []))

    def test_a_file_that_is_no_wheel_is_refused(self) -> None:
        self.assertEqual(self.check(SCRIPT), (1, [f"{SCRIPT} has not the name of a wheel"]))
        made = os.path.join(self.room, "made_up-1.0-cp310-abi3-manylinux_2_5_x86_64.whl")
        self.assertEqual(self.check(made), (1, [f"[Errno 2] No such file or directory: '{made}'"]))
        shutil.copy(SCRIPT, made)
        self.assertEqual(self.check(made), (1, ["File is not a zip file"]))

    def test_the_wheel(self) -> None:
        self.assertEqual(self.check(WHEEL), (0, []))
        self.assertEqual(self.tag(WHEEL), (0, [], [os.path.basename(WHEEL)]))


if __name__ == "__main__":
    unittest.main()
