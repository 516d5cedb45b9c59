# SPDX-License-Identifier: Apache-2.0
"""100,000 random texts: each is read or refused as the grammar says, and what is read upholds the laws of its type.

NODE_SEMVER_SEED sets the seed, which a failure prints.
"""

import os
import random
import re
import unittest
from typing import List, Optional, Tuple, Union

from node_semver import Range, SemverError, Version

SEED = int(os.environ.get("NODE_SEMVER_SEED", "20261124"))
TEXTS = 50_000  # of versions, and as many of ranges
MAX_NUMBER = 9007199254740991

# A version text as SemVer 2.0.0 has it.
NUMBER, PRERELEASE = r"(?:0|[1-9][0-9]*)", r"(?:0|[1-9][0-9]*|[0-9]*[A-Za-z-][0-9A-Za-z-]*)"
STRICT = re.compile(
    rf"{NUMBER}\.{NUMBER}\.{NUMBER}(?:-{PRERELEASE}(?:\.{PRERELEASE})*)?(?:\+[0-9A-Za-z-]+(?:\.[0-9A-Za-z-]+)*)?"
)

# A version text as docs/GRAMMAR.md has it. A prerelease without `-` begins with a letter.
IDENTIFIERS = r"[0-9A-Za-z-]+(?:\.[0-9A-Za-z-]+)*"
VERSION = re.compile(
    rf"[vV]?[ \t]*([0-9]+)\.([0-9]+)\.([0-9]+)(?:-({IDENTIFIERS})|(?=[A-Za-z])({IDENTIFIERS}))?(?:\+({IDENTIFIERS}))?"
)

PIECES = [
    "0", "1", "2", "10", "01", "9007199254740991", "9007199254740992", "18446744073709551616", ".", ".", ".", "-", "+",
    "a", "rc", "v", "V", "x", "*", " ", " ", "\t", "\n", "||", "|", "^", "~", ">", ">=", "<", "<=", "=", " - ",
    "\u0161", "\u00a0", "\0", "\U0001f600", "\ud800", "1.2.3", "1.2.3-rc.4", "^1.2", "2 - 3", "1.2.x", "+b.7",
]  # fmt: skip


def random_text(chance: random.Random) -> str:
    return "".join(chance.choice(PIECES) for _ in range(chance.randrange(1, 9)))


def random_version(chance: random.Random) -> str:
    """A text that is mostly a version, since the pieces alone seldom make one."""
    numbers = ".".join(str(chance.choice([0, 1, 2, 3, 10, MAX_NUMBER])) for _ in range(3))
    extras = chance.choice(["", "", "-0", "-rc.4", "-a", "beta", "-00", "-1.a", "--", "-a.", "- 1"])
    build = chance.choice(["", "", "", "+b", "+1.07", "+"])
    lead, end = chance.choice(["", "", "", "v", "V ", " "]), chance.choice(["", "", "", " ", "1"])
    return lead + numbers + extras + build + end


def identifiers_of(text: Optional[str]) -> Tuple[Union[int, str], ...]:
    """The identifiers of a text with dots between; one of digits is a number if it fits 64 bits."""
    if text is None:
        return ()
    parts = text.split(".")
    return tuple(int(part) if part.isdigit() and int(part) < 2**64 else part for part in parts)


class RandomTexts(unittest.TestCase):
    def check_version(self, text: str) -> Optional[Version]:
        match = VERSION.fullmatch(text)
        triple = None if match is None else tuple(int(number) for number in match.groups()[:3])
        is_version = triple is not None and len(text) <= 256 and max(triple) <= MAX_NUMBER
        self.check_strict(text, is_version)
        try:
            version = Version(text)
        except SemverError as error:
            self.assertFalse(is_version, error)
            str(error)
            return None
        self.assertTrue(is_version)
        assert match is not None
        self.assertEqual((version.major, version.minor, version.patch), triple)
        self.assertEqual(version.prerelease, identifiers_of(match[4] or match[5]))
        self.assertEqual(version.build, identifiers_of(match[6]))
        again = Version(str(version))
        self.assertEqual(version.compare_build(again), 0)
        self.assertEqual((again, hash(again), str(again)), (version, hash(version), str(version)))
        return version

    def check_strict(self, text: str, is_version: bool) -> None:
        is_strict = is_version and STRICT.fullmatch(text) is not None
        try:
            self.assertEqual(Version(text, strict=True), Version(text))
        except SemverError as error:
            self.assertFalse(is_strict, error)
            return
        self.assertTrue(is_strict)

    def check_range(self, text: str) -> Optional[Range]:
        try:
            wanted = Range(text)
        except SemverError as error:
            str(error)
            return None
        if not re.search(r"\d{16}", str(wanted)):
            again = Range(str(wanted))
            self.assertEqual((again, hash(again), str(again)), (wanted, hash(wanted), str(wanted)))
        return wanted

    def check_pair(self, one: Range, other: Range, versions: List[Version]) -> None:
        both, either, rest = one & other, one | other, one - other
        least, beyond, common = one.min_version(), one.least_beyond(other), one.least_common(other)
        self.assertEqual(one.allows_any(other), both is not None)
        self.assertEqual(other.allows_all(one), rest is None)
        if least is not None:
            self.assertTrue(least in one)
        if beyond is not None:
            self.assertTrue(beyond in one and beyond not in other)
        if common is not None:
            self.assertTrue(common in one and common in other)
        inside = one.filter(versions)
        for version in inside:
            self.assertFalse(least is None or version < least)
        for version in versions:
            self.assertEqual(version in one, version in inside)
            self.assertEqual(version in either, version in one or version in other)
            if version in one and version not in other:
                self.assertFalse(beyond is None or version < beyond)
            if version in one and version in other:
                self.assertFalse(common is None or version < common)
            self.assertTrue(one.contains(version) or version not in one)
            if both is not None:
                self.assertEqual(both.contains(version), one.contains(version) and other.contains(version))
            if not version.is_prerelease:
                self.assertEqual(one.contains(version), version in one)
                self.assertEqual(both is not None and version in both, version in one and version in other)
                self.assertEqual(rest is not None and version in rest, version in one and version not in other)
        self.assertEqual((Range.from_sets(one.sets), str(Range.from_sets(one.sets))), (one, str(one)))
        self.assertEqual(one.max_satisfying(versions), max(inside, default=None))
        self.assertEqual(one.min_satisfying(versions), min(inside, default=None))

    def test_versions(self) -> None:
        chance = random.Random(SEED)
        read = 0
        for place in range(TEXTS):
            text = random_text(chance) if place % 2 else random_version(chance)
            with self.subTest(seed=SEED, text=text):
                read += self.check_version(text) is not None
        self.assertTrue(TEXTS // 10 < read < TEXTS, read)

    def test_ranges(self) -> None:
        chance = random.Random(SEED)
        last = Range("^1.2.3-rc.4 || >=3")
        texts = ["0.0.0", "1.0.0", "1.2.3", "1.2.3-rc.4", "1.2.3-rc.5", "1.2.9", "2.0.0", "2.0.0-0", "3.0.1", "10.2.1"]
        versions = [Version(text) for text in texts]
        read = 0
        for _ in range(TEXTS):
            text = random_text(chance)
            with self.subTest(seed=SEED, text=text, last=str(last)):
                wanted = self.check_range(text)
                if wanted is not None:
                    read += 1
                    self.check_pair(wanted, last, versions)
                    last = wanted
        self.assertTrue(TEXTS // 10 < read < TEXTS, read)


if __name__ == "__main__":
    unittest.main()
