# SPDX-License-Identifier: Apache-2.0
"""Keys of versions and intervals of ranges, against the order of versions and `in`; and a clause of SQL in a database."""

import random
import sqlite3
import unittest
from itertools import product
from typing import List

from node_semver import Range, SemverError, Version

# A version and its key, worked out by hand: below 240 a number is a byte, else 240 + n and n bytes; then 255, or the
# identifiers and 0.
KEYS = [
    ("0.0.0", "000000ff"),
    ("1.2.3", "010203ff"),
    ("1.2.3+build", "010203ff"),
    ("1.2.239", "0102efff"),
    ("1.2.240", "0102f1f0ff"),
    ("1.256.0", "01f2010000ff"),
    ("9007199254740991.0.0", "f71fffffffffffff0000ff"),
    ("1.2.3-0", "010203010000"),
    ("1.2.3-rc.4", "01020302726300010400"),
    ("1.2.3-240", "01020301f1f000"),
    ("1.2.3-18446744073709551615", "01020301f8ffffffffffffffff00"),
    ("1.2.3-a-b.--", "01020302612d6200022d2d0000"),
]

# A range and its intervals: the keys of its ends as hexadecimal text, and `p` for those of prereleases.
INTERVALS = [
    ("^1.2.3", ["010203ff 020000010000"]),
    ("1.2.3", ["010203ff 010203ff00"]),
    (">1.2.3", ["010203ff00 ff"]),
    ("<=1.2.3", [" 010203ff00"]),
    ("1 || 1", ["010000ff 020000010000"]),
    ("3 || <1", [" 010000ff", "030000ff 040000010000"]),
    ("<=1.2.3 || >1.2.3", [" ff"]),
    ("^1.2.3-rc.4", ["01020302726300010400 020000010000", "01020302726300010400 010203ff p"]),
    (">=1.2.3-0 <1.2.3", ["010203010000 010203ff", "010203010000 010203ff p"]),
    ("<1.2.3-0", [" 010203010000"]),
]

NUMBERS = ["0", "1", "2", "9", "10", "239", "240", "255", "256", "9007199254740991"]
PRERELEASES = ["", "-0", "-1", "-9", "-10", "-240", "-0.0", "-1.a", "-a", "-a.0", "-a.a", "-a-", "-aa", "-A", "--", "-rc.4"]
RANGES = [
    "*", "1", "^1", "^1.2.3", "~1.2", ">1.2", "<=1.2", "<1.2.3", "1.2.3", "^0.0.3", "^0.2.3-a", "^1.2.3-rc.4", "~1.2.3-0",
    ">1.2.3-a", "<1.2.3-rc.4", "<=1.2.3-a.0", "1.2.3-a - 1.2.3-aa", "1.2.3-a - 2.0.1-a", "<1.2.3-a || >=1.2.3-aa",
    ">=1.2.3-a <2 || >=1.2.3-aa <3", "^1.2.3-rc.4 || ^2.0.0-0", "240 || 255 || >=256.2", ">=1.2.3-0 <1.2.3", "1 || 2 || 9",
]  # fmt: skip


def versions() -> List[Version]:
    """Versions that lie close to each other, and two that differ from one of them in the build."""
    releases = [".".join(numbers) for numbers in product(NUMBERS, ["0", "2", "256"], ["0", "1", "3", "240"])]
    near = [release + extra for release in ("0.0.0", "0.0.3", "0.2.3", "1.2.3", "2.0.0", "2.0.1") for extra in PRERELEASES]
    return [Version(text) for text in releases + near + ["1.2.3+build", "1.2.3-rc.4+build"]]


class Keys(unittest.TestCase):
    def test_rows(self) -> None:
        for text, key in KEYS:
            with self.subTest(text):
                self.assertEqual(Version(text).key.hex(), key)

    def test_order(self) -> None:
        near = sorted(versions(), key=lambda version: (version.minor, version.patch))[:250] + versions()[-98:]
        for one in near:
            for other in near:
                self.assertEqual((one.key < other.key, one.key == other.key), (one < other, one == other), f"{one} {other}")

    def test_a_long_key(self) -> None:
        long = Version("1.2.3-" + ".".join("a" for _ in range(125)))
        self.assertEqual(long.key, b"\1\2\3" + 125 * b"\2a\0" + b"\0")


    def test_the_longest_keys(self) -> None:
        # A letter and a dot are three bytes of a key. A version of SemVer 2.0.0 has a hyphen, where the loose form has a letter.
        self.assertEqual(len(Version("0.0.0" + ".".join("a" * 126)).key), 382)
        self.assertEqual(len(Version("0.0.0-" + ".".join("a" * 124) + ".aa", strict=True).key), 380)
        chance = random.Random(1)
        for _ in range(20_000):
            extra = "".join(chance.choice("a0-.9Z.1") for _ in range(251))
            try:
                key = Version("0.0.0" + extra).key
            except SemverError:
                continue
            self.assertLessEqual(len(key), 382)


class Intervals(unittest.TestCase):
    def test_rows(self) -> None:
        for text, wanted in INTERVALS:
            with self.subTest(text):
                intervals = [f"{lower.hex()} {upper.hex()}{' p' * kind}" for lower, upper, kind in Range(text).intervals()]
                self.assertEqual(sorted(intervals), sorted(wanted))

    def test_each_version_is_in_an_interval_exactly_if_it_is_in_the_range(self) -> None:
        for wanted in map(Range, RANGES):
            intervals, included = wanted.intervals(), wanted.intervals(include_prerelease=True)
            for version in versions():
                key, kind = version.key, version.is_prerelease
                is_in = any(lower <= key < upper for lower, upper, of in intervals if of == kind)
                lies_in = any(lower <= key < upper for lower, upper, of in included if of == kind)
                self.assertEqual((is_in, lies_in), (version in wanted, wanted.contains(version)), f"{wanted} {version}")

    def test_intervals_ascend_and_do_not_touch(self) -> None:
        for wanted in map(Range, RANGES):
            for intervals in (wanted.intervals(), wanted.intervals(include_prerelease=True)):
                for kind in (False, True):
                    ends = [end for lower, upper, of in intervals if of == kind for end in (lower, upper)]
                    self.assertTrue(all(one < other for one, other in zip(ends, ends[1:])), f"{wanted}")

    def test_many_intervals(self) -> None:
        many = Range("||".join(f"{2 * n}.0.0" for n in range(2000)))
        self.assertEqual(len(many.intervals()), 2000)

    def test_refuses_an_argument(self) -> None:
        with self.assertRaises(TypeError):
            Range("^1").intervals(True)  # type: ignore[misc]


class Clauses(unittest.TestCase):
    def setUp(self) -> None:
        self.table = sqlite3.connect(":memory:")
        self.table.execute("CREATE TABLE versions (version TEXT, key BLOB, is_prerelease BOOLEAN)")
        rows = [(str(version), version.key, version.is_prerelease) for version in versions()]
        self.table.executemany("INSERT INTO versions VALUES (?, ?, ?)", rows)
        self.table.execute("CREATE INDEX keys ON versions (is_prerelease, key)")

    def tearDown(self) -> None:
        self.table.close()

    def test_a_table_has_the_same_versions(self) -> None:
        for wanted in map(Range, RANGES):
            with self.subTest(str(wanted)):
                where, keys = wanted.sql("key", "is_prerelease")
                found = [text for text, in self.table.execute(f"SELECT version FROM versions WHERE {where}", keys)]
                self.assertEqual(sorted(found), sorted(str(version) for version in versions() if version in wanted))
                where, keys = wanted.sql("v.key", "v.is_prerelease", include_prerelease=True)
                found = [text for text, in self.table.execute(f"SELECT version FROM versions v WHERE {where}", keys)]
                self.assertEqual(sorted(found), sorted(str(version) for version in versions() if wanted.contains(version)))

    def test_the_index_is_used(self) -> None:
        where, keys = Range("^1.2.3-rc.4 || ^2").sql("key", "is_prerelease")
        plan = str(self.table.execute(f"EXPLAIN QUERY PLAN SELECT * FROM versions WHERE {where}", keys).fetchall())
        self.assertEqual((plan.count("USING INDEX keys"), plan.count("SCAN")), (3, 0), plan)

    def test_the_text(self) -> None:
        self.assertEqual(
            Range("^1 || 3").sql("v.key", "v.is", placeholder="%s")[0],
            "(v.is = FALSE AND v.key >= %s AND v.key < %s OR v.is = FALSE AND v.key >= %s AND v.key < %s)",
        )

    def test_refuses_what_is_no_column(self) -> None:
        for name in ["", "a b", "a;", "1a", "a.", ".a", "a..b", 'a"', "é", "a\0", "a.1"]:
            with self.subTest(name):
                self.assertRaises(ValueError, Range("^1").sql, name, "is_prerelease")
                self.assertRaises(ValueError, Range("^1").sql, "key", name)
        self.assertRaises(TypeError, Range("^1").sql, b"key", "is_prerelease")
        self.assertRaises(TypeError, Range("^1").sql, "key")


if __name__ == "__main__":
    unittest.main()
