# SPDX-License-Identifier: Apache-2.0
"""Worked rows: the values are those of docs/GRAMMAR.md, of SemVer 2.0.0 and of npm's documentation."""

import functools
import itertools
import unittest
from typing import Callable, Dict, List, Literal, Optional, Tuple

from node_semver import BumpError, BumpFault, Range, ReleaseType, SemverError, Version, satisfies

# SemVer 2.0.0, section 11.
CHAIN = [
    "1.0.0-alpha", "1.0.0-alpha.1", "1.0.0-alpha.beta", "1.0.0-beta", "1.0.0-beta.2", "1.0.0-beta.11", "1.0.0-rc.1",
    "1.0.0", "2.0.0", "2.1.0", "2.1.1",
]  # fmt: skip

# A text, its print, its numbers, prerelease and build.
VERSIONS = [
    ("1.2.3", "1.2.3", (1, 2, 3), (), ()),
    ("v 01.2.3alpha.1+5", "1.2.3-alpha.1+5", (1, 2, 3), ("alpha", 1), (5,)),
    ("1.2.34-abc.213+2", "1.2.34-abc.213+2", (1, 2, 34), ("abc", 213), (2,)),
    ("1.2.3-001+007.x", "1.2.3-1+7.x", (1, 2, 3), (1,), (7, "x")),
    ("1.0.0-rc.2-migration", "1.0.0-rc.2-migration", (1, 0, 0), ("rc", "2-migration"), ()),
    ("1.0.0--a", "1.0.0--a", (1, 0, 0), ("-a",), ()),
    ("1.2.9007199254740991", "1.2.9007199254740991", (1, 2, 9007199254740991), (), ()),
    ("1.2.3-18446744073709551615", "1.2.3-18446744073709551615", (1, 2, 3), (18446744073709551615,), ()),
    ("1.2.3-18446744073709551616", "1.2.3-18446744073709551616", (1, 2, 3), ("18446744073709551616",), ()),
    ("1.2.3-00099999999999999999999", "1.2.3-00099999999999999999999", (1, 2, 3), ("00099999999999999999999",), ()),
]

# A text that is not a version; the kind, offset and number of its fault.
REFUSED_VERSIONS = [
    ("1" * 257, "MaxLengthError", 256, None),
    ("", "Context", 0, None),
    ("1.", "Context", 2, None),
    (" v1.2.3", "Context", 1, None),
    ("1.2", "Context", 3, None),
    ("18446744073709551616.0.0", "ParseIntError", 0, None),
    ("1.2.9007199254740992", "MaxIntError", 4, 9007199254740992),
    ("1.2.18446744073709551615", "MaxIntError", 4, 18446744073709551615),
    ("1.2.3 ", "Other", 5, None),
    ("1.2.3-a.+b", "Other", 7, None),
    ("1.2.3-\u0161", "Other", 5, None),
    ("1.2.3\0", "Other", 5, None),
]

# A text that is a version, but not by the grammar of SemVer 2.0.0; where it is not.
NOT_STRICT = [
    ("v1.2.3", 0), ("V1.2.3", 0), ("v 1.2.3", 0), ("01.2.3", 0), ("00.2.3", 0), ("1.02.3", 2), ("1.2.03", 4),
    ("1.2.3a", 4), ("1.2.3-01", 6), ("1.2.3-a.01+b", 8), ("1.2.3-a.00", 8),
]  # fmt: skip
STRICT = ["1.2.3", "0.0.0", "1.2.3-a.1+01", "1.2.3-0a", "1.2.3--", "1.2.3-0", "1.2.3+a-b.007", "1.2.9007199254740991"]

Base = Literal[0, 1, None]

# A version, a release type, an identifier, a base and the result: npm's README, "Functions", "Prerelease Identifiers"
# and "Prerelease Identifier Base", and the results of its `semver` 7.6.2.
BUMPS: List[Tuple[str, ReleaseType, Optional[str], Base, str]] = [
    ("1.2.3", "prerelease", "beta", 0, "1.2.4-beta.0"),
    ("1.2.4-beta.0", "prerelease", None, 0, "1.2.4-beta.1"),
    ("1.2.3", "prerelease", "beta", 1, "1.2.4-beta.1"),
    ("1.2.3", "prerelease", "beta", None, "1.2.4-beta"),
    ("1.2.3", "major", None, 0, "2.0.0"),
    ("1.2.3", "premajor", None, 0, "2.0.0-0"),
    ("1.2.3", "minor", None, 0, "1.3.0"),
    ("1.2.3", "preminor", None, 1, "1.3.0-1"),
    ("1.2.3+b.1", "patch", None, 0, "1.2.4"),
    ("1.2.3", "prepatch", "beta", 0, "1.2.4-beta.0"),
    ("1.2.3", "prerelease", None, 0, "1.2.4-0"),
    ("1.2.3", "pre", None, 0, "1.2.3-0"),
    ("2.0.0-rc.1", "major", None, 0, "2.0.0"),
    ("2.0.0-rc.1", "minor", None, 0, "2.0.0"),
    ("2.0.0-rc.1", "patch", None, 0, "2.0.0"),
    ("1.2.4-beta.1", "prerelease", "beta", None, "1.2.4-beta.2"),
    ("1.2.4-beta.1", "prerelease", "alpha", 1, "1.2.4-alpha.1"),
    ("1.2.4-alpha.1.beta", "prerelease", "alpha", 1, "1.2.4-alpha.2.beta"),
    ("1.2.3", "prerelease", "1", 0, "1.2.4-1.0"),
    ("1.2.4-1.0", "prerelease", "1", 0, "1.2.4-1.1"),
    ("1.2.3", "prerelease", "", 0, "1.2.4-0"),
    ("1.2.3", "major", "beta", None, "2.0.0"),
]

# What has no bumped version, and why.
NOT_BUMPED: List[Tuple[str, ReleaseType, Optional[str], Base, BumpFault]] = [
    ("1.2.3", "prerelease", None, None, "NoIdentifier"),
    ("1.2.3", "premajor", "", None, "NoIdentifier"),
    ("1.2.4-beta", "prerelease", "beta", None, "SameIdentifier"),
    ("9007199254740991.0.0", "major", None, 0, "NumberTooLarge"),
    ("1.0.0-a.9007199254740991", "prerelease", None, 0, "NumberTooLarge"),
    ("1.2.3", "prerelease", "beta.1", 0, "InvalidIdentifier"),
    ("1.2.3", "major", "a b", 0, "InvalidIdentifier"),
    ("1.2.3", "prerelease", "b\u0117ta", 0, "InvalidIdentifier"),
    ("1.2.3", "prerelease", "a\0", 0, "InvalidIdentifier"),
    ("1.2.3", "prerelease", "-" * 20000 + "!", 0, "InvalidIdentifier"),
]

RANGE_PRINTS = [
    ("^1.2.3-rc.4 || >=3", ">=1.2.3-rc.4 <2.0.0-0||>=3.0.0"),
    ("*", ">=0.0.0"),
    ("<=2.0", "<=2.0.0-0"),
    ("^0", "<1.0.0-0"),
    ("^0.0.3-a+b", ">=0.0.3-a <0.0.4-0"),
    ("~> 1.2", ">=1.2.0 <1.3.0-0"),
    ("1.2.3 || >4", "1.2.3||>=5.0.0"),
    ("1 - 2.3", ">=1.0.0 <2.4.0-0"),
    (" - 10", "<11.0.0-0"),
    (">= foo 1", ">=1.0.0 <2.0.0-0"),
]

REFUSED_RANGES = ["", "foo", "latest", ">4 <3", "2 - 1 1.2.3", "||", "1.2.3.4", "V1.2.3", "1\r", "\u0161"]

# A range, the versions in it, and versions that are not.
MEMBERS = [
    ("^1.2.3-rc.4 || >=3", ["1.9.0", "1.2.3-rc.5", "3.0.0"], ["2.0.0", "1.2.4-rc.6"]),
    (">=1.2.3-rc.4 <2.0.0", ["1.2.3-rc.5", "1.2.4"], ["1.2.4-rc.6"]),
    ("<1.0.1-beta", ["1.0.1-0", "1.0.0"], ["1.0.0-a", "1.0.1"]),
    (">=1.2.3-a >=1.2.3-b", ["1.2.3-c"], ["1.2.3-a"]),
    (">=1.2.3-a || >=2", ["1.2.3-b", "2.0.0"], ["1.2.4-b", "2.0.0-b"]),
]


def fault(error: SemverError) -> Tuple[str, int, Optional[int]]:
    return error.kind, error.offset, error.number


class Rows(unittest.TestCase):
    def test_reads_and_prints_versions(self) -> None:
        for text, shown, triple, prerelease, build in VERSIONS:
            with self.subTest(text):
                version = Version(text)
                self.assertEqual(str(version), shown)
                self.assertEqual(repr(version), f"Version({shown!r})")
                self.assertEqual(eval(repr(version)), version)
                self.assertEqual((version.major, version.minor, version.patch), triple)
                self.assertEqual((version.prerelease, version.build), (prerelease, build))
                self.assertIs(version.is_prerelease, prerelease != ())

    def test_prints_a_long_version(self) -> None:
        identifiers = "a" * 249
        version = Version("1.2.3" + identifiers + "+b")
        self.assertEqual(str(version), f"1.2.3-{identifiers}+b")
        self.assertEqual(version.prerelease, (identifiers,))

    def test_refuses_versions(self) -> None:
        for text, *wanted in REFUSED_VERSIONS:
            with self.subTest(text):
                with self.assertRaises(SemverError) as caught:
                    Version(text)
                self.assertEqual(fault(caught.exception), tuple(wanted))
                self.assertEqual(caught.exception.text, text)

    def test_reads_strict_versions(self) -> None:
        for text in STRICT:
            version = Version(text, strict=True)
            self.assertEqual((version, str(version)), (Version(text), text.replace("+01", "+1").replace(".007", ".7")))
        for text, offset in NOT_STRICT:
            with self.subTest(text):
                self.assertEqual(Version(text, strict=False), Version(text))
                with self.assertRaises(SemverError) as caught:
                    Version(text, strict=True)
                self.assertEqual((caught.exception.text, fault(caught.exception)), (text, ("Other", offset, None)))

    def test_refuses_in_strict_form_what_is_no_version(self) -> None:
        for text, *wanted in REFUSED_VERSIONS:
            with self.subTest(text):
                with self.assertRaises(SemverError) as caught:
                    Version(text, strict=True)
                self.assertEqual(fault(caught.exception), tuple(wanted))

    def test_half_a_pair_of_utf_16_is_a_character(self) -> None:
        # It is read as any character of three bytes that no version and no range has.
        reads: List[Callable[[str], object]] = [
            Version, lambda text: Version(text, strict=True), Range, Range.parse_npm, lambda text: text in Range("1"),
            lambda text: Range("1").contains(text), lambda text: satisfies(text, "1"), lambda text: satisfies("1.2.3", text),
            lambda text: Range.from_sets([(("before", text), ("end", None))]),
        ]  # fmt: skip
        for read in reads:
            for text in ("?", "1.2.3-?", "?1.2.3", "1.?.3", "\xe9? ?", "a" * 300 + "?", "1.2.3-" + "\ud7ff\ue000" * 90 + "?"):
                for half in ("\ud800", "\udbff", "\udc00", "\udfff", "\udfff\ud800"):
                    given, like = text.replace("?", half), text.replace("?", "\u20ac" * len(half))
                    with self.subTest(read=read, given=given):
                        with self.assertRaises(SemverError) as caught:
                            read(given)
                        with self.assertRaises(SemverError) as wanted:
                            read(like)
                        self.assertEqual(fault(caught.exception), fault(wanted.exception))
                        self.assertEqual(caught.exception.text, given)
                        self.assertEqual(str(caught.exception).split("\n")[0], str(wanted.exception).split("\n")[0])
        self.assertEqual(fault(caught.exception)[0], "MaxLengthError")
        with self.assertRaises(SemverError) as caught:
            Version("1.2.3-\ud800")
        self.assertEqual(fault(caught.exception), ("Other", 5, None))
        self.assertEqual(str(Range("\ud800 || ^1")), str(Range("\u20ac || ^1")))
        self.assertEqual(str(Version.coerce("\ud8001.2.3\udc00")), "1.2.3")
        for name in ("filter", "max_satisfying"):
            self.assertEqual(getattr(Range("1"), name)(["1.2.3-\ud800", "1.0.0"]), {"filter": ["1.0.0"]}.get(name, "1.0.0"))

    def test_reads_and_prints_ranges(self) -> None:
        for text, shown in RANGE_PRINTS:
            with self.subTest(text):
                self.assertEqual(str(Range(text)), shown)
                self.assertEqual(repr(Range(text)), f"Range({shown!r})")
                self.assertEqual(eval(repr(Range(text))), Range(text))

    def test_prints_a_long_range(self) -> None:
        long = Range("||".join(map(str, range(40))))
        self.assertEqual(str(long).split("||")[1:], [f">={n}.0.0 <{n + 1}.0.0-0" for n in range(1, 40)])
        self.assertIs(str(long), str(long))

    def test_refuses_ranges(self) -> None:
        for text in REFUSED_RANGES:
            with self.subTest(text):
                with self.assertRaises(SemverError) as caught:
                    Range(text)
                self.assertEqual(fault(caught.exception), ("NoValidRanges", 0, None))
                self.assertEqual(caught.exception.text, text)

    def test_versions_are_in_ranges(self) -> None:
        for text, inside, outside in MEMBERS:
            for version in inside + outside:
                with self.subTest(range=text, version=version):
                    self.assertIs(version in Range(text), version in inside)
                    self.assertIs(Version(version) in Range(text), version in inside)
                    self.assertIs(satisfies(version, text), version in inside)
            self.assertEqual(Range(text).filter(inside + outside), inside)

    def test_orders_the_standards_chain(self) -> None:
        versions = [Version(text) for text in CHAIN]
        self.assertEqual(sorted(versions, reverse=True), versions[::-1])
        for (i, one), (j, other) in itertools.product(enumerate(versions), repeat=2):
            answers = [one < other, one <= other, one == other, one != other, one >= other, one > other]
            self.assertEqual(answers, [i < j, i <= j, i == j, i != j, i >= j, i > j])

    def test_equal_values_have_one_hash(self) -> None:
        self.assertEqual(Version("1.2.3+a"), Version("1.2.3+b"))
        self.assertEqual(len({Version("1.2.3+a"), Version("1.2.3+b"), Version("1.2.4")}), 2)
        self.assertEqual(len({Range("=1.2.3+a"), Range("=1.2.3+b"), Range("1||2"), Range("2||1")}), 3)
        self.assertNotEqual(Range("1||2"), Range("2||1"))
        self.assertNotEqual(Version("1.2.3"), "1.2.3")
        self.assertNotEqual(Range("1"), "1")
        self.assertNotEqual(Range("1.2.3"), Version("1.2.3"))

    def test_combines_ranges(self) -> None:
        one, other = Range("1 || 3"), Range("1.5.0 || 3.1.0")
        self.assertEqual(str(one & other), "1.5.0||3.1.0")
        self.assertEqual(
            str(one - other), ">=1.0.0 <1.5.0||>1.5.0 <2.0.0-0||>=3.0.0 <3.1.0||>3.1.0 <4.0.0-0"
        )
        self.assertEqual(str(one | other), f"{one}||{other}")
        self.assertEqual(str(Range("1") | Range("1")), ">=1.0.0 <2.0.0-0||>=1.0.0 <2.0.0-0")
        self.assertIsNone(Range("1") & Range("2"))
        self.assertIsNone(Range("1.5.0") - Range("1"))
        self.assertEqual((one.allows_all(other), other.allows_all(one)), (True, False))
        self.assertEqual((one.allows_any(other), one.allows_any(Range("2"))), (True, False))

    def test_finds_least_versions(self) -> None:
        rows = [(">1.0.0-a", "1.0.0-a.0"), (">1.0.0 <1.0.1-beta", "1.0.1-0"), (">1.0.0-a <1.0.0-a.0", "None")]
        for text, wanted in rows:
            self.assertEqual(str(Range(text).min_version()), wanted)
        self.assertEqual(str(Range("^1.2.3-rc.4").least_beyond(Range(">=1.0.0-0"))), "1.2.3-rc.4")
        self.assertIsNone(Range("1 - 2").least_beyond(Range("1 || 2")))

    def test_least_common_versions(self) -> None:
        rows = [
            ("^2.0.0-rc.1", ">=1.5", "2.0.0"),
            ("^1.2.3-rc.4", ">=1.2.3-rc.2 <1.2.3", "1.2.3-rc.4"),
            (">1.0.0-a <1.0.0-b", ">=1.0.0-a.0 <2", "1.0.0-a.0"),
            ("1 - 2", "3", "None"),
            (">=1.0.0-a <1.0.0", ">=0.9", "None"),
            ("^1.2 || ^3", "^2 || 3.1.0+b", "3.1.0"),
        ]
        for one, other, wanted in rows:
            with self.subTest(one=one, other=other):
                self.assertEqual(str(Range(one).least_common(Range(other))), wanted)
                self.assertEqual(str(Range(other).least_common(Range(one))), wanted)

    def test_versions_inside_a_set(self) -> None:
        for text, version, is_inside, is_member in [
            ("^1.2.3-rc.4", "1.2.4-rc.6", True, False),
            ("^1.2.3-rc.4", "1.2.3-rc.3", False, False),
            ("^1.2.3-rc.4", "1.2.3-rc.5", True, True),
            ("^1.2.3", "2.0.0-0", False, False),
            ("^1.2.3", "1.9.0", True, True),
            (">=18", "18.0.0-rc.1", False, False),
            ("<2 || >=3", "2.0.0-a", True, False),
            ("<2 || >=3", "2.0.1-a", False, False),
            ("<2 || >=3", "3.1.0-a", True, False),
        ]:
            with self.subTest(range=text, version=version):
                self.assertIs(Range(text).contains(version), is_inside)
                self.assertIs(Range(text).contains(Version(version)), is_inside)
                self.assertIs(version in Range(text), is_member)
        with self.assertRaises(SemverError):
            Range("*").contains("1.2")

    def test_order_with_builds(self) -> None:
        texts = ["1.2.3-a+z", "1.2.3", "1.2.3+0", "1.2.3+2", "1.2.3+10", "1.2.3+10.0", "1.2.3+a", "1.2.3+b", "1.2.4"]
        versions = [Version(text) for text in texts]
        for (i, one), (j, other) in itertools.product(enumerate(versions), repeat=2):
            self.assertEqual(one.compare_build(other), (i > j) - (i < j), (one, other))
        key = functools.cmp_to_key(Version.compare_build)
        self.assertEqual([str(version) for version in sorted(versions[::-1], key=key)], texts)

    def test_npms_own_reading(self) -> None:
        # A text, its options, versions that the range contains, and versions that it does not.
        rows: List[Tuple[str, Dict[str, bool], List[str], List[str]]] = [
            ("<=20", {}, ["20.5.0", "0.0.0"], ["21.0.0", "21.0.0-0"]),
            ("", {}, ["0.0.0", "9.9.9"], []),
            ("^1 ||", {}, ["1.2.3", "3.0.0"], []),
            ("1.x.3", {}, ["1.9.0"], ["2.0.0"]),
            (">4 <3", {}, [], ["3.5.0", "5.0.0", "2.0.0"]),
            (">=18", {}, ["18.0.0", "19.0.0-rc.1"], ["18.0.0-rc.1", "17.9.9"]),
            (">=18", {"include_prerelease": True}, ["18.0.0-rc.1", "18.0.0"], ["17.9.9"]),
            ("^1 next", {"loose": True}, ["1.2.3"], ["2.0.0"]),
            ("\t>=1.2.3\n<2 ", {"loose": False}, ["1.2.3"], ["2.0.0"]),
        ]
        for text, options, inside, outside in rows:
            with self.subTest(text, **options):
                wanted = Range.parse_npm(text, **options)
                self.assertEqual([v for v in inside + outside if wanted.contains(v)], inside)
        for text, loose, offset in [
            ("^1 next", False, 3),
            ("1\u3000|| >= \xe9 2", False, 7),
            ("1.2.3.4", False, 0),
            ("latest", True, 0),
            ("1 9007199254740992", True, 0),
        ]:
            with self.assertRaises(SemverError) as caught:
                Range.parse_npm(text, loose=loose)
            self.assertEqual((caught.exception.text, fault(caught.exception)), (text, ("NoValidRanges", offset, None)))

    def test_raises_versions(self) -> None:
        for text, release, identifier, base, wanted in BUMPS:
            with self.subTest(text, release=release, identifier=identifier, base=base):
                bumped = Version(text).bump(release, identifier=identifier, base=base)
                self.assertEqual((type(bumped), str(bumped)), (Version, wanted))
        self.assertEqual(str(Version("1.2.3").bump("preminor")), "1.3.0-0")
        self.assertEqual(str(Version("1.2.3").bump("pre", identifier="-" * 20000)), f"1.2.3-{'-' * 20000}.0")
        for text, release, identifier, base, kind in NOT_BUMPED:
            with self.subTest(text, release=release, identifier=identifier, base=base):
                with self.assertRaises(BumpError) as caught:
                    Version(text).bump(release, identifier=identifier, base=base)
                self.assertEqual(caught.exception.kind, kind)
        for identifier in ("\ud800", "\udfffa", "\u20ac"):
            with self.assertRaises(BumpError) as caught:
                Version("1.2.3").bump("pre", identifier=identifier)
            self.assertEqual(caught.exception.kind, "InvalidIdentifier")

    def test_bumps(self) -> None:
        # What npm's README says of `diff`, and its names.
        for one, other, wanted in [
            ("1.2.3", "2.0.0", "major"), ("1.2.3", "2.0.0-rc.1", "premajor"), ("1.2.3", "1.3.0", "minor"),
            ("1.2.3", "1.3.0-rc.1", "preminor"), ("1.2.3", "1.2.4", "patch"), ("1.2.3", "1.2.4-rc.1", "prepatch"),
            ("1.2.3-rc.1", "1.2.3-rc.2", "prerelease"), ("1.0.0-rc.1", "1.0.0", "major"),
            ("1.2.0-rc.1", "1.2.0", "minor"), ("1.2.3-rc.1", "1.2.3", "patch"),
            ("1.2.3", "1.2.3", None), ("1.2.3+a", "1.2.3+b", None), ("1.2.3-rc.1+a", "1.2.3-rc.1", None),
        ]:  # fmt: skip
            with self.subTest(one=one, other=other):
                self.assertEqual(Version(one).diff(Version(other)), wanted)
                self.assertEqual(Version(other).diff(Version(one)), wanted)

    def test_chooses_versions(self) -> None:
        texts = ["2.0.0", "1.2.3+a", "1.0.0", "1.0.0+b", "1.2.3+b", "1.3.0-rc.1"]
        versions = [Version(text) for text in texts]
        wanted = Range("^1")
        self.assertEqual((wanted.max_satisfying(texts), wanted.min_satisfying(texts)), ("1.2.3+a", "1.0.0"))
        self.assertIs(wanted.max_satisfying(versions), versions[1])
        self.assertIs(wanted.min_satisfying(iter(versions)), versions[2])
        self.assertEqual(wanted.filter(v for v in versions), versions[1:5])
        self.assertEqual(wanted.filter({"1.0.0": None}), ["1.0.0"])
        for choose in (wanted.max_satisfying, wanted.min_satisfying):
            self.assertIsNone(choose([]))
            self.assertIsNone(choose(["2.0.0", "0.1.0", "1.3.0-rc.1"]))
        self.assertEqual(wanted.filter([]), [])

    def test_prereleases_included(self) -> None:
        texts = ["2.0.0-rc.1", "1.2.3", "1.3.0-rc.1+a", "1.3.0-rc.1+b", "1.0.0-rc.1", "latest", "\ud800"]
        versions = [Version(text) for text in texts[:5]]
        wanted = Range("^1.0.0")
        self.assertEqual(wanted.filter(texts, include_prerelease=True), texts[1:4])
        self.assertEqual(wanted.filter(versions, include_prerelease=True), versions[1:4])
        self.assertEqual(wanted.max_satisfying(texts, include_prerelease=True), "1.3.0-rc.1+a")
        self.assertIs(wanted.max_satisfying(versions, include_prerelease=True), versions[2])
        self.assertEqual(wanted.min_satisfying(texts[2:], include_prerelease=True), "1.3.0-rc.1+a")
        for choose in (wanted.max_satisfying, wanted.min_satisfying):
            self.assertEqual(choose(texts, include_prerelease=False), "1.2.3")
            self.assertIsNone(choose(["1.0.0-rc.1", "2.0.0-0x"], include_prerelease=False))
            self.assertIsNone(choose([], include_prerelease=True))
        for text, least in [(">1.2.3", "1.2.4-0"), ("<1.0.0", "0.0.0-0"), (">1.0.0 <1.0.1-0", "None")]:
            self.assertEqual(str(Range(text).min_version(include_prerelease=True)), least)
        for one, other, beyond, common in [
            ("1 - 2", "1 || 2", "2.0.0-0", "1.0.0"),
            (">=1.0.0", "1.0.0", "1.0.1-0", "1.0.0"),
            ("^2.0.0-rc.1", ">=1.5", "None", "2.0.0-rc.1"),
            ("^1", "^2", "1.0.0", "None"),
        ]:
            with self.subTest(one=one, other=other):
                ranges = Range(one), Range(other)
                self.assertEqual(str(ranges[0].least_beyond(ranges[1], include_prerelease=True)), beyond)
                self.assertEqual(str(ranges[0].least_common(ranges[1], include_prerelease=True)), common)

    def test_finds_a_version_in_a_text(self) -> None:
        rows = [
            ("v1.2", "1.2.0", "1.2.0"),
            ("release node-14.x, of May 5", "14.0.0", "5.0.0"),
            ("1.2.3.4", "1.2.3", "2.3.4"),
            ("1.2.3-rc.1+5", "1.2.3", "5.0.0"),
            ("12345678901234567.2.3", "2.3.0", "2.3.0"),
            ("\u0661 \U0001f600 7", "7.0.0", "7.0.0"),
            ("01.2.3", "None", "None"),
            ("9007199254740992", "None", "None"),
            ("latest", "None", "None"),
            ("", "None", "None"),
        ]
        for text, first, last in rows:
            with self.subTest(text=text):
                self.assertEqual(str(Version.coerce(text)), first)
                self.assertEqual(str(Version.coerce(text, rtl=True)), last)
        full = [
            ("v1.2-rc.1", "1.2.0-rc.1", "1.2.0-rc.1"),
            ("1.2.3.4-rc.1+rev.2", "1.2.3", "2.3.4-rc.1+rev.2"),
            ("1.2.3-01", "1.2.3", "None"),
            ("1.2.3-4f", "1.2.3-4", "1.2.3-4"),
            ("latest", "None", "None"),
        ]
        for text, first, last in full:
            with self.subTest(text=text):
                self.assertEqual(str(Version.coerce(text, include_prerelease=True)), first)
                self.assertEqual(str(Version.coerce(text, rtl=True, include_prerelease=True)), last)
        self.assertIsNone(Version.coerce("\ud800"))

    def test_leaves_out_texts_that_are_no_versions(self) -> None:
        texts = ["latest", "1.2", "", "\ud800", "1.5.0", "v1.2.3 ", "1" * 300, "1.0.0", "1.2.9007199254740992"]
        wanted = Range("^1")
        self.assertEqual(wanted.filter(texts), ["1.5.0", "1.0.0"])
        self.assertEqual((wanted.max_satisfying(texts), wanted.min_satisfying(texts)), ("1.5.0", "1.0.0"))
        for choose in (wanted.max_satisfying, wanted.min_satisfying):
            self.assertIsNone(choose(["latest"]))
            self.assertIsNone(choose(["latest", "\ud800", "2.0.0"]))
        self.assertEqual(wanted.filter(["latest", "\ud800"]), [])
        with self.assertRaises(SemverError):
            wanted.__contains__("latest")
        with self.assertRaises(SemverError):
            satisfies("latest", "^1")

    def test_an_intersection_may_admit_what_one_range_refuses(self) -> None:
        one, other = Range("^2.0.0-rc.1"), Range(">=1.5")
        both = one & other
        assert both is not None
        self.assertEqual(("2.0.0-rc.4" in one, "2.0.0-rc.4" in other, "2.0.0-rc.4" in both), (True, False, True))

    def test_a_pair_of_texts(self) -> None:
        for version, range_, text, kind in [("1.2", "^1", "1.2", "Context"), ("1.2", "foo", "foo", "NoValidRanges")]:
            with self.assertRaises(SemverError) as caught:
                satisfies(version, range_)
            self.assertEqual((caught.exception.text, caught.exception.kind), (text, kind))


if __name__ == "__main__":
    unittest.main()
