# SPDX-License-Identifier: Apache-2.0
"""Lists of 1,000 versions and ranges of 1,000 sets: each call of the package returns what a loop in Python returns."""

import pickle
import random
import time
import unittest
from typing import Callable, List, Union

from node_semver import Range, Version

COUNT = 1000
CHANCE = random.Random(7)


def shuffled(texts: List[str]) -> List[str]:
    return CHANCE.sample(texts, len(texts))


# The sets of ONE do not touch each other. Each of OTHER begins inside one of them and ends past it.
ONE = shuffled([f">={2 * n}.1.0-rc.{n} <{2 * n}.8.0" for n in range(COUNT)])
OTHER = shuffled([f">={2 * n}.4.0 <={2 * n + 1}.0.0" for n in range(COUNT)])
RELEASES = [f"{n}.{5 * (n % 2)}.{n % 7}" for n in range(COUNT)]
TEXTS = shuffled(RELEASES + [f"{2 * n}.1.0-rc.{n + n % 2}" for n in range(COUNT)])


class Long(unittest.TestCase):
    one: Range
    other: Range
    parts: List[Range]
    versions: List[Version]

    @classmethod
    def setUpClass(cls) -> None:
        cls.one, cls.other = Range("||".join(ONE)), Range("||".join(OTHER))
        cls.parts = [Range(text) for text in ONE]
        cls.versions = [Version(text) for text in TEXTS]

    def numbered(self, form: str) -> List[str]:
        """The sets of a result, in the order of their numbers."""
        return [form.format(even=2 * n, odd=2 * n + 1, n=n) for n in range(COUNT)]

    def sets_of(self, value: object) -> List[str]:
        assert isinstance(value, Range)
        return sorted(str(value).split("||"), key=lambda text: int(text.split(".")[0].strip("><=")))

    def test_reads_prints_and_pickles(self) -> None:
        self.assertEqual(str(self.one), "||".join(ONE))
        self.assertEqual(Range(str(self.one)), self.one)
        self.assertEqual(hash(Range(str(self.one))), hash(self.one))
        self.assertEqual(pickle.loads(pickle.dumps(self.one)), self.one)
        self.assertNotEqual(self.one, Range("||".join(ONE[:-1])))

    def test_sets(self) -> None:
        sets = self.one.sets
        self.assertEqual(sets, tuple(part.sets[0] for part in self.parts))
        self.assertEqual(Range.from_sets(sets), self.one)
        self.assertEqual(str(Range.from_sets(iter(sets))), str(self.one))

    def test_an_operator_makes_at_most_a_million_pairs(self) -> None:
        same, longer = Range("||".join(["^1.2.3"] * 1000)), Range("||".join(["^1.2.3"] * 1001))
        pairs = same & same
        self.assertTrue(pairs is not None and "1.9.0" in pairs)
        self.assertIsNone(same - same)
        for one, other in [(same, longer), (longer, same), (longer, longer)]:
            counts = f"{len(one.sets)} and {len(other.sets)}"
            for operator in (Range.__and__, Range.__sub__):
                with self.assertRaisesRegex(ValueError, f"^the ranges have {counts} sets, and more than 1000000 pairs"):
                    operator(one, other)
        self.assertEqual(len((longer | longer).sets), 2002)
        self.assertTrue(longer.allows_all(same))

    def test_a_search_has_at_most_3000_sets(self) -> None:
        # Each end of a set is tried, each is lower than all before, and each set opens the triple of each.
        many = Range("||".join(f">=1.0.0-a.{n} <1.0.0-b" for n in range(1500, 0, -1)))
        more = Range("||".join(f">=1.0.0-a.{n} <1.0.0-b" for n in range(1501, 0, -1)))
        for search in (Range.least_beyond, Range.least_common):
            for is_included in (False, True):
                search(many, many, include_prerelease=is_included)
                for one, other, counts in [(many, more, "1500 and 1501"), (more, many, "1501 and 1500")]:
                    with self.assertRaisesRegex(ValueError, f"^the ranges have {counts} sets, and more than 3000 together$"):
                        search(one, other, include_prerelease=is_included)
        self.assertIsNone(many.least_beyond(many))
        self.assertEqual(many.least_common(many), Version("1.0.0-a.1"))

    def test_a_million_sets_are_refused_at_once(self) -> None:
        huge, small = Range("||".join(["1"] * 1_000_000)), Range("1")
        start = time.perf_counter()
        calls: List[Callable[[], object]] = [
            lambda: huge - huge, lambda: huge & huge, lambda: huge.least_beyond(huge), lambda: huge.least_common(small)
        ]  # fmt: skip
        for refused in calls:
            with self.assertRaises(ValueError):
                refused()
        self.assertLess(time.perf_counter() - start, 1)

    def test_combines(self) -> None:
        self.assertEqual(self.sets_of(self.one & self.other), self.numbered(">={even}.4.0 <{even}.8.0"))
        self.assertEqual(self.sets_of(self.one - self.other), self.numbered(">={even}.1.0-rc.{n} <{even}.4.0"))
        self.assertEqual(str(self.one | self.other), "||".join(ONE + OTHER))
        for half in (ONE[:500], ONE[500:]):
            self.assertIsNone(Range("||".join(half)) - (self.one | self.other))

    def test_asks(self) -> None:
        self.assertTrue(self.one.allows_any(self.other))
        self.assertFalse(self.one.allows_all(self.other))
        self.assertTrue((self.one | self.other).allows_all(self.other))
        self.assertEqual(self.one.min_version(), Version("0.1.0-rc.0"))
        self.assertEqual(self.one.least_beyond(self.other), Version("0.1.0-rc.0"))
        self.assertEqual(self.other.least_beyond(self.one), Version("0.8.0"))
        self.assertIsNone(self.one.least_beyond(self.one | self.other))
        self.assertEqual(self.one.least_common(self.other), Version("0.4.0"))
        self.assertIsNone(self.one.least_common(Range("||".join(f"{2 * n + 1}" for n in range(COUNT)))))

    def test_versions(self) -> None:
        inside = [version for version in self.versions if any(version in part for part in self.parts)]
        self.assertTrue(COUNT // 4 < len(inside) < len(self.versions) - COUNT // 4)
        self.assertEqual([version for version in self.versions if version in self.one], inside)
        self.assertEqual([version for version in TEXTS if version in self.one], [str(version) for version in inside])
        self.assertEqual(self.one.filter(self.versions), inside)
        releases = [version for version in self.versions if not version.is_prerelease]
        self.assertEqual([v for v in releases if self.one.contains(v)], [v for v in inside if not v.is_prerelease])
        self.assertTrue(all(self.one.contains(version) for version in inside))
        self.assertEqual(self.one.filter(TEXTS), [str(version) for version in inside])
        self.assertIs(self.one.max_satisfying(self.versions), max(inside))
        self.assertIs(self.one.min_satisfying(self.versions), min(inside))
        self.assertEqual(self.one.max_satisfying(TEXTS), str(max(inside)))
        self.assertEqual(self.one.min_satisfying(TEXTS), str(min(inside)))
        contained = [version for version in self.versions if self.one.contains(version)]
        self.assertTrue(len(inside) <= len(contained) < len(self.versions))
        self.assertEqual(self.one.filter(self.versions, include_prerelease=True), contained)
        self.assertEqual(self.one.filter(TEXTS, include_prerelease=True), [str(version) for version in contained])
        self.assertIs(self.one.max_satisfying(self.versions, include_prerelease=True), max(contained))
        self.assertEqual(self.one.min_satisfying(TEXTS, include_prerelease=True), str(min(contained)))

    def test_far_longer_lists(self) -> None:
        """20,000 items, past the length from which other threads run during the call."""
        mixed: List[Union[Version, str]] = [*self.versions, "no version", "\ud800", *TEXTS]
        inside = [item for item in mixed if item not in ("no version", "\ud800") and item in self.one] * 5
        keys = [Version(str(item)) for item in inside]
        self.assertEqual(self.one.filter(mixed * 5), inside)
        self.assertIs(self.one.max_satisfying(mixed * 5), inside[keys.index(max(keys))])
        self.assertIs(self.one.min_satisfying(mixed * 5), inside[keys.index(min(keys))])


if __name__ == "__main__":
    unittest.main()
