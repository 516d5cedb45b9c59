# SPDX-License-Identifier: Apache-2.0
"""A million calls, after which the process has no more memory than before them."""

import copy
import gc
import pickle
import sys
import unittest
from typing import Callable, List, Tuple, Union

from node_semver import Range, SemverError, Version, satisfies

CALLS = 1_000_000
ROOM = 256 << 10  # bytes: 8 that each call of one kind kept would be more


def resident() -> int:
    """The bytes of memory that the process has."""
    with open("/proc/self/statm") as file:
        return int(file.read().split()[1]) * 4096


def refused(read: Callable[[], object]) -> None:
    try:
        read()
    except (SemverError, TypeError, ValueError):
        return
    raise AssertionError("it was not refused")


VERSION, WANTED, OTHER = Version("1.2.3-rc.4+b"), Range("^1.2.3-rc.4 || >=3"), Range("<3.1.0")
ASKED: List[Union[Version, str]] = [VERSION, "3.2.1-rc.4"]
EVERY = Range.parse_npm("*")
LONGEST, SETS = Version("1.2.3" + "a" * 251), WANTED.sets

WORKS: List[Callable[[], object]] = [
    lambda: Version("1.2.3-rc.4.some-long-identifier+build"),
    lambda: str(Version("1.2.3-rc.4")),
    lambda: repr(VERSION),
    lambda: Version("1.2.3-rc.4", strict=True),
    lambda: refused(lambda: Version("v1.2.3", strict=True)),
    lambda: (VERSION.prerelease, VERSION.build, VERSION.major),
    lambda: (hash(VERSION), hash(LONGEST), hash(Range("^1.2.3-rc.4 || >=3"))),
    lambda: str(LONGEST),
    lambda: Range("^1.2.3-rc.4 || >=3 || 1 - 2 || foo"),
    lambda: str(Range("^1.2.3-rc.4 || >=3 || 1 - 2")),
    lambda: Range.parse_npm("^1.2.3-rc.4 || >=3 next", loose=True, include_prerelease=True),
    lambda: refused(lambda: Range.parse_npm("^1 next")),
    lambda: pickle.loads(pickle.dumps(EVERY)),
    lambda: "1.2.3-rc.5" in WANTED,
    lambda: VERSION in WANTED,
    lambda: satisfies("1.2.3-rc.5", "^1.2.3-rc.4"),
    lambda: (WANTED & OTHER, WANTED - OTHER, WANTED | OTHER),
    lambda: (WANTED == OTHER, VERSION < LONGEST),
    lambda: (WANTED.allows_any(OTHER), WANTED.allows_all(OTHER)),
    lambda: (WANTED.min_version(), WANTED.least_beyond(OTHER), WANTED.least_common(OTHER)),
    lambda: (WANTED.contains(VERSION), WANTED.contains("1.2.4-rc.4")),
    lambda: (VERSION.compare_build(LONGEST), VERSION.diff(LONGEST)),
    lambda: (VERSION.bump("minor"), VERSION.bump("prerelease", identifier="beta", base=1)),
    lambda: refused(lambda: VERSION.bump("pre", base=None)),
    lambda: (Version.coerce("node-14.2"), Version.coerce("1.2.3.4", rtl=True), Version.coerce("latest")),
    lambda: (Version.coerce("1.2-rc.1+b", include_prerelease=True), Version.coerce("a", include_prerelease=True)),
    lambda: Version.coerce("\ud800"),
    lambda: WANTED.min_version(include_prerelease=True),
    lambda: WANTED.least_beyond(OTHER, include_prerelease=True),
    lambda: WANTED.least_common(OTHER, include_prerelease=True),
    lambda: WANTED.filter(ASKED, include_prerelease=True),
    lambda: WANTED.max_satisfying(ASKED, include_prerelease=True),
    lambda: WANTED.min_satisfying(ASKED, include_prerelease=True),
    lambda: refused(lambda: WANTED.filter([*ASKED, 1], include_prerelease=True)),  # type: ignore[type-var]
    lambda: WANTED.filter(ASKED),
    lambda: WANTED.max_satisfying(ASKED),
    lambda: WANTED.min_satisfying(ASKED),
    lambda: copy.deepcopy(VERSION),
    lambda: pickle.loads(pickle.dumps(WANTED)),
    lambda: refused(lambda: pickle.dumps(LONGEST)),
    lambda: refused(lambda: Version("1.2")),
    lambda: refused(lambda: Range("latest")),
    lambda: WANTED.filter(ASKED + ["no version", "\ud800"]),
    lambda: WANTED.max_satisfying([*ASKED, "no version", "\ud800"]),
    lambda: WANTED.sets,
    lambda: Range.from_sets(SETS),
    lambda: Range.from_sets([(("before", "1.2.3-rc.4"), ("end", None))]),
    lambda: refused(lambda: Range.from_sets([SETS[0], (("before", VERSION), ("before", "1.0.0"))])),
    lambda: refused(lambda: Range.from_sets([SETS[0], (("none", None), SETS[0][1])])),  # type: ignore[list-item]
    lambda: refused(lambda: "no version" in WANTED),
    lambda: refused(lambda: WANTED.contains("no version")),
    lambda: refused(lambda: WANTED.filter([*ASKED, 1])),  # type: ignore[type-var]
    lambda: refused(lambda: WANTED.max_satisfying([*ASKED, 1])),  # type: ignore[type-var]
    lambda: refused(lambda: WANTED & VERSION),  # type: ignore[operator]
    lambda: refused(lambda: WANTED.allows_any(VERSION)),  # type: ignore[arg-type]
    lambda: refused(lambda: VERSION < WANTED),  # type: ignore[operator]
    lambda: refused(lambda: satisfies("1.2", "1")),
]


class Growth(unittest.TestCase):
    def growth(self, work: Callable[[], object], calls: int) -> Tuple[int, int]:
        """How many bytes more the process has after the calls, and how many blocks more Python has."""
        gc.collect()
        memory, blocks = resident(), sys.getallocatedblocks()
        for _ in range(calls):
            work()
        gc.collect()
        return resident() - memory, sys.getallocatedblocks() - blocks

    def test_a_freed_value_releases_its_type(self) -> None:
        for work, owner in [(WORKS[0], Version), (lambda: Range("^1"), Range)]:
            before = sys.getrefcount(owner)
            for _ in range(1000):
                work()
            self.assertLess(sys.getrefcount(owner) - before, 10)

    def test_a_million_calls_keep_nothing(self) -> None:
        for work in WORKS:
            for _ in range(2000):
                work()
        for work in WORKS:
            with self.subTest(line=work.__code__.co_firstlineno):
                calls = CALLS // len(WORKS) + 1
                memory, blocks = self.growth(work, calls)
                # What Python itself keeps comes once, and what a call keeps comes each time.
                if memory >= ROOM or blocks >= calls // 100:
                    memory, blocks = self.growth(work, calls)
                self.assertLess(memory, ROOM)
                self.assertLess(blocks, calls // 100)


if __name__ == "__main__":
    unittest.main()
