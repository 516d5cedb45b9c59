# SPDX-License-Identifier: Apache-2.0
"""Each allocation of each call fails in turn: the call raises MemoryError, and keeps no memory.

One failure may be none: where a block cannot be made shorter, the library may go on with the longer one.

It runs from the build that NODE_SEMVER_REFUSE=1 makes.
"""

import ctypes
import gc
import pickle
import sys
import threading
import time
import unittest
from typing import Callable, List, Tuple, Union

import node_semver
from node_semver import Range, Version, satisfies

NATIVE = ctypes.PyDLL(sys.modules["node_semver._native"].__file__)
NATIVE.refuse_at.argtypes = [ctypes.c_long]
NATIVE.blocks_kept.restype = ctypes.c_long
NATIVE.pause_before_refusal.argtypes = [ctypes.c_ulong]

# Forgets the names in Python's cache of attributes. It keeps each new name that was looked up until another one takes its
# place, so now and then it has a hundred more of them after a hundred calls that look up `from_sets`.
FORGET: Callable[[], None] = getattr(sys, "_clear_internal_caches", None) or getattr(sys, "_clear_type_cache")

LONG = "1.2.3-" + ".".join("a" * 20 for _ in range(11))  # its print needs more than the room of a short one
VERSION, WANTED, OTHER = Version("1.2.3-rc.4+b.18446744073709551616"), Range("^1.2.3-rc.4 || >=3"), Range("<3.1.0-a.b")
ASKED: List[Union[Version, str]] = [VERSION, "3.2.1-rc.4", "3.2.1"]
SETS, EVERY = WANTED.sets, Range.parse_npm("*")
hash(WANTED)
LONGEST, MANY = Version("1.2.3" + "a" * 251), "||".join(f"^{n}.2.3-rc.{n}" for n in range(40))


def refused(read: Callable[[], object]) -> object:
    """What a call raises for a text that is refused, but for MemoryError."""
    try:
        return read()
    except ValueError as error:
        return str(error)


# A call, and the least number of allocations that it has.
CALLS: List[Tuple[Callable[[], object], int]] = [
    (lambda: Version("1.2.3"), 2),
    (lambda: Version("1.2.3-rc.4.some-identifier+build.5"), 5),
    (lambda: Version("1.2.3-rc.4", strict=True), 3),
    (lambda: Version(*["1.2.3-rc.4"], **{"strict": False}), 3),
    (lambda: refused(lambda: Version("1.2.3-\ud800")), 3),
    (lambda: refused(lambda: Range("\ud800")), 3),
    (lambda: Version.coerce("\ud8001.2.3", rtl=True, include_prerelease=True), 4),
    (lambda: format(VERSION, ">40"), 2),
    (lambda: format(WANTED, ">60"), 1),
    (lambda: refused(lambda: Version("v1.2.3", strict=True)), 1),
    (lambda: VERSION.diff(LONGEST), 1),
    (lambda: VERSION.bump("major"), 2),
    (lambda: VERSION.bump("preminor", identifier="beta"), 5),
    (lambda: VERSION.bump("preminor", identifier="beta", base=1), 5),
    (lambda: VERSION.bump("prerelease"), 4),
    (lambda: refused(lambda: VERSION.bump("pre", base=None)), 1),
    (lambda: str(VERSION), 1),
    (lambda: repr(VERSION), 2),
    (lambda: str(LONGEST), 2),
    (lambda: VERSION.major, 1),
    (lambda: VERSION.minor, 1),
    (lambda: VERSION.patch, 1),
    (lambda: VERSION.prerelease, 4),
    (lambda: VERSION.build, 3),
    (lambda: Range("^1.2.3"), 2),
    (lambda: Range(MANY), 40),
    (lambda: Range.parse_npm("^1.2.3 || 3 next", loose=True), 3),
    (lambda: Range.parse_npm("^1.2.3 || 3", loose=True, include_prerelease=True), 3),
    (lambda: WANTED.filter(ASKED, include_prerelease=True), 5),
    (lambda: WANTED.sql("key", "is_prerelease", placeholder="%s", include_prerelease=True), 12),
    (lambda: refused(lambda: Range.parse_npm("^1 next")), 1),
    (lambda: pickle.loads(pickle.dumps(EVERY)), 8),
    (lambda: str(Range(MANY)), 42),
    (lambda: repr(Range("^1.2.3")), 4),
    (lambda: "1.2.3-rc.5" in WANTED, 2),
    (lambda: satisfies("1.2.3-rc.5", "^1.2.3-rc.4"), 2),
    (lambda: WANTED & OTHER, 2),
    (lambda: WANTED - OTHER, 2),
    (lambda: WANTED | OTHER, 2),
    (lambda: Range("1") & Range("2"), 4),
    (lambda: WANTED.min_version(), 2),
    (lambda: WANTED.least_beyond(OTHER), 2),
    (lambda: WANTED.least_common(OTHER), 2),
    (lambda: WANTED.contains("1.2.3-rc.5"), 2),
    (lambda: WANTED.filter(ASKED), 5),
    (lambda: WANTED.max_satisfying(ASKED), 5),
    (lambda: WANTED.min_satisfying(ASKED), 5),
    (lambda: WANTED.sets, 12),
    (lambda: VERSION.key, 1),
    (lambda: LONGEST.key, 1),
    (lambda: WANTED.intervals(), 8),
    (lambda: WANTED.intervals(include_prerelease=True), 8),
    (lambda: WANTED.sql("key", "is_prerelease"), 12),
    (lambda: Range.from_sets(SETS), 7),
    (lambda: Range.from_sets([(("before", "1.2.3-rc.4"), ("end", None))]), 8),
    (lambda: WANTED.filter(["1.2.3", "no", "\ud800"]), 4),
    (lambda: WANTED.max_satisfying(["1.2.3", "no", "\ud800"]), 4),
    (lambda: pickle.loads(pickle.dumps(VERSION)), 6),
    (lambda: pickle.loads(pickle.dumps(WANTED)), 4),
    (lambda: refused(lambda: pickle.dumps(LONGEST)), 3),
    (lambda: refused(lambda: Version("1.2")), 1),
    (lambda: hash(VERSION), 1),
    (lambda: hash(LONGEST), 1),
    (lambda: hash(Range("^1.2.3-rc.4 || >=3")), 10),
    (lambda: refused(lambda: Version("1.2.9007199254740992")), 2),
    (lambda: refused(lambda: Range("latest")), 1),
    (lambda: refused(lambda: "no" in WANTED), 1),
    (lambda: refused(lambda: Range.from_sets([SETS[0], SETS[0][::-1]])), 6),
    (lambda: refused(lambda: Range.from_sets([(("before", "no"), ("end", None))])), 4),
    (lambda: refused(lambda: satisfies("1.2", "^1")), 1),
]

# Calls that must not allocate.
PLAIN_CALLS: List[Callable[[], object]] = [
    lambda: VERSION in WANTED,
    lambda: WANTED.contains(VERSION),
    lambda: VERSION.compare_build(LONGEST),
    lambda: hash(WANTED),  # it is kept
    lambda: (VERSION == LONGEST, VERSION < LONGEST, WANTED == OTHER),
    lambda: VERSION.is_prerelease,
    lambda: refused(lambda: WANTED.sql("key", "")),
    lambda: Range.__copy__(WANTED),
]


class Refused(unittest.TestCase):
    def tearDown(self) -> None:
        NATIVE.refuse_at(-1)

    def call_refused(self, call: Callable[[], object], place: int) -> bool:
        """Whether the call has an allocation at the place, which fails."""
        is_error, answer = False, None
        NATIVE.refuse_at(place)
        try:
            answer = call()
        except MemoryError:
            is_error = True
        came, was_shrink = NATIVE.has_refused(), NATIVE.was_shrink()
        NATIVE.refuse_at(-1)
        if was_shrink and not is_error:
            self.assertEqual(answer, call())
        else:
            self.assertEqual(came, is_error, f"allocation {place}; the call returned {answer!r}")
        return bool(came)

    def test_each_allocation(self) -> None:
        for call, least in CALLS:
            with self.subTest(line=call.__code__.co_firstlineno):
                wanted, place = call(), 0
                while self.call_refused(call, place):
                    place += 1
                self.assertGreaterEqual(place, least)
                self.assertEqual(call(), wanted)

    def blocks(self) -> Tuple[int, int]:
        """How many blocks the library and Python have."""
        gc.collect()
        FORGET()
        return NATIVE.blocks_kept(), sys.getallocatedblocks()

    def blocks_of(self, call: Callable[[], object], place: int, times: int) -> Tuple[int, int]:
        """How many blocks more the library and Python have after failed calls."""
        kept, before = self.blocks()
        for _ in range(times):
            self.call_refused(call, place)
        library, python = self.blocks()
        return library - kept, python - before

    def test_a_failed_call_keeps_nothing(self) -> None:
        for call, _ in CALLS:
            with self.subTest(line=call.__code__.co_firstlineno):
                call()
                place = 0
                while self.call_refused(call, place):
                    self.blocks_of(call, place, 20)  # Python keeps the first exceptions to use them again
                    # What Python itself keeps comes now and then. What a call keeps comes each time: 100 blocks or more.
                    for _ in range(10):
                        library, python = self.blocks_of(call, place, 100)
                        self.assertEqual(library, 0)
                        if python < 50:
                            break
                    self.assertLess(python, 50)
                    place += 1

    def test_calls_that_do_not_allocate(self) -> None:
        for call in PLAIN_CALLS:
            with self.subTest(line=call.__code__.co_firstlineno):
                self.assertFalse(self.call_refused(call, 0))

    def test_a_print_of_a_range_is_made_again(self) -> None:
        fresh = Range("^1.2.3")
        self.assertTrue(self.call_refused(lambda: str(fresh), 0))
        self.assertEqual(str(fresh), ">=1.2.3 <2.0.0-0")

    def print_beside(self, wanted: Range, place: int) -> List[str]:
        """What two threads get that print one range. The first has no memory at the place, and meanwhile the second prints."""
        answers, begun = ["", ""], threading.Event()

        def print_refused() -> None:
            NATIVE.pause_before_refusal(100_000)
            NATIVE.refuse_at(place)
            begun.set()
            try:
                answers[0] = str(wanted)
            except BaseException as error:
                answers[0] = type(error).__name__
            finally:
                NATIVE.refuse_at(-1)
                NATIVE.pause_before_refusal(0)

        def print_after() -> None:
            begun.wait()
            time.sleep(0.01)
            answers[1] = str(wanted)

        threads = [threading.Thread(target=target) for target in (print_refused, print_after)]
        for thread in threads:
            thread.start()
        for thread in threads:
            thread.join()
        return answers

    def test_two_threads_print_one_range(self) -> None:
        text, refusals = "||".join(f">={place}.0.0" for place in range(2000)), 0
        shown = str(Range(text))
        self.assertGreater(len(shown), 10_000)  # other threads run while it is printed
        for place in range(50):
            with self.subTest(place=place):
                wanted = Range(text)
                one, other = self.print_beside(wanted, place)
                self.assertEqual((other, str(wanted)), (shown, shown))
                self.assertIn(one, (shown, "MemoryError"))
                refusals += one == "MemoryError"
                if one == shown:
                    break
        self.assertGreater(refusals, 2)
        self.assertEqual(one, shown)

    def test_the_package_is_the_test_build(self) -> None:
        self.assertTrue(hasattr(NATIVE, "refuse_at"), node_semver.__file__)


if __name__ == "__main__":
    unittest.main()
