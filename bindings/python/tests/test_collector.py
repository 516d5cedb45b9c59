# SPDX-License-Identifier: Apache-2.0
"""What other code finds through the garbage collector while a value is made: no tuple with an empty place."""

import ctypes
import gc
import sys
import threading
import time
import unittest
from typing import Callable, List, Tuple

from node_semver import Range, Version

# The least number of bytes of an identifier that is printed while other threads run.
LONG = 10_000


def has_empty_place(found: object) -> bool:
    """Whether a tuple has a place that is not filled yet. To read such a place would end the process."""
    return type(found) is tuple and len(gc.get_referents(found)) < len(found)


def looks_during(work: Callable[[], object]) -> Tuple[int, int]:
    """How often another thread looks during a call, and how many tuples with an empty place it finds. Python itself ends no
    turn meanwhile, so only the call can let it look."""
    looks = found = 0
    begun = threading.Event()
    done: List[object] = []

    def run() -> None:
        begun.set()
        work()
        done.append(None)

    thread = threading.Thread(target=run)
    interval = sys.getswitchinterval()
    sys.setswitchinterval(1e6)
    try:
        thread.start()
        begun.wait()
        while not done:
            found += sum(map(has_empty_place, gc.get_objects()))
            looks += 1
            time.sleep(0)
    finally:
        sys.setswitchinterval(interval)
    thread.join()
    return looks, found


def of_a_long_prerelease() -> Version:
    identifiers = ".".join("a" * LONG for _ in range(50))
    version = Range(f">=1.2.3-{identifiers}+{identifiers} <2").sets[0][0][1]
    assert version is not None and len(version.prerelease) == len(version.build) == 50
    return version


def found_by_collections(work: Callable[[], object]) -> int:
    """How many tuples with an empty place a callback of the collector finds, at a collection for nearly each new object."""
    found = 0

    def look(phase: str, info: object) -> None:
        nonlocal found
        found += sum(map(has_empty_place, gc.get_objects(generation=0)))

    before = gc.get_threshold()
    gc.callbacks.append(look)
    gc.set_threshold(1)
    try:
        # The results are held: else each tuple would be one that Python kept, and none would begin a collection.
        held = [work() for _ in range(5000)]
    finally:
        gc.set_threshold(*before)
        gc.callbacks.remove(look)
    assert len(held) == 5000
    return found


class Collector(unittest.TestCase):
    def test_an_empty_place_is_seen(self) -> None:
        new_tuple = ctypes.pythonapi.PyTuple_New
        new_tuple.restype = ctypes.py_object
        self.assertTrue(has_empty_place(new_tuple(ctypes.c_ssize_t(3))))
        self.assertFalse(has_empty_place((1, 2, 3)))
        self.assertFalse(has_empty_place([None, 1]))

    def test_another_thread_finds_whole_tuples(self) -> None:
        version = of_a_long_prerelease()
        reads: List[Callable[[], object]] = [lambda: version.prerelease, lambda: version.build]
        for read in reads:
            looks = 0
            for _ in range(20):  # a machine with other work may let the thread look less often, but not each time
                more, found = looks_during(lambda: [read() for _ in range(20)])
                self.assertEqual(found, 0)
                looks += more
                if looks > 5:
                    break
            self.assertGreater(looks, 5)

    def test_a_collection_finds_whole_tuples(self) -> None:
        version, wanted, every = Version("1.2.3-rc.4+b"), Range("^1.2.3-rc.4 || >=3"), Range.parse_npm("*")
        works: List[Callable[[], object]] = [
            lambda: version.__reduce__(), lambda: wanted.__reduce__(), lambda: every.__reduce__(),
            lambda: version.prerelease, lambda: wanted.sets, lambda: wanted.intervals(),
            lambda: wanted.sql("key", "kind"), lambda: wanted.filter([version]),
            lambda: Range.from_sets(wanted.sets),
        ]  # fmt: skip
        for work in works:
            self.assertEqual(found_by_collections(work), 0)


if __name__ == "__main__":
    unittest.main()
