# SPDX-License-Identifier: Apache-2.0
"""Values that many threads read, make and free at once."""

import importlib
import sys
import threading
import time
import unittest
from typing import Any, Callable, List, Tuple

from node_semver import Range, SemverError, Version, satisfies

THREADS = 8
ROUNDS = 2000


def run_in_threads(work: Callable[[], None]) -> List[BaseException]:
    """What the threads raise."""
    errors: List[BaseException] = []
    start = threading.Barrier(THREADS)

    def run() -> None:
        try:
            start.wait()
            work()
        except BaseException as error:
            errors.append(error)

    threads = [threading.Thread(target=run) for _ in range(THREADS)]
    for thread in threads:
        thread.start()
    for thread in threads:
        thread.join()
    return errors


def turns_during(work: Callable[[], object]) -> int:
    """How often another thread runs during a call. Python itself ends no turn meanwhile, so only the call can let it."""
    turns, begun = 0, threading.Event()
    marks: List[int] = []

    def run() -> None:
        begun.set()
        marks.append(turns)
        work()
        marks.append(turns)

    thread = threading.Thread(target=run)
    interval = sys.getswitchinterval()
    sys.setswitchinterval(1e6)
    try:
        thread.start()
        begun.wait()
        while thread.is_alive():
            time.sleep(0.0001)
            turns += 1
    finally:
        sys.setswitchinterval(interval)
    start, end = marks
    return end - start


def lets_others_run(work: Callable[[int], Callable[[], object]], size: int) -> bool:
    """Whether another thread has ten turns during a call of this size, or of one that is larger. A machine with other work may
    give it fewer, but not each time."""
    for larger in (size, 2 * size, 4 * size):
        call = work(larger)
        if any(turns_during(call) >= 10 for _ in range(10)):
            return True
    return False


def of_overlapping_ranges(size: int) -> Callable[[], object]:
    """Each of the sets of one range has a set in common with each of the other."""
    one = Range("||".join(f">={n}.0.0" for n in range(size)))
    return lambda: one & one


def of_pieces(size: int) -> Callable[[], object]:
    """Each set of one range is cut into pieces by all sets of the other."""
    one = Range("||".join(f">={n}.0.0" for n in range(size)))
    other = Range("||".join(f"{size + n}.1.0" for n in range(size)))
    return lambda: one - other


def of_a_search(size: int) -> Callable[[], object]:
    """Each end of a set is lower than those before, and is tried against all sets."""
    one = Range("||".join(f">=1.0.0-a.{n} <1.0.0-b" for n in range(size, 0, -1)))
    return lambda: one.least_beyond(one)


def of_a_common_search(size: int) -> Callable[[], object]:
    one = Range("||".join(f">=1.0.0-a.{n} <1.0.0-b" for n in range(size, 0, -1)))
    other = Range("||".join(f">=1.0.0-b.{n} <1.0.0-c" for n in range(size, 0, -1)))
    return lambda: one.least_common(other)


def of_a_question(size: int) -> Callable[[], object]:
    one = Range("||".join(f">=1.0.{7919 * n % size}-a <1.0.{7919 * n % size}-b" for n in range(size)))
    other = Range("||".join(f">=1.0.{104729 * n % size}-b <1.0.{104729 * n % size}-c" for n in range(size)))
    return lambda: one.allows_any(other)


def of_a_list(size: int) -> Callable[[], object]:
    versions, wanted = [f"1.{n}.0-rc.{n}" for n in range(size)], Range(">=1.0.0-0")
    return lambda: wanted.max_satisfying(versions)


def of_a_filter(size: int) -> Callable[[], object]:
    versions, wanted = [f"1.{n}.0-rc.{n}" for n in range(size)], Range(">3")
    return lambda: wanted.filter(versions)


def of_a_text(size: int) -> Callable[[], object]:
    text = "||".join(["^1.2.3-rc.4"] * size)
    return lambda: Range(text)


def of_a_long_version(size: int) -> Callable[[], object]:
    text = "1" * size

    def read() -> None:
        try:
            Version(text)
        except SemverError:
            return
        raise AssertionError("it was read")

    return read


def of_npms_reading(size: int) -> Callable[[], object]:
    text = "||".join(["^1.2.3-rc.4"] * size)
    return lambda: Range.parse_npm(text)


def of_a_pair(size: int) -> Callable[[], object]:
    text = "||".join(["^1.2.3-rc.4"] * size)
    return lambda: satisfies("2.0.0", text)


def interpreter_calls() -> Tuple[Any, Any, Any]:
    """What creates an interpreter that shares our lock, runs a text in it and ends it, or None three times."""
    for name in ("_interpreters", "_xxsubinterpreters"):
        try:
            module = importlib.import_module(name)
        except ImportError:
            continue
        words: Any = {"config": "legacy"} if name == "_interpreters" else {"isolated": False}
        return lambda: module.create(**words), module.run_string, module.destroy
    return None, None, None


class Threads(unittest.TestCase):
    def test_run_during_long_calls(self) -> None:
        for work, size in [
            (of_overlapping_ranges, 250), (of_pieces, 250), (of_a_search, 375),
            (of_a_common_search, 375), (of_a_question, 100_000),
            (of_a_list, 200_000), (of_a_filter, 200_000), (of_a_text, 100_000), (of_a_pair, 100_000),
            (of_npms_reading, 100_000), (of_a_long_version, 100_000_000),
        ]:  # fmt: skip
            with self.subTest(work.__name__):
                self.assertTrue(lets_others_run(work, size))

    def test_a_call_that_keeps_the_lock_is_seen(self) -> None:
        self.assertFalse(lets_others_run(lambda size: lambda: sum(range(size)), 1_000_000))

    def test_read_one_value(self) -> None:
        wanted, version, other = Range("^1.2.3-rc.4 || >=3"), Version("1.2.3-rc.5"), Range(">=1.5")

        def work() -> None:
            for _ in range(ROUNDS):
                assert version in wanted and "2.0.0" not in wanted
                assert str(wanted) == ">=1.2.3-rc.4 <2.0.0-0||>=3.0.0"
                assert str(wanted & other) == ">=1.5.0 <2.0.0-0||>=3.0.0"
                assert wanted.max_satisfying([version, version]) is version

        self.assertEqual(run_in_threads(work), [])

    def test_print_one_range(self) -> None:
        for _ in range(10):
            wanted, prints = Range("||".join(f">={n}.0.0" for n in range(5000))), []
            self.assertEqual(run_in_threads(lambda: prints.append(str(wanted))), [])
            self.assertEqual({id(text) for text in prints}, {id(str(wanted))})

    def test_make_and_free_values(self) -> None:
        shared: List[object] = [None] * 16

        def work() -> None:
            for place in range(ROUNDS):
                shared[place % 16] = Version(f"1.2.{place}-rc.{place}")
                shared[(place + 5) % 16] = Range(f"^1.{place} || >={place}")
                try:
                    Version("1.2")
                except SemverError as error:
                    assert error.offset == 3

        self.assertEqual(run_in_threads(work), [])

    def test_interpreters_have_types_of_their_own(self) -> None:
        create, run, destroy = interpreter_calls()
        if create is None:
            self.skipTest("this Python has no module of interpreters")
        program = "import sys; sys.path[:] = {!r}; import node_semver as n; assert '1.5.0' in n.Range('^1')"
        for _ in range(3):
            other = create()
            self.assertIsNone(run(other, program.format(sys.path)))
            destroy(other)
        self.assertTrue("1.5.0" in Range("^1"))


if __name__ == "__main__":
    unittest.main()
