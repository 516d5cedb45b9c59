# SPDX-License-Identifier: Apache-2.0
"""Prints the times of node_semver beside those of semantic_version (Debian's python3-semantic-version), in one run.

A row is the least of several runs, in microseconds for one call, and how many times as fast node_semver is.
"""

import random
import time
from typing import Callable, List, Tuple

import semantic_version

from node_semver import Range, Version

RANGES = ["^1.2.3", "~1.2.3", ">=1.2.3 <2.0.0", "1.x", "^1.2.3 || ^2.0.0", "1.2.3", "^0.2.3", ">=1.2.3"]
RANGES += ["1.2.3 - 2.3.4"]
RUNS = 9
ROUNDS = 200


def random_versions(count: int) -> List[str]:
    """Versions of which a third are prereleases and a few have a build."""
    chance = random.Random(1)
    texts = []
    for _ in range(count):
        text = f"{chance.randrange(3)}.{chance.randrange(12)}.{chance.randrange(12)}"
        if chance.randrange(3) == 0:
            text += f"-{chance.choice(['alpha', 'beta', 'rc'])}.{chance.randrange(9)}"
        if chance.randrange(8) == 0:
            text += f"+build.{chance.randrange(99)}"
        texts.append(text)
    return texts


def least_times(works: List[Callable[[], object]], calls: int) -> List[float]:
    """Microseconds of one call of each, where each makes `calls` of them. They run by turns, so that both meet the
    same load of the machine."""
    least = [float("inf")] * len(works)
    for _ in range(RUNS):
        for place, work in enumerate(works):
            start = time.perf_counter()
            work()
            least[place] = min(least[place], time.perf_counter() - start)
    return [seconds / calls * 1e6 for seconds in least]


def rows() -> List[Tuple[str, Callable[[], object], Callable[[], object], int]]:
    """What is done, by semantic_version, by node_semver, and how many calls that is."""
    texts = random_versions(1000)
    theirs = [semantic_version.Version(text) for text in texts]
    ours = [Version(text) for text in texts]
    specs = [semantic_version.NpmSpec(text) for text in RANGES]
    wanted = [Range(text) for text in RANGES]
    pairs = len(RANGES) * len(texts)
    return [
        ("read a range", lambda: [semantic_version.NpmSpec(t) for _ in range(ROUNDS) for t in RANGES],
         lambda: [Range(t) for _ in range(ROUNDS) for t in RANGES], ROUNDS * len(RANGES)),
        ("read a version", lambda: [semantic_version.Version(t) for t in texts], lambda: [Version(t) for t in texts],
         len(texts)),
        ("match parsed values", lambda: [s.match(v) for s in specs for v in theirs],
         lambda: [v in r for r in wanted for v in ours], pairs),
        ("filter 1,000 versions", lambda: [list(s.filter(theirs)) for s in specs],
         lambda: [r.filter(ours) for r in wanted], pairs),
        ("greatest of 1,000", lambda: [s.select(theirs) for s in specs],
         lambda: [r.max_satisfying(ours) for r in wanted], pairs),
        ("sort 1,000, a version", lambda: sorted(theirs), lambda: sorted(ours), len(texts)),
        ("hash a version", lambda: [hash(v) for v in theirs], lambda: [hash(v) for v in ours], len(texts)),
        ("hash a range", lambda: [hash(s) for _ in range(ROUNDS) for s in specs],
         lambda: [hash(r) for _ in range(ROUNDS) for r in wanted], ROUNDS * len(RANGES)),
        ("print a version", lambda: [str(v) for v in theirs], lambda: [str(v) for v in ours], len(texts)),
        ("print a range", lambda: [str(s) for _ in range(ROUNDS) for s in specs],
         lambda: [str(r) for _ in range(ROUNDS) for r in wanted], ROUNDS * len(RANGES)),
    ]  # fmt: skip


def main() -> None:
    print(f"{'':24}{'semantic_version':>18}{'node_semver':>13}{'times as fast':>15}")
    for name, theirs, ours, calls in rows():
        their_time, our_time = least_times([theirs, ours], calls)
        print(f"{name:24}{their_time:15.3f} us{our_time:10.3f} us{their_time / our_time:15.1f}")


if __name__ == "__main__":
    main()
