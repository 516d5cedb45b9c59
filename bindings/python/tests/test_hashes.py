# SPDX-License-Identifier: Apache-2.0
"""Hashes begin with the seed of the process, as those of Python's own texts do."""

import base64
import os
import pickle
import subprocess
import sys
import unittest
from typing import List

from node_semver import Range, Version

VERSIONS = ["1.2.3", "0.0.0", "1.2.3-rc.4", "1.2.3-rc.4+b", "9007199254740991.0.0-a"]
RANGES = ["^1", "1.2.3", "<2 || >=3", "2 || 1", "1 || 2", ">1.2.3-rc.4 <=2.0.0+b"]
PROGRAM = f"""
from node_semver import Range, Version
print(*(hash(Version(text)) for text in {VERSIONS!r}), *(hash(Range(text)) for text in {RANGES!r}))
"""
READS_PICKLES = """
import base64, pickle, sys
from node_semver import Range, Version
made = {Version("1.2.3-rc.4"), Range("^1 || ^3"), Range.from_sets(Range("* || <1").sets)}
read = pickle.loads(base64.b64decode(sys.argv[1]))
assert set(read) == made and set(map(hash, read)) == set(map(hash, made))
"""


def run(seed: str, *words: str) -> str:
    environment = {**os.environ, "PYTHONHASHSEED": seed, "PYTHONPATH": os.pathsep.join(sys.path)}
    done = subprocess.run([sys.executable, *words], env=environment, stdout=subprocess.PIPE, check=True, text=True)
    return done.stdout


def hashes(seed: str) -> List[int]:
    return [int(word) for word in run(seed, "-c", PROGRAM).split()]


class Hashes(unittest.TestCase):
    def test_begin_with_the_seed(self) -> None:
        one, again, other = hashes("1"), hashes("1"), hashes("2")
        self.assertEqual(one, again)
        self.assertEqual(len(one), len(VERSIONS) + len(RANGES))
        for of_one, of_other in zip(one, other):
            self.assertNotEqual(of_one, of_other)

    def test_are_one_for_equal_values_alone(self) -> None:
        self.assertEqual(len({hash(Version(text)) for text in VERSIONS}), len(VERSIONS) - 1)
        self.assertEqual(hash(Version("1.2.3-rc.4")), hash(Version("1.2.3-rc.4+b")))
        self.assertEqual(len({hash(Range(text)) for text in RANGES}), len(RANGES))
        self.assertEqual(hash(Range(">=1.2.3+a")), hash(Range(">=1.2.3+b")))
        self.assertNotEqual(hash(Range(">1.2.3")), hash(Range(">=1.2.3")))
        self.assertNotEqual(hash(Range("<1.2.3")), hash(Range(">=1.2.3")))
        self.assertEqual(hash(Range("^1")), hash(Range.from_sets(Range("^1").sets)))

    def test_another_process_reads_pickles(self) -> None:
        values = [Version("1.2.3-rc.4"), Range("^1 || ^3"), Range.from_sets(Range("* || <1").sets)]
        data = base64.b64encode(pickle.dumps(values)).decode()
        for seed in ("0", "1", "random"):
            run(seed, "-c", READS_PICKLES, data)


if __name__ == "__main__":
    unittest.main()
