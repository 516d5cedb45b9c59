# SPDX-License-Identifier: Apache-2.0
"""Runs the tests of a folder, or those modules of it that are named. The last line is `N passed, M failed`.

    python3 run.py FOLDER [MODULE..]
"""

import os
import sys
import unittest
from typing import List


def main(arguments: List[str]) -> int:
    folder, modules = os.path.abspath(arguments[0]), arguments[1:]
    loader = unittest.TestLoader()
    sys.path.insert(0, folder)
    suite = loader.loadTestsFromNames(modules) if modules else loader.discover(folder)
    result = unittest.TextTestRunner(sys.stdout).run(suite)
    for test, why in result.skipped:
        print(f"left out: {test}, since {why}")
    # A part of a test, a subTest, counts as its test.
    failed = len({getattr(test, "test_case", test).id() for test, _ in result.failures + result.errors})
    print(f"{result.testsRun - failed - len(result.skipped)} passed, {failed} failed")
    return 0 if result.wasSuccessful() and result.testsRun > 0 else 1


if __name__ == "__main__":
    sys.exit(main(sys.argv[1:]))
