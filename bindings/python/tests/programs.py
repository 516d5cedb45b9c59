# SPDX-License-Identifier: Apache-2.0
"""Programs of tests that may end Python itself: each runs in a Python of its own, so that a crash is a failed test."""

import os
import subprocess
import sys
import unittest


def run_program(program: str, *words: str) -> "subprocess.CompletedProcess[str]":
    environment = {**os.environ, "PYTHONPATH": os.pathsep.join(sys.path)}
    return subprocess.run([sys.executable, "-c", program, *words], env=environment, capture_output=True, text=True)


class Programs(unittest.TestCase):
    def ends_well(self, program: str, *words: str) -> None:
        done = run_program(program, *words)
        self.assertEqual((done.returncode, done.stderr), (0, ""))
