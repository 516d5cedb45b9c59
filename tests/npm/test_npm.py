"""Comparisons with npm's own code. Each program in JavaScript here makes cases and compares the result of one of our programs with
npm's; its last line is 'N compared'. It fails if they differ and no rule of it says how.

TESTS_MADE=10 makes ten times as many cases, and TESTS_SEED=1 makes others:

    TESTS_MADE=10 TESTS_SEED=1 /usr/bin/python3 -m pytest tests/npm -k ranges
"""
import os
import re
import subprocess

import pytest

from growth import grown
from support import made, programs

# The program in JavaScript, and its last argument if it has one more, the program that it runs, how many cases it makes, and which.
COMPARED = [
    ("ranges.js", "semver_answers", 300000, 12345),
    ("picks.js", "npm_answers", 30000, 1),
    ("semver.js", "semver", 2000, 1),
    ("npm_pick.js", "npm_pick", 2000, 1),
    ("old_names.js", "npm_lock_check", 3000, 1),
    ("npm_ci.js", "npm_lock_check", 300, 1),
    *[(f"lock_files.js {kind}", "npm_lock_check", 300, 1) for kind in ("made", "made-old", "made-manifest", "rows", "rows-old", "rows-manifest", "installed")],
]


def compare(script, program, count, seed, room):
    """How many cases are compared."""
    script, *more = script.split(" ")
    path = os.path.join(os.path.dirname(os.path.abspath(__file__)), script)
    words = ["node", path, programs.built(program), str(count), str(seed), str(room), *more]
    ran = subprocess.run(words, env=programs.environment(), stdin=subprocess.DEVNULL, capture_output=True, encoding="utf-8")
    compared = re.search(r"^(\d+) compared\n\Z", ran.stdout, re.M)
    assert ran.returncode == 0 and compared, f"{' '.join(words)}\n{ran.stdout}{ran.stderr}"
    return int(compared[1])


@pytest.mark.parametrize("script, program, count, seed", COMPARED, ids=[script for script, *_ in COMPARED])
def test_is_as_npm(script, program, count, seed, record_property, tmp_path):
    record_property("made", compare(script, program, count * made.TIMES, seed + made.SEED, tmp_path))


def test_a_large_lock_file_is_as_npm(record_property, tmp_path):
    """2,001 packages, of which some have another version than is asked for, and some ask for packages that are nowhere."""
    (tmp_path / "large.json").write_text(grown.text(grown.tree, 2000))
    record_property("made", compare("lock_files.js large", "npm_lock_check", 2001, 1, tmp_path))
