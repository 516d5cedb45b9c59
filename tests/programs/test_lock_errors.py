"""Each text of an error that npm_lock_check may write is in a row that wants it."""
import glob
import os
import re

import pytest

from support import programs, rows

SOURCES = ["npm_lock_check/src/*.rt", "npm_lock_check/src/arguments/*.rt", "npm_lock_check/src/checks/*.rt", "npm_packages/src/fault.rt",
           "npm_advisories/src/fault.rt"]


def texts():
    """The texts of `#[error(..)]`."""
    found = set()
    for pattern in SOURCES:
        for path in glob.glob(os.path.join(programs.crates.CRATES, pattern)):
            with open(path, encoding="utf-8") as file:
                found.update(re.findall(r'#\[error\(\s*"((?:[^"\\]|\\.)*)"', file.read()))
    return sorted(found)


@pytest.fixture(scope="module")
def wanted():
    """What the rows want on standard error of runs that check nothing."""
    paths = glob.glob(os.path.join(programs.TESTS, "programs", "npm_lock_check", "*.rows"))
    return "".join(case.error for path in paths for case in rows.read(path) if case.status == 2)


@pytest.mark.parametrize("text", texts())
def test_is_wanted_in_a_row(text, wanted):
    """`{0}` and `{}` in a text stand for any other text."""
    assert re.search(".*".join(map(re.escape, re.split(r"\{\d*\}", text))), wanted)
