"""The runner and the gate: what fails is told and counted, and so is what ran too little, or not at all."""
import os
import re
import shutil
import subprocess
import sys

import pytest

from support import programs  # (it makes the runner's own modules known)
import files
import gate

# What a part writes, and how many checks passed and failed, of 3 that are wanted.
PARTS = [("echo 3 passed, 0 failed", 3, 0), ("echo WRONG: why; echo 3 passed, 1 failed; exit 1", 3, 1), ("echo why; exit 3", 0, 1),
         ("echo why >&2; echo 3 passed, 0 failed; exit 1", 3, 1), ("echo why", 0, 1), ("echo 2 passed, 0 failed # why", 2, 1)]


@pytest.mark.parametrize("script, passed, failed", PARTS)
def test_a_part_is_counted(script, passed, failed):
    found = gate.run("made", ["sh", "-c", script], wanted=3)
    assert (found.passed, found.failed) == (passed, failed) and ("why" in found.text) == ("why" in script.split(" #")[0])


def test_a_part_that_is_not_there_fails():
    assert gate.run("made", [os.path.join(programs.ROOT, "none")]).failed == 1


MADE = """import pytest
from support import programs
def test_well(record_property): record_property("checks", 7)
def test_wrong(): assert False, "why"
def test_unbuilt(): raise programs.NotBuilt("not built: made")
def test_left_out(): pytest.skip("a reason")
"""


def test_what_failed_and_what_was_not_run_is_told(tmp_path):
    (tmp_path / "some").mkdir()
    (tmp_path / "some" / "test_made.py").write_text(MADE)
    words = [sys.executable, "-B", "-m", "pytest", "-q", "-p", "no:cacheprovider", str(tmp_path), "-p", "conftest", "--rootdir", str(tmp_path)]
    ran, whole = (subprocess.run([*words, *more], cwd=programs.TESTS, capture_output=True, text=True) for more in ([], ["--whole=rows made"]))
    assert re.search(r"^FAILED \S*some/test_made.py::test_wrong", ran.stdout, re.M) and ran.returncode == whole.returncode == 1
    assert ran.stdout.endswith("""
some 7
1 of 10 need proved programs: ./check --prove made
not run: some/test_made.py::test_left_out: a reason
7 passed, 1 failed, 2 skipped
""")
    assert "WRONG: made: wanted: " in whole.stdout and whole.stdout.endswith("7 passed, 5 failed\n")


def test_check_runs_in_an_archive_and_tells_what_fails(tmp_path):
    copy = tmp_path / "a copy"
    shutil.copytree(programs.ROOT, copy, ignore=lambda at, names: {*files.BUILT, *["out"] * ("/src" not in at)} & set(names), symlinks=True)
    run = lambda: subprocess.run(["./check", "tests/lints/test_pages.py::test_each_link_leads_to_a_file_or_a_heading"], cwd=copy,
                                 capture_output=True, text=True, env={**os.environ, "HOME": "/none", "LC_ALL": "POSIX"})
    ran = run()
    assert ran.returncode == 0 and ran.stdout.splitlines()[-2:] == ["lints ok", "1 passed, 0 failed"], ran.stdout
    with open(copy / "README.md", "a", encoding="utf-8") as page:
        page.write("[a page](none.md)\n")
    ran = run()
    assert ran.returncode == 1 and "README.md links to none.md" in ran.stdout and ran.stdout.endswith("0 passed, 1 failed\n"), ran.stdout


# What is said of an edit, and whether it names a clause that is not proved.
SAID = [("note: src/a.rt:50:82: it is not proved that what the function ensures holds when it returns", True),
        ("./proofs/a/b/Answers.antt:17:54: error: `returns`: as printed, the two types first differ", True), ("", False),
        ("./proofs/a/b/Answers.antt:17:54: error: `returns`: `c` has no field `admits_opened`", False),
        ("src/place.rt:45:9: the borrow checker does not cover this function yet", False)]


@pytest.mark.parametrize("said, is_right", SAID)
def test_what_refuses_an_edit_is_judged(said, is_right):
    assert gate.tells_of_a_clause(said) == is_right


def test_all_tests_are_found_by_one_run():
    """Two files of tests of one name are not."""
    ran = subprocess.run([*gate.PYTEST, "--collect-only"], cwd=gate.TESTS, capture_output=True, text=True)
    assert ran.returncode == 0, ran.stdout[-2000:]
