"""The public calls that can run out of memory have rows, these calls are made once with checks, and wrong calls are found."""
import glob
import os
import re

import pytest
import public_calls
from support import programs, refused_calls
from support.call_rows import Case

HERE = os.path.dirname(os.path.abspath(__file__))
ROWS = [case for path in sorted(glob.glob(os.path.join(HERE, "refused.*")) + glob.glob(os.path.join(HERE, "takes_none.*")))
        for case in refused_calls.read(path)]


def test_each_public_call_that_can_run_out_of_memory_has_a_row():
    assert list(public_calls.lacking({case.row.call for case in ROWS})) == []


def test_a_tree_of_depth_50():
    """At each step a prerelease more is taken from the first set."""
    words = [">=1.0.0-0"]
    for number in range(1, 51, 2):
        words += [f">=1.0.0-{number}", "Both", f"<1.0.0-{number + 1}", "Without"]
    row = Case(0, "a tree", "semver_answers", "SetTree::evaluate", words, [([], ">=1.0.0-50")])
    assert list(refused_calls.Case(row, True).faults()) == []


@pytest.mark.parametrize("program", ["semver_answers", "npm_answers", "solver_answers"])
def test_each_call_with_checks(program, tmp_path):
    """Under `rt try`, which stops at calls that break a `requires`."""
    programs.built(program)  # (where it is not built, `./check` asks all rows by `rt try`)
    cases = [case for case in ROWS if case.row.program == program]
    for at, case in enumerate(cases):
        (tmp_path / f"{at:03}").write_text("".join(f"{word}\n" for word in [0, *case.words()]))
    # (the build with checks runs each call; the interpreter would take minutes, and gets one step)
    status, output, error = programs.tried(program, ["--steps", "1", "--cases", str(tmp_path), "--", "twice"])
    parts = re.split(r"^== (\S+)\n", output, flags=re.M)
    written, ended = dict(zip(parts[1::2], parts[2::2])), re.findall(r"^case=(\S+) run=ended status=0 ", error, re.M)
    assert status == 0, error
    for at, case in enumerate(cases):
        ((_, wanted),) = case.row.wanted
        lines = written[f"{at:03}"].split("\n")
        assert [lines[0], case.row.read_answer(lines[1]), lines[2]] == ["0", wanted, refused_calls.AFTER], case.name
        assert lines[3:] == [lines[1], ""] and f"{at:03}" in ended, case.name


# ---- made-up calls, right ones and wrong ones

def made_up(before=3, requests=4, at=None, given=None, row="row", second="row", status=()):
    """A call that makes some requests after others, and says that memory is out where one of its own is refused, but gives
    something else where that is the one at a place."""
    def run(count, number):
        if 0 < number <= before:
            return ["status 2"]
        own, after = number - before - count, refused_calls.AFTER
        if count and own == 0:
            return ["0", row, after, row]
        if number and 0 < own <= requests:
            said = given if at == own else refused_calls.OUT_OF_MEMORY
            return ["1" if count else "0", said, after, second, *status]
        left = str(own - requests - 1) if number and own - requests - 1 < int(after) else after
        return ["1" if count else "0", row, left, row]

    return run


# A made-up call, whether it takes memory, and whether it is right.
MADE_UP = {
    "each request is reported": (made_up(), True, True),
    "no request before it": (made_up(before=0), True, True),
    "the row all the same": (made_up(at=2, given="row"), True, True),
    "no request": (made_up(requests=0), False, True),
    "the row where the first request is refused": (made_up(at=1, given="row"), True, False),
    "another row": (made_up(at=3, given="another row"), True, False),
    "nothing": (made_up(at=4, given="nothing"), True, False),
    "another row in the second call": (made_up(second="another row"), True, False),
    "out of memory in the second call": (made_up(second=refused_calls.OUT_OF_MEMORY), True, False),
    "another status": (made_up(status=["status 1"]), True, False),
    "another row with memory": (made_up(row="another row"), True, False),
    "requests where there should be none": (made_up(), False, False),
    "no request where there should be some": (made_up(requests=0), True, False),
}


@pytest.mark.parametrize("run, takes_memory, is_right", MADE_UP.values(), ids=MADE_UP)
def test_a_made_up_call(run, takes_memory, is_right):
    assert (refused_calls.faults(run, "row", takes_memory) == []) == is_right


@pytest.mark.parametrize("answer, is_right", [("b", True), (refused_calls.OUT_OF_MEMORY, False)])
def test_a_large_call_of_a_made_up_program(tmp_path, monkeypatch, answer, is_right):
    path = tmp_path / "program"
    path.write_text(f"#!/bin/sh\nprintf '0\\n%s\\n{refused_calls.AFTER}\\nb\\n' '{answer}'\n")
    path.chmod(0o755)
    monkeypatch.setattr(programs, "built", lambda name: str(path))
    large = refused_calls.Large("large.tsv:3", 3, "made", ["# call", "text", "answer"], ["f", r"\{3*a}", "b"])
    assert (large.line, large.name) == (3, r"f \{3*a}") and (list(large.faults()) == []) == is_right
