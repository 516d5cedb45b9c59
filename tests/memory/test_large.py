"""Each public function that can run out of memory is called on large arguments, with ample memory, and so are the exports for C and the
programs.

A function that gives up is proved too, since out of memory may be returned at any time, and a bound on the requests of a call would
count bytes in each clause. So each one is called here with 2,500 and more of whatever it counts, such as sets, words, identifiers,
packages, advisories or events, on texts of a megabyte where a text may be so long, and with each of its options. What is wanted is
written in large.tsv or computed in `large`, and never taken from the library. Each call is made twice.
"""
import functools
import os
import subprocess

import pytest
import public_calls
from large import exports, lock_files, picks, resolutions, rows, runs
from support import call_rows, programs
from support.refused_calls import AFTER
from support.refused_programs import told

SEMVER = [rows.join_rows, rows.tree_rows, rows.least_rows, rows.key_rows]
OF_FILES = [lock_files.check_rows, lock_files.manifest_rows, lock_files.source_rows, lock_files.audit_rows, lock_files.pick_rows]
GROUPS = [*(("semver_answers", made) for made in SEMVER), *(("npm_answers", made) for made in OF_FILES)]


def written():
    """The rows of large.tsv, in the form of those that are computed."""
    path = os.path.join(os.path.dirname(os.path.abspath(__file__)), "large.tsv")
    return [(row.call, row.arguments, row.wanted[0][1]) for row in call_rows.read(path)]


def name_of(group):
    return f"{group.__module__}.{group.__name__}" if callable(group) else group


def shortened(text):
    return text if len(text) < 200 else f"{text[:120]}.. ({len(text)} bytes) ..{text[-60:]}"


def fault_of_row(command, row):
    """What is wrong with the result of a call, or None."""
    name, words, wanted = row
    ran = subprocess.run(command, input="\n".join(["0", name, *words]) + "\n", capture_output=True, text=True)
    if ran.returncode == 0 and ran.stdout.split("\n") == ["0", wanted, AFTER, wanted, ""]:
        return None
    return f"{name} {shortened(' '.join(words))}: {shortened(told(ran))}, and not {shortened(wanted)}"


@pytest.mark.parametrize("program, made", GROUPS, ids=name_of)
def test_calls(program, made, record_property):
    command, made_rows = [programs.built(program), "twice"], list(made())
    record_property("made", len(made_rows))
    assert [fault for row in made_rows if (fault := fault_of_row(command, row))] == []


def test_a_program_that_writes_nothing_is_found():
    assert fault_of_row(["true"], ("Version::least", [], "0.0.0-0"))


def called():
    """The calls that the rows make."""
    return {name for name, _, _ in written()} | {name for _, made in GROUPS for name, _, _ in made()}


def test_each_public_call_that_can_run_out_of_memory_has_a_row():
    assert list(public_calls.lacking(called())) == []


# ---- the exports for C, on the rows of the calls that they make

@functools.cache
def libraries():
    """The exports for C, as their package builds them."""
    build = os.path.join(programs.room(), "c")
    for crate in ("node_semver_c", "npm_c"):
        programs.built(crate)
    subprocess.run(["make", "-s", "-C", os.path.join(programs.ROOT, "bindings", "c"), f"BUILD={build}", "all", "calls"], check=True)
    return (exports.Exports(os.path.join(build, "libnode_semver.so")), picks.Picks(os.path.join(build, "libnpm_calls.so")),
            resolutions.Resolutions(os.path.join(build, "libnpm_calls.so")))


def fault_of_export(library, row):
    """What is wrong with the result of the export that makes a call, or an empty text; None if no export makes it."""
    name, words, wanted = row
    try:
        given = library.result(name, words)
    except exports.Failed as error:
        given = f"failed: {error}"
    is_right = "" if given == wanted else f"export for {name} {shortened(' '.join(words))}: {shortened(given or '')}, and not {shortened(wanted)}"
    return None if given is None else is_right


def test_exports_for_c(record_property):
    semver, picking, resolving = libraries()
    builds = [(words[0], wanted) for name, words, wanted in written() if name == "VersionRef::to_version"]
    asked = [(semver, row) for row in (*written(), *rows.rows(), *rows.export_rows(builds))]
    asked += [(picking, row) for made in OF_FILES for row in made()] + [(resolving, row) for row in resolutions.rows()]
    found = [fault for fault in (fault_of_export(*row) for row in asked) if fault is not None]
    record_property("made", len(found))
    assert list(filter(None, found)) == []
    assert list(public_calls.lacking(called() | semver.called | picking.called | resolving.called, with_exports=True)) == []


# ---- programs

def ran(program, words, given="", folder=None):
    done = subprocess.run([programs.built(program), *words], input=given, cwd=folder, capture_output=True, text=True)
    return done.returncode, done.stdout, done.stderr


def of_lock(run, folder):
    return ran("npm_lock_check", run.arguments(folder), lock_files.text_of(run.lock)), (run.status, run.output, run.error)


def of_pairs(pairs, _):
    lines, answers = ("\n".join(it) + "\n" for it in pairs)
    return ran("semver_pairs", [], lines), (0, answers, "")


def of_explained(run, _):
    words, wanted = run
    return ran("semver", ["--explain", *words]), wanted


def of_picks(run, folder):
    return ran("npm_pick", run.arguments(folder), folder=folder), (run.status, run.output, run.error)


def of_resolved(run, folder):
    return ran("npm_resolve", run.arguments(folder), folder=folder), (run.status, run.output, run.error)


# The program, how a run of it is made, and the runs.
RUNS = [("npm_lock_check", of_lock, made) for made in (runs.check_runs, runs.audit_runs, runs.exception_runs, runs.omission_runs,
                                                       runs.manifest_runs, runs.refused_runs)]
RUNS += [("semver_pairs", of_pairs, runs.pair_runs), ("semver", of_explained, runs.explained_runs), ("npm_pick", of_picks, runs.pick_runs),
         ("npm_resolve", of_resolved, runs.resolve_runs)]


def listed(parts):
    return ", ".join(shortened(str(part)) for part in parts)


@pytest.mark.parametrize("program, run, made", RUNS, ids=[f"{program} {made.__name__}" for program, _, made in RUNS])
def test_programs(program, run, made, record_property, tmp_path):
    programs.built(program)
    wrong, count = [], 0
    for count, one in enumerate(made(), 1):
        (tmp_path / str(count)).mkdir()
        got, wanted = run(one, str(tmp_path / str(count)))
        wrong += [] if got == wanted else [f"run {count}: {listed(got)}, and not {listed(wanted)}"]
    record_property("made", count)
    assert wrong == []
