"""The gate: proves each crate and its tests, and runs all parts and all tests. What needs no proof runs beside the proofs, and so do wrong bodies,
each as soon as what it needs is proved; then come the packages, which are built in the same folders one after another, and the other tests."""
import concurrent.futures
import contextlib
import os
import re
import subprocess
import tempfile
import threading
import time
from dataclasses import dataclass

import crates
import files

PROVED = re.compile(r"^rt: (\w+) (?:proved$|is kept: )")
TOTAL = re.compile(r"^(\d+) passed, (\d+) failed$")
EDIT = re.compile(r"^(?:rt: )?must-fail (\S+)/(\S+\.edit): (.*)$", re.M)
TESTS = os.path.join(files.ROOT, "tests")
PYTEST = ["/usr/bin/python3", "-B", "-m", "pytest", "-q", "--no-header"]
# Lines of the prover that name a clause: the source that does not meet it, or the goal of a proof that no longer shows it; and lines that
# say no more than that an edit cannot be read.
CLAUSE = re.compile(r"(?:note: )?(?:\./)?(?:src/\S+\.rt:\d+:\d+: .*not proved|proofs/\S+/(?:Answers|Invariants|Proof)\.antt:\d+:\d+: error: `[^`]+`: )")
GONE = re.compile(r": record `|has no field|is not in scope|has no `|was not admitted|is no name|does not cover")
REFUSED = "refused, as it must be: "
SHOW = threading.Lock()


def tells_of_a_clause(line):
    return bool(CLAUSE.match(line)) and not GONE.search(line)


@dataclass
class Result:
    """What a part gives: how many checks passed and failed, and what it wrote."""

    name: str
    passed: int
    failed: int
    text: str


def say(text):
    with SHOW:  # (no release can be made of a log in which two lines stand in one)
        print(text, flush=True)


def least():
    """How many checks of each kind pass at least."""
    return {kind: int(number) for number, kind in map(str.split, files.lines("tests/least"))}


def run(name, words, see=None, at=files.ROOT, wanted=1, **settings):
    """Runs a part. A part without its last line counts as one failure, and so does one that fails and counts none, or of which fewer checks than are
    wanted pass."""
    began, said = time.monotonic(), []
    with tempfile.TemporaryFile("w+", errors="replace") as errors:
        try:
            with subprocess.Popen(words, cwd=at, env={**os.environ, **settings}, stdin=subprocess.DEVNULL, stdout=subprocess.PIPE,
                                  stderr=errors, text=True, errors="replace") as ran:
                for line in ran.stdout:
                    said.append(line)
                    if see:
                        see(ran, line.rstrip("\n"))
            status = ran.returncode
        except OSError as error:  # (there is no such script, say)
            status, said = 127, [f"WRONG: {error}"]
        errors.seek(0)
        told = errors.read()
    text, total = "".join(said), TOTAL.match(said[-1]) if said else None
    passed, failed = (int(total[1]), int(total[2])) if total else (0, 1)
    failed = failed or int(status != 0 or passed < wanted)
    why = "" if total and passed >= wanted else f"{name}: the last line is not 'N passed, M failed', with {wanted} at least that passed\n"
    say(f"{'' if see else text}{told if failed else ''}{name} took {time.monotonic() - began:.0f} seconds")
    return Result(name, passed, failed, text + told + why)


def tests(kinds, *words, **settings):
    """Runs all tests of some kinds, of which none may be left out."""
    folders = [kind for kind in kinds if os.path.isdir(os.path.join(TESTS, kind))]
    return run(" ".join(folders), [*PYTEST, f"--whole={' '.join(kinds)}", *words, *folders], at=TESTS, **settings)


def note_built(names, sums):
    """Keeps of what `rt ci` has built of these crates that it was built of these sources."""
    for name in names:
        out = os.path.join(crates.CRATES, name, "out")
        # (it leaves no object of a crate that an earlier run has proved, and a stamp has what an earlier check left)
        built = [os.path.join(out, it) for it in (name, f"{name}.o")] if crates.is_program(name) else []
        for path in built + [crates.library(name)] * (not os.path.exists(os.path.join(out, "rlib", "stamp"))):
            crates.note(sums[name], name, path)


def jobs():
    """How many crates are proved side by side, each with one job: several jobs on one take half as much processor time again."""
    return min(4, len(os.sched_getaffinity(0)))


def faults_of_edits(said):
    """What is wrong with each edit of must-fail, or None: one that is refused for another reason than a clause says nothing, so it fails."""
    told = {}
    for crate, edit, text in EDIT.findall(said):
        told.setdefault((crate, edit), []).append(text)
    for path in files.matching("crates/*/must-fail/*.edit"):
        _, crate, _, edit = path.split("/")
        lines = told.get((crate, edit), ["nothing"])
        is_right = all(line.startswith(REFUSED) and tells_of_a_clause(line[len(REFUSED):]) for line in lines)
        yield None if is_right else f"WRONG: {path}: it was not refused for a clause: {lines}"


def prove(log):
    """Proves all crates from nothing, and keeps of each library as it is built that it was built of these sources."""
    every = list(crates.listed())
    sums, said = {name: crates.sum_of_sources(name) for name in every}, []

    def see(_, line):
        say(line)
        said.append(line)
        if (found := PROVED.match(line)) and found[1] in sums and not crates.is_program(found[1]):
            note_built([found[1]], sums)

    result = run("rt ci", ["rt", "ci"], see, RT_JOBS=str(jobs()))
    files.write(log, "\n".join([*said, ""]))
    if not result.failed:
        note_built(every, sums)
    edits = list(faults_of_edits("\n".join(said)))
    wrong = list(filter(None, edits))
    if not result.failed and result.passed < len(every) + len(edits):
        wrong.append(f"WRONG: rt ci counts {result.passed}, and there are {len(every)} crates and {len(edits)} edits")
    return [result, Result("edits of must-fail", len(edits) - len(list(filter(None, edits))), len(wrong), "\n".join(wrong))]


def beside(running, proving):
    """What runs beside the proofs, while the file `proving` is there. The process that tries wrong bodies is added to `running`."""
    pool, settings = concurrent.futures.ThreadPoolExecutor(), {"RT_JOBS": str(max(1, jobs() // 2)), "DENIMSCREE_PROVING": proving}
    wrong = ["nice", os.path.join(crates.TOOLS, "wrong_bodies")]
    return [pool.submit(run, "wrong bodies", wrong, lambda ran, line: (running.append(ran), say(line)), wanted=least()["wrong_bodies"], **settings),
            pool.submit(run, "lints", ["nice", *PYTEST, "lints", "runner"], at=TESTS)]


def worked():
    """The minutes that the processors of this machine have worked since it was started."""
    with open("/proc/stat", encoding="utf-8") as file:
        return sum(map(int, file.readline().split()[1:4])) / os.sysconf("SC_CLK_TCK") / 60


def run_all():
    """Runs the gate, and prints last what it took, what failed, and 'N passed, M failed': the status."""
    began, before = time.monotonic(), worked()
    results = [run("needs", [os.path.join(crates.TOOLS, "needs")])]
    if not results[0].failed:
        with tempfile.TemporaryDirectory() as room:
            log, proving, running = os.path.join(room, "log"), os.path.join(room, "proving"), []
            open(proving, "w").close()
            for name in crates.listed():  # (they are built anew)
                with contextlib.suppress(OSError):
                    os.remove(crates.noted(crates.library(name)))
            others = beside(running, proving)
            try:
                proved = prove(log)
            finally:
                os.remove(proving)
            if proved[0].failed:
                for ran in running[:1]:
                    ran.terminate()
            else:
                proved.append(tests(["bindings"], DENIMSCREE_LOG=log))
            results += [*proved, *(it.result() for it in others)]
            if not proved[0].failed:
                results.append(tests([kind for kind in least() if kind not in ("bindings", "wrong_bodies")], "-n", "auto"))
    for result in filter(lambda it: it.failed, results):
        say(f"FAILED {result.name}\n{result.text.strip()[-3000:]}")
    say(f"the gate took {(time.monotonic() - began) / 60:.0f} minutes by the clock, and {worked() - before:.0f} minutes of a processor")
    say(f"{sum(it.passed for it in results)} passed, {sum(it.failed for it in results)} failed")
    return int(any(it.failed for it in results))
