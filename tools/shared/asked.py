"""Answers of the programs that answer calls, where they are not built: `rt try` runs each once with all lines that tests ask.

The tests say themselves what they ask: they run once with DENIMSCREE_ASKED, and `tests/support/answers.py` then writes the lines that have no
answer to that file. A line that is made of the answer to another one is not found so: its test needs the built program, or a second run, since
the answers are kept by the sums of what answers.
"""
import bisect
import concurrent.futures
import itertools
import json
import os
import re
import subprocess
import sys
import tempfile

import crates
import files
import gate

PROGRAMS = ("semver_answers", "npm_answers")
# The tests that ask.
ASKING = ["rows", "pages", "models/test_json_places.py", *files.matching("memory/refused.*", "memory/takes_none.*", top=gate.TESTS)]
KEPT = os.path.join(files.ROOT, "out", "check", "answers")
MOST = 1500000  # The lines of one run have so many characters: `rt try` returns at most a mebibyte, and answers are shorter than lines.


def lacking(words):
    """The lines that tests ask and that have no answer, by the programs."""
    with tempfile.NamedTemporaryFile("r", encoding="utf-8") as file:
        settings = {"DENIMSCREE_ANSWERS": KEPT, "DENIMSCREE_ASKED": file.name, "DENIMSCREE_PROVES": "no"}
        subprocess.run([*gate.PYTEST, "-p", "no:cacheprovider", "--tb=no", "--assert=plain", *words], cwd=gate.TESTS,
                       env={**os.environ, **settings}, stdout=subprocess.DEVNULL)
        found = [*map(json.loads, dict.fromkeys(file))]
    return {program: [line for name, line in found if name == program] for program in dict.fromkeys(name for name, _ in found)}


def parts_of(lines):
    """The lines in parts of a length, each for one run."""
    lines = sorted(lines, key=len)
    while lines:
        at = max(1, bisect.bisect(list(itertools.accumulate(map(len, lines))), MOST))
        yield lines[:at]
        lines = lines[at:]


def ask(program, lines):
    """The answers of a program to lines. It is built once, and runs for each part of them."""
    answers, parts = {}, list(parts_of(lines))
    with tempfile.TemporaryDirectory() as room:
        for at, part in enumerate(parts):
            files.write(os.path.join(room, f"{at:03}"), "".join(f"{line}\n" for line in part))
        # (the build with checks answers, and the interpreter, which would take longer, gets one step)
        ran = subprocess.run(["rt", "try", "--seconds", "600", "--steps", "1", "--cases", room], cwd=os.path.join(crates.CRATES, program),
                             capture_output=True)
    said = re.split(r"^== \d+\n", ran.stdout.decode(errors="replace"), flags=re.M)[1:]
    for part, text in itertools.zip_longest(parts, said, fillvalue=""):
        got = text.split("\n")[:-1]
        if ran.returncode or len(got) != len(part):
            sys.exit(f"{program}: status {ran.returncode} at {[*part, ''][len(got)][:300]}\n{ran.stderr.decode(errors='replace')[-1500:]}")
        answers.update(zip(part, got))
    return answers


def prepare(words):
    """Asks all that the tests of some words ask: variables for their run."""
    programs = [name for name in PROGRAMS if not os.environ.get("DENIMSCREE_PROGRAMS") and not crates.is_built(name)]
    folders = {word.split("/")[0] for word in words if not word.startswith("--")}
    if not programs or not crates.toolchain() or folders and folders.isdisjoint(it.split("/")[0] for it in ASKING):
        return {}
    sums, kept = {name: crates.sum_of_sources(name) for name in programs}, {}
    if os.path.isfile(KEPT):
        kept = json.loads(files.read(KEPT))
    if kept.get("sums") != sums:
        kept = {"sums": sums, **{name: {} for name in programs}}
    files.write(KEPT, json.dumps(kept))
    found = lacking(words if folders else [*words, *ASKING])
    with concurrent.futures.ThreadPoolExecutor() as pool:
        for program, answers in zip(found, pool.map(ask, found, found.values())):
            kept[program].update(answers)
    files.write(KEPT, json.dumps(kept))
    return {"DENIMSCREE_ANSWERS": KEPT}
