"""Calls of the libraries, by programs that read a call a line, a JSON array of its name and its arguments, and write its answer, a JSON
string a line. A program runs until the tests end, and each process of pytest has its own.

Where a program is not built and nothing is to be proved, the answers are those of the file DENIMSCREE_ANSWERS: `asked.py` of tools/shared says how."""
import atexit
import functools
import json
import os
import shlex
import subprocess
import threading

from support import programs

SECONDS = 120  # A call that takes longer is ended.
LONGEST = 50000  # Longer lines are not asked where the program is not built: the build with checks would take a second for each.


class Ended(Exception):
    """A program ended in place of an answer."""


@functools.cache
def all_kept():
    """The answers that are kept, by the programs, which are not built."""
    path = os.environ.get("DENIMSCREE_ANSWERS")
    if not path:
        return {}
    with open(path, encoding="utf-8") as file:
        return json.load(file)


def kept_answer(program, line):
    """The answer to a line that is kept. Where lines are gathered, one without an answer is noted, and its answer is empty."""
    found, asked = all_kept()[program].get(line), os.environ.get("DENIMSCREE_ASKED")
    if found is not None:
        return json.loads(found)
    if not asked or len(line) > LONGEST:
        raise programs.NotBuilt(f"not built: {program}")
    with open(asked, "a", encoding="utf-8") as file:
        file.write(json.dumps([program, line]) + "\n")
    return ""


@functools.cache
def running(program):
    ran = subprocess.Popen([programs.built(program)], stdin=subprocess.PIPE, stdout=subprocess.PIPE)
    atexit.register(ran.communicate)
    return ran


def line_of(call, *arguments):
    return json.dumps([call, *arguments], ensure_ascii=False)


def alone(program, call, *arguments):
    """The words of a shell that ask one call."""
    command = f"(cd crates/{program}; rt try)" if program in all_kept() else programs.built(program)
    return f"printf '%s\\n' {shlex.quote(line_of(call, *arguments))} | {command}"


def ask(program, call, *arguments):
    """The answer of a call. A program that has ended is started anew for the next one."""
    if program in all_kept():
        return kept_answer(program, line_of(call, *arguments))
    ran, line = running(program), b""
    timer = threading.Timer(SECONDS, ran.kill)
    timer.start()
    try:
        ran.stdin.write(line_of(call, *arguments).encode() + b"\n")
        ran.stdin.flush()
        line = ran.stdout.readline()
    except OSError:
        pass
    finally:
        timer.cancel()
    if not line.endswith(b"\n"):
        running.cache_clear()
        raise Ended(f"{program} ended with status {ran.wait()}, and without an answer")
    return json.loads(line)


def ask_all(program, calls):
    """The answers of calls, each a list of a name and arguments, in one run of a program: for many made cases."""
    if program in all_kept():
        return [kept_answer(program, line_of(*call)) for call in calls]
    given = "".join(f"{line_of(*call)}\n" for call in calls)
    ran = subprocess.run([programs.built(program)], input=given.encode(), capture_output=True)
    lines = ran.stdout.split(b"\n")[:-1]
    if ran.returncode or len(lines) != len(calls):
        raise Ended(f"{program} ended with status {ran.returncode} after {len(lines)} answers of {len(calls)}: {ran.stderr.decode()}")
    return [json.loads(line) for line in lines]
