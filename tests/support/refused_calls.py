"""The files `memory/refused.*`, `memory/takes_none.*` and `memory/large.tsv`: calls, with what they return. Each request for memory of a
call is refused in turn, and then it must return that it is out of memory, or the same as with memory. Of large.tsv none is refused.

With the word `twice` a program makes some requests that nothing needs, the call, and the same call again. A run in which the one request
before the call is refused says which request is the first of the call. Then this one and each later one is refused, up to the first
after the call. Where the first request of a call is refused, it must return that it is out of memory: so a call that never does is found.
"""
import os
from dataclasses import dataclass

from support import call_rows, programs, refused

AFTER = "9999"  # So many requests are made after a call, to find whether one was refused.
MOST = 20000  # More requests than a run makes up to the end of its first call.
OUT_OF_MEMORY = "out of memory"


def faults(run, wanted, takes_memory):
    """What is wrong with a call that returns this with memory. `run` makes it after a number of requests, with one of a number refused, and
    returns its lines: whether the request before the call was refused, what the call returns, how many requests after it are granted,
    and what the second call returns."""
    whole = ["0", wanted, AFTER, wanted]
    if run(0, 0) != whole:
        return [f"with memory: {run(0, 0)}"]
    first = next((number for number in range(1, MOST) if run(1, number)[:1] == ["0"]), MOST)
    wrong, number = [], first
    while number < MOST:
        lines = run(0, number)
        if lines[:2] == ["0", wanted] and lines[2:3] != [AFTER] and lines[3:] == [wanted] and lines[2].isdigit():
            break  # (a request after the call was refused)
        if lines != ["0", OUT_OF_MEMORY, AFTER, wanted] and (lines != whole or number == first):
            wrong.append(f"request {number - first + 1} refused: {lines}")
        number += 1
    if number >= MOST:
        wrong.append("the end of the call was not found")
    elif takes_memory != (number > first):
        wrong.append(f"it makes {number - first} requests")
    return wrong


@dataclass
class Case:
    """A row: a call, which has a line, a name and what it returns; and whether it takes memory."""

    row: call_rows.Case
    takes_memory: bool

    def __getattr__(self, name):
        return getattr(self.row, name)

    def words(self):
        """The call and its arguments, a line each."""
        return [self.row.call, *(text.rstrip("\n").replace("\n", " ") for text in self.row.arguments)]

    def run(self, count, number):
        """The lines that the program writes when a request is refused."""
        given = "".join(f"{word}\n" for word in [count, *self.words()])
        ran, _ = refused.run([programs.built(self.row.program), "twice"], given, number)
        lines = ran.stdout.split("\n")[:-1]
        lines[1::2] = map(self.row.read_answer, lines[1::2])
        return [*lines, f"status {ran.returncode}"] if ran.returncode else lines

    def faults(self):
        """What is wrong, in lines: with the answer to the call, as in other rows, or else where a request is refused."""
        yield from list(self.row.faults()) or (f"    {line}" for line in faults(self.run, self.row.wanted[0][1], self.takes_memory))


class Large:
    """A row with large arguments: no request is refused, and the call must return what is wanted. Its texts are made when it is run."""

    def __init__(self, *given):
        self.given, self.line, self.name = given, given[1], " ".join(given[-1][:-1]).replace("::", ".")

    def faults(self):
        programs.built(self.given[2])  # (where it is not, the texts need not be made)
        case = Case(call_rows.case_of(*self.given), True)
        ((_, wanted),) = case.wanted
        if (lines := case.run(0, 0)) != ["0", wanted, AFTER, wanted]:
            yield f"    wanted: {call_rows.shown(wanted)}"
            yield f"    got, before it, from it, the requests after it, and from the second call: {call_rows.shown(' '.join(lines))}"


def read(path):
    """The cases of a file."""
    name = os.path.basename(path).split(".")[0]
    return [Large(*row) for row in call_rows.rows_of(path)] if name == "large" else [Case(row, name == "refused") for row in call_rows.read(path)]
