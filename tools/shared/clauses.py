"""The clauses of calls, from the sources: `./check --clauses CALL`. Below them stand the definitions that they name, each with the words above it in
`specs/`. CALL is as Range::parse: a function of a type, of a module or of a crate; all of that name without `::`."""
import functools
import os
import re

import definitions
import files
import rattle
from crates import listed

PAGE = "docs/PROOFS.md"
CODE = re.compile(r"`([^`]+)`")
HIDDEN = ("laws", "invariant", "Value", "view")  # Ghost members that say nothing of a call.


class Call:
    """A function with its clauses: what is promised of it, by labels, and the definitions that this names."""

    def __init__(self, crate, path, source, function):
        self.names = {function.name, function.type, function.trait, crate, *function.module}
        self.head = f"{path}: {'::'.join(filter(None, [function.type or crate, function.name]))}"
        self.clauses = list(function.clauses)
        for block in (it for it in source.blocks if function.trait and it.start < function.start < it.end):
            self.clauses += [("ensures", name, clause) for name, clause in source.ghost_members(block) if name not in HIDDEN]
        brought, words = dict(rattle.imported(source.code, "ghost use")), definitions.WORD.findall(" ".join(it for *_, it in self.clauses))
        ways = [brought[first] + more for first, *more in (word.split(".") for word in words) if first in brought]
        self.named = list(dict.fromkeys(filter(None, map(definitions.found, ways))))

    def labels(self):
        return {label for _, label, _ in self.clauses}.union(*(it.fields() for it in self.named))

    def lines(self):
        yield self.head
        for kind, label, clause in self.clauses:
            yield f"    {kind}{f' {label}' if label else ''}: {' '.join(clause.split())}"
        for one in self.named:
            yield f"    -> {one.short()}: {one.said}"
            yield from (f"         {part}: {said}" for part, said in one.fields().items())


@functools.cache
def handed_on(crate):
    """What a crate hands on of others."""
    ways = (way for path in files.sources(crate) for _, way in rattle.imported(rattle.source(path).code, "pub use"))
    return {way[-1] for way in ways if way[0] in listed()}


def calls(name):
    """The calls of a name with clauses. What stands before `::` is a type, a trait, a module or a crate; `..` stands for a beginning."""
    *of, last = re.sub(r"[<(].*", "", name).split("::")
    for crate, path in ((crate, path) for crate in listed() for path in files.sources(crate)):
        for function in rattle.source(path).functions:
            if (function.name == last or last.startswith("..") and function.name.endswith(last[2:])) and not function.is_inner:
                call = Call(crate, path, rattle.source(path), function)
                is_handed_on = bool(of and {function.name, function.type} & handed_on(of[0]))
                if call.clauses and (is_handed_on or set(of) <= call.names):
                    yield call


def show(names):
    """Prints the clauses of calls: the status."""
    lines = [line for name in names for call in calls(name) for line in call.lines()]
    print("\n".join(lines) or "no call of that name has clauses")
    return int(not lines)


def faults():
    """What is wrong with the calls, labels and definitions that the tables of promises name."""
    known = {os.path.basename(path)[:-5] for path in files.matching("crates/*/specs/**/*.antt")}
    for line in files.lines(PAGE):
        cells = [cell.strip() for cell in re.split(r"(?<!\\)\|", line)]
        if len(cells) != 3 or not cells[1].startswith("`"):
            continue
        for item in cells[1].split(";"):
            call, *labels = CODE.findall(item)
            found = list(calls(call))
            yield from [] if found else [f"no call {call} has clauses"]
            yield from (f"no clause {label} of {call}" for label in labels if found and not any(label in it.labels() for it in found))
        yield from (f"no definitions {name}" for name in CODE.findall(cells[2]) if name.split(".")[0] not in known)
