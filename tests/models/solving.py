"""Small instances of version_solving, and their answers by the definition.

An instance has the demands of the root, for each name its candidates, each the list of its demands, the best candidate first,
and for each range whether it allows each candidate. A demand is a name, a range, and whether it needs the name. All selections
are made here, and nothing is searched:

- A selection has at most one candidate for each name. It fits if each demand of the root and of each selected candidate holds: a
  needed name is selected, and a selected name has an allowed candidate.
- Names are chosen in the order in which they are first needed. Each choice is the first candidate with which a selection that
  fits exists, the earlier choices kept.
- The culprits are demands of the root that no selection fits, although one fits without any one of them.
- The reasons are lines that reasons.py checks.
"""
import itertools
import json
import random
import subprocess

import reasons
from support import made


def instance(r):
    names = r.randint(2, 5)
    most = 3 if names == 5 else 4
    counts = [r.randint(0 if r.random() < .05 else 1, most) for _ in range(names)]
    ranges = []

    def demand(name):
        count = counts[name]
        allowed = set(r.sample(range(count), r.randint(0 if r.random() < .1 else min(1, count), count)))
        ranges.append([int(i in allowed) for i in range(count)])
        return [name, len(ranges) - 1, r.random() < .8]

    def missing():
        # a name without a document, and a range that is not there
        return [names + r.randint(0, 2), r.randint(0, 2 * len(ranges) + 3), r.random() < .5]

    def demands(most):
        found = [demand(name) for name in r.sample(range(names), r.randint(0, min(most, names)))]
        return found + [missing()] if r.random() < .05 else found

    packages = []
    for count in counts:
        shared = demands(2)
        packages.append([shared if r.random() < .5 else demands(3) for _ in range(count)])
    root = [demand(name) for name in r.sample(range(names), r.randint(1, names))]
    if r.random() < .1:
        root.append(demand(r.choice(root)[0]))
    if r.random() < .03:
        root.append(missing())
    return root, packages, ranges


def allows(case, range_, candidate):
    ranges = case[2]
    return range_ < len(ranges) and candidate < len(ranges[range_]) and ranges[range_][candidate] == 1


def holds(case, selection, demand):
    name, range_, needed = demand
    if name in selection:
        return allows(case, range_, selection[name])
    return not needed


def fits(case, selection):
    root, packages, _ = case
    return all(holds(case, selection, demand) for demand in root) and all(
        holds(case, selection, demand) for name, candidate in selection.items() for demand in packages[name][candidate])


def all_that_fit(case):
    packages = case[1]
    for choice in itertools.product(*[[None, *range(len(candidates))] for candidates in packages]):
        selection = {name: candidate for name, candidate in enumerate(choice) if candidate is not None}
        if fits(case, selection):
            yield selection


def next_name(case, chosen):
    root, packages, _ = case
    for demands in [root, *(packages[name][candidate] for name, candidate in chosen.items())]:
        for name, _, needed in demands:
            if needed and name not in chosen:
                return name
    return None


def is_grounded(case, selection):
    root, packages, _ = case
    seen, todo = set(), [name for name, _, needed in root if needed]
    while todo:
        name = todo.pop()
        if name not in seen:
            seen.add(name)
            todo += [other for other, _, needed in packages[name][selection[name]] if needed]
    return seen == set(selection)


def fault(case, line):
    """What is wrong with the answer of the program, or None."""
    fitting = list(all_that_fit(case))
    if not fitting:
        return fault_of_culprits(case, line)
    chosen = {}
    while (name := next_name(case, chosen)) is not None:
        for candidate in range(len(case[1][name])):
            more = {**chosen, name: candidate}
            kept = [selection for selection in fitting if more.items() <= selection.items()]
            if kept:
                chosen, fitting = more, kept
                break
    assert fits(case, chosen) and is_grounded(case, chosen)
    wanted = "".join(["selected", *(f" {name}={candidate}" for name, candidate in chosen.items())])
    return None if line == wanted else f"not {wanted}"


def culprits_of(case, shown):
    """The demands of the root that a program names, as far as the root has them."""
    culprits = []
    for name, range_ in (map(int, one.split(":")) for one in shown):
        culprits += [demand for demand in case[0] if demand[:2] == [name, range_]][:1]
    return culprits


def fault_of_culprits(case, line):
    first, *shown = line.split(" ")
    _, packages, ranges = case
    culprits = culprits_of(case, shown)
    if first != "none" or len(culprits) != len(shown):
        return "not none, with demands of the root"
    if any(True for _ in all_that_fit((culprits, packages, ranges))):
        return "they can be met together"
    for at in range(len(culprits)):
        if not any(True for _ in all_that_fit((culprits[:at] + culprits[at + 1:], packages, ranges))):
            return f"the others of {shown[at]} cannot be met"
    return None


def fault_with_reasons(case, line):
    """What is wrong with the answer of a program that says its reasons too, or None."""
    said, *lines = line.split(" | ")
    first, *shown = said.split(" ")
    found = fault(case, said)
    if found or first != "none":
        return found or (f"reasons: {lines}" if lines else None)
    return reasons.fault_of(case, culprits_of(case, shown), lines)


def compare(program, make, fault_of, count, seed):
    """Makes cases, and compares the line of each. Returns how many there are. Few with a selection, or without, would compare little."""
    r, count = random.Random(seed + made.SEED), count * made.TIMES
    cases = [make(r) for _ in range(count)]
    lines = said_of_all(program, cases)
    for case, line in zip(cases, lines):
        fault = fault_of(case, line)
        assert fault is None, f"{line}: {fault}: {line_of(case)}"
    assert count // 10 <= sum(line.startswith("none") for line in lines) <= count - count // 10
    return count


def said_of_all(program, cases):
    """What a program says of each case."""
    ran = subprocess.run([program], input="".join(map(line_of, cases)), capture_output=True, encoding="utf-8", timeout=600)
    lines = ran.stdout.splitlines()
    assert (ran.returncode, len(lines)) == (0, len(cases)), ran.stderr
    return list(map(answer_of, lines))


def said_of(program, case):
    """What a program says of an instance: what is selected or whom it blames, and the lines of reasons."""
    ran = subprocess.run([program], input=line_of(case), capture_output=True, encoding="utf-8", timeout=60)
    assert ran.returncode == 0, ran.stderr
    said, *lines = answer_of(ran.stdout).split(" | ")
    return said, lines


def text_of(case):
    return json.dumps(case, separators=(",", ":"))


def line_of(case):
    """A line of the input of a program: the call of an instance, or of a problem of a manifest, packuments, groups that are left out, and
    maybe other members of the call."""
    if not case or not isinstance(case[0], dict):
        return json.dumps(["version_solving::solve", text_of(case)]) + "\n"
    manifest, packuments, omit, *given = case
    members = {"manifest": manifest, "packuments": packuments, "omit": omit}
    return json.dumps(["npm_calls::call", "resolve", text_of(members | dict(*given))]) + "\n"


def answer_of(line):
    """What a line of a program says. Of a problem it is `selected` and the versions `name@version` in the order in which they are chosen,
    `none` and the culprits `name:spec`, or `undecided`, with tabs between."""
    said = json.loads(line)
    if not said.startswith("{"):
        return said
    answer = json.loads(said)
    shown = {"selected": lambda: [f"{one['name']}@{one['version']}" for one in answer["packages"]],
             "none": lambda: [f"{one['name']}:{one['spec']}" for one in answer["culprits"]], "undecided": lambda: []}
    return "\t".join([answer["outcome"], *shown[answer["outcome"]]()])
