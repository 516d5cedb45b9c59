"""The search for versions that fit on instances that grow: how many steps it takes, what minisat says of them, and beside the
instructions of minisat and the rounds of resolvelib."""
import os
import subprocess

import families
import pytest
import resolvelib
import solving
from support import made, programs

MOST = 10_000_000
GROWING = {
    "late": [families.late(4, 10), families.late(32, 80)],
    "chain": [families.chain(5, 20), families.chain(20, 80)],
    "plugins": [families.plugins(*size, seed) for size in ((20, 40, 5), (80, 80, 6)) for seed in (1, 2, 3)],
}


def program():
    return programs.built("solver_answers")


def said_of(case, steps=None):
    """What the program says of an instance with so many steps, and of its reasons."""
    return solving.said_of(program(), case if steps is None else [*case, steps])


def steps_of(case, is_enough):
    """The fewest steps with which the answer is whole."""
    few, many = 0, 1
    while not is_enough(*said_of(case, many)):
        few, many = many, many * 2
        assert many < 2 * MOST
    while many - few > max(1, few // 100):
        middle = (few + many) // 2
        few, many = (few, middle) if is_enough(*said_of(case, middle)) else (middle, many)
    return many


def is_decided(said, lines):
    return said != "undecided" and lines != ["undecided"]


@pytest.mark.parametrize("family", GROWING)
def test_an_instance_takes_fewer_steps_than_it_has_bytes(family):
    for case in GROWING[family]:
        steps, size = steps_of(case, is_decided), len(solving.text_of(case))
        print(f"{family}: {steps} steps of {size} bytes")
        assert steps < size


def is_satisfiable(case, room):
    """What minisat says of an instance: whether a selection fits."""
    path = os.path.join(room, "clauses")
    with open(path, "w", encoding="utf-8") as file:
        file.write(cnf_of(case))
    status = subprocess.run(["minisat", "-verb=0", path], capture_output=True).returncode
    assert status in (10, 20)
    return status == 10


def cnf_of(case):
    variables, clauses = families.clauses(case)
    return f"p cnf {variables} {len(clauses)}\n" + "".join(" ".join(map(str, clause)) + " 0\n" for clause in clauses)


def test_is_satisfiable_as_minisat_says(tmp_path, record_property):
    cases = [families.mixed(12 + seed % 9, 8, 2 + seed % 2, 3, seed + made.SEED) for seed in range(300 * made.TIMES)]
    lines = solving.said_of_all(program(), cases)
    found = [line.startswith("selected") for line in lines]
    assert "undecided" not in " ".join(lines) and found == [is_satisfiable(case, tmp_path) for case in cases]
    assert len(found) // 10 <= sum(found) <= len(found) * 9 // 10
    record_property("made", len(found))


def instructions_of(words, given, room):
    """How many instructions a program takes."""
    said = os.path.join(room, "counted")
    ran = subprocess.run(["valgrind", "--tool=cachegrind", "--cache-sim=no", "--cachegrind-out-file=/dev/null", f"--log-file={said}", *words],
                         input=given, capture_output=True, encoding="utf-8")
    assert ran.returncode in (0, 10, 20), ran.stderr
    with open(said, encoding="utf-8") as file:
        return next(int(line.split()[-1].replace(",", "")) for line in file if "I   refs:" in line)


def beside_minisat(case, steps, room):
    """The instructions of the program and of minisat: both read the instance and solve it. Of each is taken off what an instance of one name
    takes."""
    path = os.path.join(room, "clauses")

    def both(case):
        with open(path, "w", encoding="utf-8") as file:
            file.write(cnf_of(case))
        own = instructions_of([program()], solving.line_of([*case, steps]), room)
        return own, instructions_of(["minisat", "-verb=0", path], "", room)

    own, other = (count - least for count, least in zip(both(case), both(families.chain(1, 1))))
    print(f"{own} instructions, minisat {other}")
    return own, other


def test_hard_instances_take_no_more_instructions_than_minisat(tmp_path):
    for case in [families.mixed(40, 20, 3, 8, seed) for seed in (1, 2, 3)]:
        own, other = beside_minisat(case, MOST, tmp_path)
        assert own <= other


# A search that does not see what names allow each other would not end.
@pytest.mark.parametrize("names, seed", [(160, 1), (320, 2), (640, 3)])
def test_a_wrong_wish_among_many_takes_no_more_instructions_than_minisat(names, seed, tmp_path):
    case = families.neighbours(names, seed)
    assert said_of(case, [MOST, MOST, 0])[0].startswith("none ")
    own, other = beside_minisat(case, [MOST, 0, 0], tmp_path)
    assert own <= other


class Provider:
    """An instance as resolvelib asks for it, which knows no demand that only limits."""

    def __init__(self, case):
        _, self.packages, self.rows = case

    def identify(self, requirement_or_candidate):
        return requirement_or_candidate[0]

    def get_preference(self, **_):
        return 0

    def find_matches(self, identifier, requirements, incompatibilities):
        bad = {candidate[1] for candidate in incompatibilities[identifier]}
        wanted = [self.rows[requirement[1]] for requirement in requirements[identifier]]
        return [(identifier, i) for i, _ in enumerate(self.packages[identifier]) if i not in bad and all(row[i] for row in wanted)]

    def is_satisfied_by(self, requirement, candidate):
        return self.rows[requirement[1]][candidate[1]] == 1

    def get_dependencies(self, candidate):
        return [(name, range_) for name, range_, _ in self.packages[candidate[0]][candidate[1]]]


def test_resolvelib_gives_up_on_a_conflict_that_takes_a_few_hundred_steps():
    case = families.late(16, 40)
    assert steps_of(case, is_decided) < 1000
    with pytest.raises(resolvelib.ResolutionTooDeep):
        resolvelib.Resolver(Provider(case), resolvelib.BaseReporter()).resolve([demand[:2] for demand in map(tuple, case[0])], max_rounds=3000)
