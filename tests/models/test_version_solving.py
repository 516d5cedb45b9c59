"""version_solving beside its definitions on small instances, and on long instances."""
# Nothing is proved of the search: it says what its answer rests on, and this is checked, step by step. So the search may change freely; a
# check that failed would make the answer `undecided`, which none is here where steps are left. It costs a second reading of all demands.
import pytest

import families
import reasons
import solving
from support import programs


def test_is_the_answer_of_the_definition(record_property):
    program = programs.built("solver_answers")
    record_property("made", solving.compare(program, solving.instance, solving.fault_with_reasons, 5000, 1))


def chain(names):
    """Each name needs the next one."""
    return [[[0, 0, True]], [[[[name + 1, 0, True]] if name + 1 < names else []] for name in range(names)], [[1]]]


def late(names, candidates):
    """Free names, and then two that need different candidates of a third."""
    free = [[[] for _ in range(candidates)] for _ in range(names)]
    two = [[[[names + 2, allowed, True]] for _ in range(candidates)] for allowed in (0, 1)]
    root = [[name, 2, True] for name in range(names + 2)]
    return [root, [*free, *two, [[], []]], [[1, 0], [0, 1], [1] * candidates]]


def lines_of(case):
    return solving.said_of(programs.built("solver_answers"), case)


# A search that reads all demands in each step would not end.
def test_a_chain_of_100000_names_is_solved():
    assert lines_of(chain(100000)) == ("selected" + "".join(f" {name}=0" for name in range(100000)), [])


# A search that learns nothing would not end. The two need different candidates of a third, whatever their 40 are: seven lines.
def test_a_conflict_after_16_free_names_with_40_candidates_each_has_seven_reasons():
    case = late(16, 40)
    said, lines = lines_of(case)
    assert (said, len(lines), reasons.fault_of(case, case[0][16:], lines)) == ("none 16:2 17:2", 7, None)


def test_right_reasons_have_no_fault():
    assert reasons.fault_of(reasons.PLUGIN, reasons.PLUGIN[0], reasons.LINES.split(" | ")) is None


@pytest.mark.parametrize("old, new", reasons.MADE_UP)
def test_wrong_reasons_are_found(old, new):
    changed = reasons.LINES.replace(old, new)
    assert changed != reasons.LINES and reasons.fault_of(reasons.PLUGIN, reasons.PLUGIN[0], changed.split(" | ")) is not None


def is_proof(root, lines, case=reasons.PLUGIN):
    """What the program says of lines."""
    return lines_of([root, *case[1:], None, reasons.given(lines)])[0]


def changed(old, new):
    assert old in reasons.LINES
    return reasons.LINES.replace(old, new).split(" | ")


@pytest.mark.parametrize("old, new", [("", ""), *reasons.ALSO_RIGHT])
def test_right_reasons_are_a_proof(old, new):
    assert is_proof(reasons.PLUGIN[0], changed(old, new) if old else reasons.LINES.split(" | ")) == "reasons"


@pytest.mark.parametrize("old, new", [*reasons.MADE_UP, *reasons.ALSO_WRONG])
def test_wrong_reasons_are_no_proof(old, new):
    assert is_proof(reasons.PLUGIN[0], changed(old, new)) == "no reasons"


def test_reasons_are_those_of_all_demands_of_the_root():
    root, lines = reasons.PLUGIN[0], reasons.LINES.split(" | ")
    assert [is_proof(part, lines) for part in (root[:1], root[1:], [])] == ["no reasons"] * 3
    assert is_proof(root, lines[:-1]) == is_proof(root, []) == "no reasons"


# Name 0 has 40 candidates that need the first of the two of name 1, and name 2 needs a name without a package.
FORTY = [[[[1, 0, True]]] * 40, [[], []], [[[9, 0, True]]] * 3]
RANGES = [[1, 0], [0, 1, 1]]


# Demands that no selection fits, and how many lines are theirs, of candidates, and of others.
@pytest.mark.parametrize("root, wanted", [
    ([[0, 1, True], [1, 1, True]], (2, 1, 2)),
    ([[1, 1, True], [0, 1, True]], (2, 1, 2)),
    ([[2, 1, True]], (1, 1, 2)),
    ([[9, 1, True]], (1, 0, 1)),
])
def test_there_are_no_more_lines_than_are_needed(root, wanted):
    case = [root, FORTY, RANGES]
    _, lines = lines_of(case)
    counts = [sum(line.startswith("root") for line in lines), sum(" makes " in line for line in lines), sum(" by " in line for line in lines)]
    assert tuple(counts) == wanted and is_proof(root, lines, case) == "reasons"
    assert lines_of([*case, [1000, 1000, 0]])[1] == ["undecided"]


def test_more_than_a_thousand_lines_are_found():
    """Each of 600 names needs the next one, and there is none after the last: a line for each need, one for each name that cannot be met,
    and the root's."""
    case = [[[0, 0, True]], [[[[name + 1, 0, True]]] for name in range(600)], [[1]]]
    _, lines = lines_of(case)
    assert (len(lines), is_proof(case[0], lines, case)) == (1202, "reasons")
    assert is_proof(case[0], lines[:-1], case) == "no reasons"


def test_versions_that_ask_for_ranges_of_their_own_have_a_line_each():
    """Each of 25 candidates needs another one of the first 25 of name 1, and the root wants the last 25: the root's two lines, one for each
    candidate, one for name 0 and one for name 1."""
    own = [[int(place == one) for place in range(50)] for one in range(25)]
    case = [[[0, 0, True], [1, 1, True]], [[[[1, 2 + one, True]] for one in range(25)], [[]] * 50], [[1] * 25, [0] * 25 + [1] * 25, *own]]
    said, lines = lines_of(case)
    assert (said, len(lines), reasons.fault_of(case, case[0], lines)) == ("none 0:0 1:1", 29, None)


# Among names that follow one another the root wants an old version, and there are no more lines than these.
@pytest.mark.parametrize("names, seed, most", [(40, 1, 53), (80, 1, 78)])
def test_few_lines_say_why_a_wish_among_many_is_wrong(names, seed, most):
    case = families.neighbours(names, seed)
    said, lines = lines_of(case)
    assert len(lines) <= most and reasons.fault_of(case, solving.culprits_of(case, said.split(" ")[1:]), lines) is None


# Two candidates of each name need the candidate of the next one that has their number.
def doubled(names, range_):
    needs = [[[[name + 1, allowed, True]] if name + 1 < names else [] for allowed in (0, 1)] for name in range(names)]
    return [[[0, 2, True], [names - 1, range_, True]], needs, [[1, 0], [0, 1], [1, 1]]]


@pytest.mark.parametrize("range_, steps, wanted", [
    (1, 1000, "selected" + "".join(f" {name}=1" for name in (0, 59, *range(1, 59)))),
    (3, 1000, "none 59:3"),
    (1, 0, "undecided"),
    (1, 100, "undecided"),
])
def test_a_chain_is_followed_from_its_end(range_, steps, wanted):
    assert lines_of([*doubled(60, range_), steps])[0] == wanted


def test_a_root_without_demands_selects_nothing():
    assert lines_of([[], FORTY, RANGES, 0])[0] == "selected"


# Names 0 and 1 are plugins that need the first of the two candidates of name 2. Range 0 allows all, and range 1 the second alone.
PLUGINS = [[[[2, 2, True]]], [[[2, 2, True]]], [[], []]]


# Demands of the root that no selection fits, and the culprits among them.
@pytest.mark.parametrize("root, blamed", [
    ([[2, 0, True], [1, 0, True], [2, 1, False]], "none 1:0 2:1"),
    ([[2, 1, False], [2, 0, True], [1, 0, True]], "none 2:1 1:0"),
    ([[1, 0, True], [9, 0, True], [2, 1, False]], "none 9:0"),
])
def test_demands_that_cannot_be_met_together_are_blamed(root, blamed):
    case = [root, PLUGINS, [[1, 1], [0, 1], [1, 0]]]
    assert lines_of(case)[0] == blamed
    assert lines_of([*case, [100, 0, 100]])[0] == "undecided"
    assert lines_of([[[2, 0, True], [0, 0, True]], *case[1:], 100])[0].startswith("selected")
