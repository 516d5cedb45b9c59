"""Whether lines are reasons why demands of a root cannot be met together, by sets of what may be selected of a name.

solving.py reads the lines that solver_answers writes, and checks them here. The terms of a line are taken together: for
each name, what all terms of the name have. What may be selected of a name is one of its candidates, or None. MADE_UP has changes
that make LINES wrong.
"""

# The root needs a plugin, name 0, and the second candidate of name 1. The plugin needs the first one.
PLUGIN = [[[0, 0, True], [1, 2, True]], [[[[1, 1, True]]], [[], []]], [[1, 1], [1, 0], [0, 1]]]
LINES = "root 1:2! : -1:2! | 0 makes 1:1! : 0>1:1! -1:1! | 1 by 0 1 : 0>1:1! | root 0:0! : -0:0! | 0 by 2 3 :"
MADE_UP = [
    ("1 by 0 1", "1 by 0"),
    ("1 by 0 1", "1 by 1"),
    ("1 by 0 1", "1 by 0 1 2"),
    ("1 by 0 1", "1 by"),
    ("0 by 2 3", "0 by 2"),
    ("0 by 2 3", "0 by 3"),
    ("0 by 2 3", "1 by 2 3"),
    ("1 by 0 1 : 0>1:1!", "1 by 0 1 :"),
    ("1 by 0 1 : 0>1:1!", "1 by 0 1 : 0>1:0"),
    ("0 by 2 3 :", "0 by 2 3 : -0:0!"),
    ("0 makes 1:1! : 0>1:1! -1:1!", "0 makes 1:1! : -1:1!"),
    ("0 makes 1:1! : 0>1:1! -1:1!", "0 makes 1:2! : 0>1:2! -1:2!"),
    ("root 1:2! : -1:2!", "root 1:1! : -1:1!"),
    ("root 1:2! : -1:2!", "root 1:2! : -1:1!"),
    (" | 0 by 2 3 :", ""),
    ("root 1:2!", "0 makes 1:1! : 0>1:1! -1:1! | root 1:2!"),
]
# Changes that leave them reasons.
ALSO_RIGHT = [("1 by 0 1", "1 by 1 0"), ("0 by 2 3", "0 by 3 2 2")]
# Lines that this checker finds right or does not read, and that are no reasons: a term is another one, or a line is not above.
ALSO_WRONG = [
    ("1 by 0 1", "1 by 0 1 9"),
    ("0 by 2 3", "0 by 2 3 4"),
    ("0 makes 1:1! : 0>1:1! -1:1!", "0 makes 1:*! : 0>1:*! -1:*!"),
    ("0 makes 1:1! : 0>1:1! -1:1!", "0 makes 1:1 : 0>1:1 -1:1"),
]


def given(shown):
    """Lines as solver_answers reads them."""
    return [given_line(text) for text in shown]


def given_line(text):
    source, _, terms = text.partition(" :")
    first, *rest = source.split(" ")
    if first == "root":
        read = ["root", wish_of(rest[0])]
    elif rest[0] == "makes":
        read = ["makes", int(first), wish_of(rest[1])]
    else:
        read = ["by", int(first), [int(line) for line in rest[1:]]]
    return [read, [given_term(term) for term in terms.split()]]


def given_term(term):
    if term.startswith("-"):
        return [None, wish_of(term[1:])]
    name, wish = term.split(">")
    return [int(name), wish_of(wish)]


def wish_of(text):
    """`name:range`, with `*` for any range and `!` after it if the wish needs the name."""
    needed = text.endswith("!")
    name, range_ = text.rstrip("!").split(":")
    return int(name), None if range_ == "*" else int(range_), needed


def allows(ranges, range_, candidate):
    return range_ < len(ranges) and candidate < len(ranges[range_]) and ranges[range_][candidate] == 1


def candidates_of(packages, name):
    return range(len(packages[name])) if name < len(packages) else range(0)


def against(case, wish):
    """What is against a wish, of all that may be selected of its name."""
    _, packages, ranges = case
    name, range_, needed = wish
    values = {candidate for candidate in candidates_of(packages, name)
              if range_ is not None and not allows(ranges, range_, candidate)}
    return values | {None} if needed else values


def making(case, name, wish):
    """The candidates of a name that make a wish."""
    other, range_, needed = wish
    return {candidate for candidate in candidates_of(case[1], name)
            if any(demand[0] == other and range_ in (None, demand[1]) and demand[2] >= needed
                   for demand in case[1][name][candidate])}


def sets_of(case, terms):
    """For each name of the terms what all of them have."""
    sets = {}
    for term in terms:
        if term.startswith("-"):
            wish = wish_of(term[1:])
            name, values = wish[0], against(case, wish)
        else:
            name, wish = term.split(">")
            name, values = int(name), making(case, int(name), wish_of(wish))
        sets[name] = sets.get(name, values) & values
    return sets


def fault_of_line(case, culprits, above, source, terms):
    """What is wrong with a line, or None. `above` has the sets of each line above it."""
    first, *rest = source.split(" ")
    if first == "root":
        wish = wish_of(rest[0])
        return None if list(wish) in culprits and terms == ["-" + rest[0]] else "the root has no such demand"
    name = int(first)
    if rest[0] == "makes":
        return None if terms == [f"{first}>{rest[1]}", "-" + rest[1]] else "other terms than those of the wish"
    lines = [int(line) for line in rest[1:]]
    if not lines or max(lines) >= len(above):
        return "it follows from no lines above it"
    said = sets_of(case, terms)
    for line in lines:
        for other, values in above[line].items():
            if other != name and not (other in said and said[other] <= values):
                return f"line {line} says less of name {other}"
    everything = {None, *candidates_of(case[1], name)}
    if not any(name in above[line] for line in lines) and not any(above[line] == {} for line in lines):
        return f"no line is of name {name}"
    for line in lines:
        everything -= above[line].get(name, everything)
    return f"{everything} of name {name} is not ruled out" if everything else None


def fault_of(case, culprits, shown):
    """What is wrong with lines, or None."""
    above, used = [], set()
    for number, text in enumerate(shown):
        source, _, terms = text.partition(" :")
        terms = terms.split()
        said = fault_of_line(case, culprits, above, source, terms)
        if said:
            return f"line {number}: {said}"
        above.append(sets_of(case, terms))
        if " by " in source:
            used |= {int(line) for line in source.split(" ")[2:]}
    if not above or above[-1] != {}:
        return "the last line does not say that nothing fits"
    missing = set(range(len(shown) - 1)) - used
    if missing:
        return f"line {min(missing)} is not needed"
    if sum(text.startswith("root ") for text in shown) != len(culprits):
        return "a culprit is in no line"
    return None
