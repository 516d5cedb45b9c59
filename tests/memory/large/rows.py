"""Rows of calls of semver_answers that large.tsv cannot write: the name of a call, its words, and its whole result."""

MANY = 2500  # So many of whatever a call counts.
LONG = 1000000  # The bytes of a long text.
DEEP = 250  # The depth of a tree, which the stack bounds.


def alternatives(form, numbers=range(1, MANY + 1)):
    """A text with an alternative for each number: `%` is the number, and `&` the next one."""
    return "||".join(form.replace("%", str(number)).replace("&", str(number + 1)) for number in numbers)


def join_rows():
    """Spans in descending order, apart and touching."""
    spans = [end for number in range(MANY, 0, -1) for end in (3 * number, 3 * number + 1)]
    apart = "; ".join(f"before {3 * number} to after {3 * number + 1}" for number in range(1, MANY + 1))
    yield "semver_cuts::join", list(map(str, spans)), apart
    over = [end for number in range(MANY, 0, -1) for end in (number, number + 1)]
    yield "semver_cuts::join", list(map(str, over)), f"before 1 to after {MANY + 1}"


def both(texts):
    """The words of a tree of intersections, as flat as it can be."""
    half = len(texts) // 2
    return texts if half == 0 else [*both(texts[:half]), *both(texts[half:]), "Both"]


def tree_rows():
    one, steps, pieces = alternatives(">=%.0.0 <%.5.0"), [">=1.0.0"], [">=1.0.0 <2.0.0"]
    for number in range(2, DEEP + 2):
        steps += [f"{number}.0.0", "Without"]
        pieces.append(f">{number}.0.0 <{number + 1}.0.0")
    pieces[-1] = f">{DEEP + 1}.0.0"
    yield "SetTree::evaluate", steps, "||".join(pieces)
    yield "SetTree::evaluate", [one, *[word for _ in range(DEEP) for word in (">=1.0.0", "Both")]], one
    yield "SetTree::evaluate", both([f">={number}.0.0" for number in range(MANY)]), f">={MANY - 1}.0.0"


def least_rows():
    """Least versions of two ranges that share the last of many, and one above many prereleases."""
    for kind in ("Range", "WithPrereleases"):
        yield f"{kind}::least_common", [alternatives("%.0.0"), alternatives("%.0.0", range(MANY, 2 * MANY))], f"{MANY}.0.0"
    below = "||".join("1.0.0-0" + ".0" * count for count in range(300))
    yield "WithPrereleases::least_beyond", [">=1.0.0-0", below], "1.0.0-0" + ".0" * 300


def number(value):
    """The key of a number: one byte below 240, and else its length and its bytes, the highest first."""
    written = value.to_bytes((value.bit_length() + 7) // 8, "big")
    return [value] if value < 240 else [240 + len(written), *written]


def key(*numbers, end=(255,)):
    """The key of a version without a prerelease, or with this end."""
    return [byte for value in numbers for byte in number(value)] + list(end)


A = (2, 97, 0, 0)  # The end of a key with the prerelease `a`.


def interval(kind, lower, upper):
    return f"{kind} {' '.join(map(str, lower))} to {' '.join(map(str, upper))}"


def key_rows():
    """The intervals of many sets that do not touch, in both orders."""
    numbers = range(1, MANY + 1)
    releases = "; ".join(interval("releases", key(at, 0, 0, end=A), key(at, 9, 0)) for at in numbers)
    prereleases = "; ".join(interval("prereleases", key(at, 0, 0, end=A), key(at, 0, 0)) for at in numbers)
    both_kinds = "; ".join(interval("prereleases", key(at, 0, 0, end=A), key(at, 9, 0)) for at in numbers)
    for order in (numbers, reversed(numbers)):
        text = alternatives(">=%.0.0-a+b <%.9.0", order)
        yield "semver_keys::range_intervals", [text], f"{releases}; {prereleases}"
        yield "semver_keys::range_intervals_with_prereleases", [text], both_kinds


def rows():
    yield from join_rows()
    yield from tree_rows()
    yield from least_rows()
    yield from key_rows()


def export_rows(builds):
    """Rows that only an export for C has: the builds of versions, keys as bytes, and intervals."""
    for text, print_of in builds:
        yield "build_print", [text], print_of.partition("+")[2].replace(".", " ") or "nothing"
    yield "key", ["1.2.3-" + "a" * 250], "01020302" + "61" * 250 + "0000"
    yield "key", ["1.2.3-" + ".".join("a" * 125)], "010203" + "026100" * 125 + "00"
    keys = [bytes(key(2 * place, 0, 0)).hex() for place in range(MANY)]
    text = "||".join(f"{2 * place}.0.0" for place in range(MANY))
    yield "intervals", [text], ", ".join(f"{it}-{it}00" for it in keys)
    yield "intervals, with prereleases", [text], ", ".join(f"{it}-{it}00 p" for it in keys)
    long = "01020302" + "61" * 250 + "0000"
    yield "intervals", [">=1.2.3-" + "a" * 250], f"{long}-ff, {long}-010203ff p"
