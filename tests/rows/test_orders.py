"""Lists of which each two are compared, both ways and each with itself: what is wanted follows from the places in the list."""
import pytest

from support import answers

# SemVer 2.0.0, section 11.4.
VERSIONS = ["1.0.0-alpha", "1.0.0-alpha.1", "1.0.0-alpha.beta", "1.0.0-beta", "1.0.0-beta.2", "1.0.0-beta.11", "1.0.0-rc.1", "1.0.0"]

# npm's `semver` 7.6.2, `compareBuild`, orders these texts so.
BUILDS = ["1.0.0-rc+9", "1.0.0-rc.1", "1.0.0-rc.1+1", "1.0.0-rc.1+a", "1.0.0", "1.0.0+0", "1.0.0+2", "1.0.0+2.a", "1.0.0+2.a.1", "1.0.0+11",
          "1.0.0+-", "1.0.0+Beta", "1.0.0+alpha", "1.0.0+alpha.1", "1.0.1"]

# Numbers by size, and then texts by bytes.
IDENTIFIERS = ["=0", "=2", "=11", "=18446744073709551615", "", "11", "2", "Beta", "alpha", "\u00e9"]

ASCENDING = [("Version::cmp", VERSIONS), ("npm_semver::compare_build", BUILDS), ("Identifier::cmp", IDENTIFIERS)]


def wrong(call, items, wanted):
    """The pairs for which a call does not return what is wanted of their two places, and how many pairs there are."""
    pairs = [(i, j) for i in range(len(items)) for j in range(len(items))]
    words = [item if isinstance(item, tuple) else (item,) for item in items]
    found = answers.ask_all("semver_answers", [[call, *words[i], *words[j]] for i, j in pairs])
    return [(items[i], items[j], got) for (i, j), got in zip(pairs, found, strict=True) if got != wanted(i, j)], len(pairs)


@pytest.mark.parametrize("call, items", ASCENDING, ids=[call for call, _ in ASCENDING])
def test_each_is_below_all_that_follow(call, items, record_property):
    faults, count = wrong(call, items, lambda i, j: "less" if i < j else "equal" if i == j else "greater")
    record_property("made", count)
    assert faults == []


# No two kinds are equal, except the first and the last: the error of too many digits does not hold them.
KINDS = ["ParseIntError 18446744073709551616", "ParseIntError ", "MaxIntError 7", "MaxIntError 8", "Context version", "Context range", "Other",
         "NoValidRanges", "OutOfMemory", "ParseIntError 99999999999999999999"]


def test_equal_kinds_hold_equal_values(record_property):
    last = len(KINDS) - 1
    faults, count = wrong("SemverErrorKind::eq", KINDS, lambda i, j: str(i % last == j % last).lower())
    record_property("made", count)
    assert faults == []


# Each error differs from the others in its text, its place or its kind.
ERRORS = [("version", "18446744073709551616.0.0"), ("version", "18446744073709551616.0.1"), ("version", "1.2"), ("version", "3.4"), ("version", "1."),
          ("version", "foo"), ("range", "foo"), ("range", "bar"), ("version", "1.2.9007199254740992"), ("version", "1.2.9007199254740993")]


def test_equal_errors_have_one_text_one_place_and_one_kind(record_property):
    faults, count = wrong("SemverError::eq", ERRORS, lambda i, j: str(i == j).lower())
    record_property("made", count)
    assert faults == []
