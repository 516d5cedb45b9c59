"""The rows of npm_ranges.tsv in other forms: what a strict text means is the same in loose form, and a print is read back."""
import os

import pytest

from support import answers, call_rows

ROWS = call_rows.read(os.path.join(os.path.dirname(os.path.abspath(__file__)), "npm_ranges.tsv"))
# Options, and others with which npm's semver 7.6.2 returns the same for the rows of the first.
ADMITTING = {"strict": "loose", "prereleases": "loose prereleases"}
REFUSING = {"strict": "prereleases", "loose": "loose prereleases"}


def of_call(call):
    """The rows of a call: a text, its options, and the answers that are wanted."""
    return [(*row.arguments, row.wanted) for row in ROWS if row.call == call]


def names(rows):
    return [f"{row[1]} {row[0]}" for row in rows]


ASKED = [row for row in of_call("npm_semver::parse_range, satisfies") if row[1] in ADMITTING]


@pytest.mark.parametrize("text, options, wanted", ASKED, ids=names(ASKED))
def test_is_read_alike_in_loose_form(text, options, wanted):
    call = "npm_semver::parse_range, satisfies"
    assert [(version, answers.ask("semver_answers", call, text, ADMITTING[options], *version)) for version, _ in wanted] == wanted


REFUSED = of_call("npm_semver::parse_range")


@pytest.mark.parametrize("text, options, wanted", REFUSED, ids=names(REFUSED))
def test_is_refused_alike_with_prereleases(text, options, wanted):
    ((_, answer),) = wanted
    assert answers.ask("semver_answers", "npm_semver::parse_range", text, REFUSING[options]) == answer


def prints(text, options):
    """The print of a text's range, and that of the range that this print is read as, in strict form."""
    return [answers.ask("semver_answers", f"npm_semver::parse_range{what}", text, options) for what in ("", ", read back")]


ALL = of_call("npm_semver::parse_range, satisfies")
# The texts in strict form are read with prereleases too.
READ_BACK = [(text, options) for text, options, _ in ALL] + [(text, "prereleases") for text, options, _ in ALL if options == "strict"]


@pytest.mark.parametrize("text, options", sorted(set(READ_BACK)), ids=names(sorted(set(READ_BACK))))
def test_a_print_is_read_back(text, options):
    one, other = prints(text, options)
    assert one == other


# An end that is one above the limit, a prerelease that has no hyphen in the text, and digits with a leading zero that are too large for
# a number.
NOT_READ_BACK = ["^9007199254740991", "1.2.3" + 251 * "a", "1.2.3-0100000000000000000000"]


@pytest.mark.parametrize("text", NOT_READ_BACK, ids=[text[:30] for text in NOT_READ_BACK])
def test_other_prints_are_not_read_back(text):
    one, other = prints(text, "loose")
    assert one.startswith((">=", "1.2.3-")) and one != other
