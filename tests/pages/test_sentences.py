"""Sentences of the pages that say what a text is read as, or what a call returns: each is read from its page, and run."""
import re
import subprocess

import pytest

import calls
import pages
from support import programs

GRAMMAR, USE, DIFFERENCES, README = "docs/GRAMMAR.md", "crates/node_semver/README.md", "docs/DIFFERENCES.md", "README.md"
SQL, PYTHON = "bindings/sql/README.md", "bindings/python/README.md"


def is_version(text, version):
    return calls.call("Version::parse", text) == version


def is_range(*texts):
    """Whether all texts are read as the last one is."""
    prints = {calls.range_of(text) for text in texts}
    return len(prints) == 1 and None not in prints


def prints(text, print_of_it):
    return calls.range_of(text) == print_of_it


def prints_each(*texts):
    """Texts and prints in turn."""
    return all([prints(*pair) for pair in zip(texts[::2], texts[1::2], strict=True)])


def is_npm_range(*texts):
    prints_of_them = {calls.npm_range_of(text) for text in texts}
    return len(prints_of_them) == 1 and None not in prints_of_them


def is_loose_range(*texts):
    prints_of_them = {calls.npm_range_of(text, "loose") for text in texts}
    return len(prints_of_them) == 1 and None not in prints_of_them


def is_refused(text):
    return calls.range_of(text) is None


def admits_all(text, *versions):
    return all(calls.admitted(text, *versions))


def admits_but_the_last(text, *versions):
    return calls.admitted(text, *versions) == [True] * len(versions[:-1]) + [False]


def admits_none_above(text, *, above=("1.0.0-a", "1.0.0-a.0", "1.0.0", "0.9.9")):
    return calls.range_of(text) is not None and not any(calls.admitted(text, *above))


def is_common(version, one, other):
    return calls.call("Range::least_common", one, other) == version


def is_least(version, text):
    return calls.call("Range::min_version", text) == version


def is_next(version, of):
    return calls.call("npm_semver::inc", of, "prerelease", "beta", "0") == version


def adds_none(one, other):
    return {calls.call("Range::least_beyond", one, other), calls.call("Range::least_beyond", other, one)} == {"nothing"}


def covers_but_does_not_admit(one, other, version):
    """Nothing of the other is left where the one is taken away, although the one does not admit the version."""
    return [calls.call("Range::difference", other, one), calls.is_admitted(one, version)] == ["nothing", False]


def intersection_admits(one, other, version, end, triple, refusing):
    """The sentence names an end, its triple, and which range refuses the version."""
    both, is_refused = calls.call("Range::intersect", one, other), not calls.is_admitted(refusing, version)
    return is_refused and calls.is_admitted(both, version) and both.startswith(f">={end} ") and end.startswith(f"{triple}-")


def is_divided(text, first, second):
    """The second alternative, a bar and a number, is a word of no kind."""
    return calls.range_of(text) == calls.range_of(first) and calls.range_of(second) is None


def has_two_sets(text):
    return len(calls.range_of(text).split("||")) == 2


def are_readable(*texts):
    """Two texts with blanks where they are allowed; before a `v`, or at the end, they are not."""
    wrong = {calls.result("Version::parse", text) for text in (" v1.2.3", "1.2.3 ")}
    return {calls.call("Version::parse", text) for text in texts} == {"1.2.3"} and wrong == {None}


def is_the_range_of_nothing(print_of_it):
    return {calls.npm_range_of(text) for text in (">4 <3", ">4 <3 || 2 - 1")} == {print_of_it}


def has_prerelease(text, identifier):
    return calls.call("Identifiers::to_vec", text) == identifier


def is_one(number):
    """A number with leading zeros, as each of the three and as an identifier."""
    texts = (f"{number}.1.1-1", f"1.{number}.1-1", f"1.1.{number}-1", f"1.1.1-{number}")
    return {calls.call("Version::parse", text) for text in texts} == {"1.1.1-1"}


def has_the_patch(text, *, patch="34"):
    read, following = calls.call("Version::parse", text), calls.call("npm_semver::inc", text, "patch", "", "0")
    return read == text and following.endswith(f".{int(patch) + 1}")


def has_the_prerelease_of_a_partial(text, *, prerelease="3"):
    return calls.range_of(f">={text}") == f">={text.split('x')[0]}0-{prerelease}"


def has_the_bytes(version, *, key="1 2 3 255"):
    """The sentence ends with the bytes of the key."""
    return calls.call("semver_keys::version_key", version) == key


def is_key_of(key, version):
    """The key is written in hexadecimal digits."""
    return calls.call("semver_keys::version_key", version) == " ".join(str(int(byte, 16)) for byte in key.split())


def is_found_in(version, text):
    return calls.call("npm_semver::coerce", text, "ltr") == version


def is_no_strict_version(text):
    return calls.result("npm_semver::parse_version", text) is None


def is_not_in(version, text):
    return not calls.is_admitted(text, version) and calls.range_of("") is None


def is_so_in_python(expression, answer):
    """The expression is one of the package for Python, which reads a range by `Range::parse`."""
    version, text = re.fullmatch(r'"(.+)" in Range\("(.+)"\)', expression).groups()
    return str(calls.is_admitted(text, version)) == answer


def is_so_in_node(expression, answer):
    """The expression is one of the package for Node, which reads a range as the program semver does."""
    version, text = re.search(r"satisfies\('(.+)', '(.+)'\)", expression).groups()
    ran = subprocess.run([programs.built("semver"), "--range", text, version], stdin=subprocess.DEVNULL, stdout=subprocess.DEVNULL)
    return {0: "true", 1: "false"}[ran.returncode] == answer


# The page, a sentence with `{}` for each text between backquotes, and what has to hold of the texts.
SENTENCES = [
    (GRAMMAR, "It may be left out: {} is {}", is_version),
    (GRAMMAR, "One `-` begins a prerelease: {} has the prerelease {}", has_prerelease),
    (GRAMMAR, "Leading zeros are allowed: {} is 1", is_one),
    (GRAMMAR, "that fit 64 bits is a number ({} is 1), any other a text", is_one),
    (GRAMMAR, "Numbers and identifiers are as long as they can be: {} has the patch 34", has_the_patch),
    (GRAMMAR, "may begin with a digit: {} has the prerelease 3", has_the_prerelease_of_a_partial),
    (GRAMMAR, "Blanks are allowed before the first number ({}, {}), but not before a `v` or at the end", are_readable),
    (GRAMMAR, "{} admits {} and {}, but not {}", admits_but_the_last),
    (GRAMMAR, "{} admits {}, but not {}", admits_but_the_last),
    (GRAMMAR, "is still a comparator: {} is refused", is_refused),
    (GRAMMAR, "So {} is {}, and `= *` is ignored", prints),
    (GRAMMAR, "So {} is {}. ## Caret Ranges", prints),
    (GRAMMAR, "So {} is {}, {} is {}, and {} is {}. ## Hyphen Ranges", prints_each),
    (GRAMMAR, "So {} is {}, and {} is {}. A hyphen range without a cut", prints_each),
    (GRAMMAR, "It is divided at each `||`, from the left: {} is {} and {}", is_divided),
    (GRAMMAR, "in the order of the alternatives: {} has two", has_two_sets),
    (GRAMMAR, "If all pieces admit nothing, the range is {}", is_the_range_of_nothing),
    (GRAMMAR, "so a hyphen range in it needs a left side: {} is {}", is_range),
    (GRAMMAR, "{} gives a set, though no version lies there", admits_none_above),
    (GRAMMAR, "the first upper end win: {} is {}", prints),
    (GRAMMAR, "It prints as these with `||` between: {} as {}", prints),
    (GRAMMAR, "since what stands before that is ignored: {} is {}", is_loose_range),
    (GRAMMAR, "So {} and {} are {}", is_npm_range),
    (GRAMMAR, "and {} is {}. `> ^1` and `== 1` are two words", is_npm_range),
    (GRAMMAR, "has no meaning: {} is {}", is_npm_range),
    (GRAMMAR, "and {} is {}. A build has none either", is_npm_range),
    (USE, "`a.least_common(alloc, &b)`: {} for {} and {}", is_common),
    (USE, "`range.min_version(alloc)`: {} for {}", is_least),
    (USE, "IdentifierBase::Zero)`: {} for {}", is_next),
    (USE, "both of these return `None`: for {} and {}", adds_none),
    (USE, "by their cuts, so {} covers {}, but does not admit {}", covers_but_does_not_admit),
    (USE, "The intersection of {} and {} admits {}, since its end {} is a prerelease of {}; but {} refuses it", intersection_admits),
    (DIFFERENCES, "the empty text is refused, and {} is {}", prints),
    (USE, "{} has the bytes 1, 2, 3 and 255", has_the_bytes),
    (README, "ignores unknown words: {} means {}", is_range),
    (SQL, "is the key, without the build: {} for {}", is_key_of),
    (SQL, "is what npm's `coerce` finds, {} in {}", is_found_in),
    (SQL, "are read by SemVer 2.0.0's grammar**: {} is none", is_no_strict_version),
    (PYTHON, "the empty text is no range, and {} is not in {}", is_not_in),
    (README, "[Python](bindings/python/README.md) | {} is {}", is_so_in_python),
    (README, "[Node](bindings/node/README.md) | {} is {}", is_so_in_node),
]


@pytest.mark.parametrize("page, sentence, holds", SENTENCES, ids=[f"{page}: {sentence}" for page, sentence, _ in SENTENCES])
def test_what_a_page_says(page, sentence, holds):
    texts = pages.said(page, sentence)
    assert holds(*(text.replace("\\|", "|") for text in texts)), f"{page} says of {texts}: {sentence}"


@pytest.mark.parametrize("text, offset", pages.offsets(GRAMMAR, "**Strict form**, `npm_semver::parse_version`"))
def test_offsets_of_versions_that_are_not_strict(text, offset):
    assert calls.call("npm_semver::parse_version", text) == f"Other at {offset} (0, {offset})"


def of_picture():
    """The range above the picture of prereleases, and each version below it with its answer."""
    text, picture = pages.section(pages.page(GRAMMAR), "## Prerelease Tags").split("```text\n")
    versions, answers = (line.split() for line in picture.splitlines()[2:4])
    return [(pages.quoted(text)[-1], version, answer) for version, answer in zip(versions, answers, strict=True)]


@pytest.mark.parametrize("text, version, answer", of_picture())
def test_the_picture_of_prereleases(text, version, answer):
    assert calls.is_admitted(text, version) == {"yes": True, "no": False}[answer]


# ---- differences from the Rust crate

def of_crate():
    """The rows whose column for here a call shows: a name, the call, and its result; None stands for a refusal."""
    for place, texts, _, here in pages.tables(pages.section(pages.page(DIFFERENCES), "## From the Rust crate"))[0]:
        quoted, results = pages.quoted(texts), pages.quoted(here)
        if place == "`MAX_SAFE_INTEGER`":
            yield place, ("Version::parse", quoted[0]), quoted[0]
        elif place == "identifiers":
            text = quoted[0] + chr(int(re.search(r"U\+(\w+)", texts)[1], 16))
            offset = re.search(r" at (.*)", here)[1]
            yield place, ("Version::parse", text), f"Other at {offset} (0, {offset})"
        elif here.startswith("refused"):
            yield place, ("Range::parse", quoted[0]), None
        elif place in ("order of ends", "`difference`"):
            yield place, ("Range::difference", *quoted), results[0]
        elif place == "`min_version`":
            yield from ((place, ("Range::min_version", text), result) for text, result in zip(quoted, results, strict=True))


@pytest.mark.parametrize("place, call, result", of_crate())
def test_differences_from_the_crate(place, call, result):
    if result is None:
        assert calls.result(*call) is None
    else:
        assert calls.call(*call) == result


def test_rows_of_the_crate_that_are_run():
    assert [place for place, *_ in of_crate()] == ["`MAX_SAFE_INTEGER`", "identifiers", "comparators with no common cut",
                                                  "hyphen ranges with crossed ends", "order of ends", "`difference`", *["`min_version`"] * 2]
