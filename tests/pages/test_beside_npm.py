"""The tables that have a column for npm and one for what is here: the first is what npm's own code returns, and the second what the
library or the program does."""
import atexit
import functools
import json
import os
import re
import shlex
import subprocess

import pytest

import calls
import pages
from support import programs

HERE = os.path.dirname(os.path.abspath(__file__))
DIFFERENCES = pages.page("docs/DIFFERENCES.md")


@functools.cache
def node():
    """A process that answers for npm, until the tests end."""
    ran = subprocess.Popen(["node", os.path.join(HERE, "npm.js")], env=programs.environment(), stdin=subprocess.PIPE, stdout=subprocess.PIPE,
                           encoding="utf-8")
    atexit.register(ran.communicate)
    return ran


@functools.cache
def npm(name, *values):
    """What npm's function returns; options are passed as a tuple of those that are true."""
    print(json.dumps([name, *({it: True for it in value} if isinstance(value, tuple) else value for value in values)]), file=node().stdin, flush=True)
    return json.loads(node().stdout.readline())


# ---- npm_semver::parse_range

def text_of(cell):
    """The text that a cell names, in one or more parts: one in backquotes, and so many times a character."""
    parts = re.findall(r"(\d+) times `(.)`|`([^`]+)`", cell)
    return "".join(int(many) * one if many else text for many, one, text in parts)


def of_ranges():
    """The rule, a text, the options, and the cells of npm and of here for it; a version, if the cells say whether it is admitted."""
    for rule, texts, npms, here in pages.tables(pages.section(DIFFERENCES, "### `npm_semver::parse_range`"))[0]:
        options = ("includePrerelease",) if "prereleases included" in texts else ()
        groups = texts.replace(", prereleases included", "").split("; ")
        for at, group in enumerate(groups):
            options += ("loose",) if group.startswith("loose: ") else ()
            cells = [cell.split("; ")[at if len(groups) > 1 and "; " in cell else 0] for cell in (npms, here)]
            pair = re.fullmatch(r"`([^`]+)` and `([^`]+)`", group) if "admitted" in cells[1] else None
            listed = [group] if pair or " times " in group else group.removeprefix("loose: ").split(", ")
            for place, text in enumerate(listed):
                each = [cell.split(", ")[place] if len(cell.split(", ")) == len(listed) else cell for cell in cells]
                yield rule, *(pair.groups() if pair else (text_of(text), None)), options, *each


def is_reading(found, cell, read):
    """Whether a print, or None for a text that is refused, is what a cell says: it has the print, or a text that is read alike."""
    if re.match(r"refused|throws", cell):
        return found is None
    text = "*" if cell.startswith("every release") else pages.quoted(cell)[0]
    begin, _, end = text.partition("..")
    return found.startswith(begin) and found.endswith(end) if end else found in (text, read(text))


RANGES = list(of_ranges())


@pytest.mark.parametrize("rule, text, version, options, npms, here", RANGES, ids=[f"{it[0]}: {it[1][:40]}" for it in RANGES])
def test_ranges_that_npm_reads_otherwise(rule, text, version, options, npms, here):
    words = [{"loose": "loose", "includePrerelease": "prereleases"}[option] for option in options]
    if version:
        found = calls.call("npm_semver::parse_range, satisfies", text, " ".join(words), version)
        assert found == ("true" if here.startswith("admitted") else "false")
        assert npm("satisfies", version, text, options) == npms.startswith("admitted")
    else:
        assert is_reading(calls.npm_range_of(text, *words), here, lambda it: calls.npm_range_of(it, *words))
        assert is_reading(npm("Range", text, options), npms, lambda it: npm("Range", it, options))


def test_each_row_of_ranges_is_run():
    assert len({it[0] for it in RANGES}) == len(pages.tables(pages.section(DIFFERENCES, "### `npm_semver::parse_range`"))[0]) and len(RANGES) >= 20


# ---- inc and coerce

# The texts of errors, as the docs of npm_semver have them.
ERRORS = {"SameIdentifier": "the prerelease is this identifier already", "NumberTooLarge": "a number is too large"}


def of_increments():
    """Of the rows of `inc`: a version, the level, the identifier, whether there is no base, npm's result and the one here."""
    for call, texts, npms, here in pages.tables(pages.section(DIFFERENCES, "### `inc`, `diff`, `compare_build` and `coerce`"))[0]:
        if call != "`inc`":
            continue
        for group, cell in zip(texts.split("; also")[0].split("; "), npms.split("; "), strict=True):
            version, level, _, identifier, no_base = re.fullmatch(r"`(\S+)` to the next (\w+)( with `(\w+)`( and no base)?)?", group).groups("")
            result = pages.quoted(cell)[0]
            yield version, level, identifier, no_base, result, pages.quoted(here)[0]
            # (the row names other texts that npm takes for a number)
            for other in pages.quoted(texts.partition("; also")[2]):
                yield version.replace("1e5", other), level, identifier, no_base, result.replace("1e5", other), pages.quoted(here)[0]


INCREMENTS = list(of_increments())


@pytest.mark.parametrize("version, level, identifier, no_base, npms, here", INCREMENTS, ids=[f"{it[0]} {it[1]}" for it in INCREMENTS])
def test_increments(version, level, identifier, no_base, npms, here):
    # (an identifier of digits is a number, which the library is told)
    word = f"={identifier}" if identifier.isdigit() else identifier
    assert calls.call("npm_semver::inc", version, level, word, "none" if no_base else "0") == ERRORS.get(here, here)
    assert npm("inc", version, level, (), *([identifier, False] if no_base else [identifier] if identifier else [])) == npms
    words = ["--inc", level, *(["--preid", identifier] if identifier else []), "-n", "false" if no_base else "0", version]
    ran = subprocess.run([programs.built("semver"), *words], stdin=subprocess.DEVNULL, capture_output=True, encoding="utf-8")
    assert ran.stdout == f"{'null' if here in ERRORS else here}\n"


def of_coerced():
    """Of the rows of `coerce`: the call, a text, npm's options, and the cells."""
    for call, texts, npms, here in pages.tables(pages.section(DIFFERENCES, "### `inc`, `diff`, `compare_build` and `coerce`"))[0]:
        if call.startswith("`coerce"):
            options = (["includePrerelease"] if "prerelease" in call else []) + ["rtl"] * ("from the right" in call) + ["loose"] * ("`loose`" in texts)
            for text, *cells in zip(texts.replace(" with `loose`", "").split("; "), npms.split("; "), here.split("; "), strict=True):
                yield pages.quoted(call)[0], text_of(text), tuple(options), *cells


COERCED = list(of_coerced())


@pytest.mark.parametrize("call, text, options, npms, here", COERCED, ids=[f"{it[0]}: {it[1][:40]}" for it in COERCED])
def test_coerced_texts(call, text, options, npms, here):
    wanted = None if "none" in here else pages.quoted(here)[0]
    assert calls.result(f"npm_semver::{call}", text, *["rtl"] * ("rtl" in options)) == wanted
    found = npm("coerce", text, options)
    if " times " in npms:
        assert found.split("+")[1] == text_of(npms)
    else:
        assert found == (None if npms.startswith("none") else pages.quoted(npms)[0])


# ---- the command semver

def of_commands():
    """The rows of the program's page whose words stand there: the words, npm's cell and the other one."""
    table = pages.tables(pages.section(pages.page("crates/semver_command/README.md"), "## Where npm differs"))[0]
    for words, npms, here in table:
        first, _, more = words.partition(", also ")
        before, _, text = first.partition(", as ")
        line = " ".join([*pages.quoted(before)[:1], text_of(text)] if " on a text " in before else [text_of(text or before)])
        if re.search(r"\d\.\d", line):
            cells = npms.split("; ")
            yield line, cells[0], here
            # (the same words with another value of the option)
            for other, cell in zip(pages.quoted(more), cells[1:]):
                option = other.split(" ")[0]
                yield re.sub(rf"{option} \S+", other, line), cell, here


def is_said(ran, cell, line):
    """Whether a run is what a cell says: a version that is written, a status, or the order of the versions of the line."""
    if cell.startswith("status"):
        return (str(ran.returncode), ran.stdout) == (cell.split(":")[0].split(" ")[1], "")
    versions = line.split(" ")
    written = pages.quoted(cell)[:1] if cell.startswith("`") else versions if cell.startswith("in this order") else sorted(versions)
    return (ran.returncode, ran.stdout.splitlines()) == (0, written)


@pytest.mark.parametrize("line, npms, here", of_commands(), ids=[line for line, *_ in of_commands()])
def test_commands_that_npm_answers_otherwise(line, npms, here):
    command = os.path.join(npm_root(), "npm", "node_modules", "semver", "bin", "semver.js")
    for words, cell in ((["node", command], npms), ([programs.built("semver")], here)):
        ran = subprocess.run([*words, *shlex.split(line)], stdin=subprocess.DEVNULL, capture_output=True, encoding="utf-8")
        assert is_said(ran, cell, line), f"{words} {line}: {ran.returncode} {ran.stdout}{ran.stderr}, and not {cell}"


@functools.cache
def npm_root():
    return subprocess.run(["npm", "root", "-g"], env=programs.environment(), capture_output=True, encoding="utf-8", check=True).stdout.strip()


# ---- rules that the comparisons know

@pytest.mark.parametrize("script, page, heading", [
    ("ranges.js", "docs/DIFFERENCES.md", "### `npm_semver::parse_range`"),
    ("picks.js", "crates/npm_pick/README.md", "## Where npm picks another version"),
])
def test_rules_of_a_comparison_are_rows(script, page, heading):
    with open(os.path.join(programs.TESTS, "npm", script), encoding="utf-8") as file:
        rules = set(re.findall(r"^    name: '(.*)',$", file.read(), re.M))
    rows = {row[0] for row in pages.tables(pages.section(pages.page(page), heading))[0]}
    assert rules == rows
