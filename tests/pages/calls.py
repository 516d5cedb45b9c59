"""Calls of node_semver, npm_semver and semver_keys, by the program semver_answers."""
import functools
import re

from support import answers


@functools.cache
def call(name, *words):
    """What a public function returns for the arguments that these words write."""
    return answers.ask("semver_answers", name, *words)


def result(name, *words):
    """The same, or None where a range or a version is refused, or there is no result."""
    found = call(name, *words)
    return None if found == "nothing" or re.fullmatch(r"[A-Z][A-Za-z]+(\(.*\))? at \d+ \(\d+, \d+\)", found) else found


def range_of(text):
    """The print of the range that `Range::parse` reads, or None if the text is refused."""
    return result("Range::parse", text)


def npm_range_of(text, *options):
    """The same of `npm_semver::parse_range`; options are `loose` and `prereleases`."""
    return result("npm_semver::parse_range", text, " ".join(options))


def admitted(text, *versions):
    """Whether the range of a text admits each version."""
    found = [call("Range::satisfies", text, version) for version in versions]
    assert {"true", "false"}.issuperset(found), found
    return [it == "true" for it in found]


def is_admitted(text, version):
    return admitted(text, version) == [True]
