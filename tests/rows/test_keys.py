"""Keys of versions: their order, the versions that are read from them, and the intervals of ranges. The keys are worked out here from
the table of the encoding."""
import itertools
import re

import pytest

from support import answers


def all_of(calls):
    return answers.ask_all("semver_answers", calls)


def key_bytes(text):
    return bytes(map(int, text.split()))


def is_read(key):
    return answers.ask("semver_answers", "semver_keys::version_of_key", " ".join(map(str, key)))


# ---- their order

# SemVer 2.0.0, section 11.4, with numbers on both sides of each length.
ASCENDING = ["0.0.0-0", "0.0.0-1", "0.0.0", "0.0.239", "0.0.240", "0.0.255", "0.0.256", "0.0.65535", "0.0.65536", "0.0.16777215", "0.0.16777216",
             "0.0.9007199254740991", "0.1.0", "1.0.0-2", "1.0.0-239", "1.0.0-240", "1.0.0-18446744073709551615", "1.0.0-Beta", "1.0.0-alpha",
             "1.0.0-alpha.1", "1.0.0-alpha.beta", "1.0.0-alpha-", "1.0.0-beta", "1.0.0", "239.0.0", "240.0.0-a"]


def test_keys_sort_as_versions_do(record_property):
    keys = [key_bytes(key) for key in all_of([["semver_keys::version_key", text] for text in ASCENDING])]
    record_property("made", len(keys) ** 2)
    assert keys == sorted(set(keys))


# ---- the versions that are read from them

NUMBERS = [0, 1, 2, 239, 240, 255, 256, 65535, 65536, 16777216, 4294967296, 1099511627776, 281474976710656, 9007199254740991]
PRERELEASES = ["", "-0", "-239", "-240.x", "-18446744073709551615", "-18446744073709551616", "-a", "-rc.4", "-a.b.c.d.e.f.g.h", "-1.2.3.4.5.6.7.8",
               "--", "-x.7.z.92"]
VERSIONS = [f"{major}.{minor}.7{prerelease}" for major, minor, prerelease in itertools.product(NUMBERS, NUMBERS, PRERELEASES)]


def number(value):
    """The key of a number: one byte below 240, and else its length and its bytes, the highest first."""
    written = value.to_bytes((value.bit_length() + 7) // 8, "big")
    return bytes([value]) if value < 240 else bytes([240 + len(written)]) + written


def identifier(word):
    return b"\1" + number(int(word)) if word.isdigit() and int(word) < 2 ** 64 else b"\2" + word.encode() + b"\0"


def key(text):
    numbers, _, prerelease = text.partition("-")
    written = b"".join(number(int(part)) for part in numbers.split("."))
    return written + (b"".join(map(identifier, prerelease.split("."))) + b"\0" if prerelease else b"\xff")


@pytest.mark.parametrize("build", ["", "+b.1"])
def test_keys_are_those_of_the_table_and_are_read_back(build, record_property):
    wanted = [" ".join(map(str, key(text))) for text in VERSIONS]
    written = all_of([["semver_keys::version_key", text + build] for text in VERSIONS])
    found = all_of([["semver_keys::version_of_key", text] for text in wanted])
    assert [it for it in zip(VERSIONS, written, wanted, strict=True) if it[1] != it[2]] == []
    record_property("made", 2 * len(VERSIONS))
    assert [it for it in zip(VERSIONS, found, strict=True) if it[0] != it[1]] == []


def test_keys_are_short(record_property):
    """A key has one byte less than the text, and one more for each identifier that is no number, or it is shorter."""
    written = all_of([["semver_keys::version_key", text] for text in VERSIONS])
    record_property("made", len(VERSIONS))
    for text, found in zip(VERSIONS, written, strict=True):
        words = text.partition("-")[2].split(".") if "-" in text else []
        texts = sum(not (word.isdigit() and int(word) < 2 ** 64) for word in words)
        assert len(key_bytes(found)) + 1 <= len(text) + texts, text


BEGUN = [242, 1, 0, 2, 3, 2, 114, 99, 0, 1, 241, 240, 0]


def test_a_whole_key_is_read():
    assert is_read(BEGUN) == "256.2.3-rc.240"


@pytest.mark.parametrize("end", range(len(BEGUN)))
def test_a_beginning_of_a_key_is_refused(end):
    assert is_read(BEGUN[:end]) == "nothing"


@pytest.mark.parametrize("first", range(249, 256))
def test_a_number_of_more_than_eight_bytes_is_refused(first):
    assert [is_read([first, *9 * [1], 2, 3, 255]), is_read([1, first, *9 * [1], 3, 255])] == 2 * ["nothing"]


@pytest.mark.parametrize("mark", range(3, 255))
def test_another_mark_of_an_identifier_is_refused(mark):
    assert [is_read([1, 2, 3, mark, 97, 0, 0]), is_read([1, 2, 3, 1, 4, mark, 97, 0, 0])] == 2 * ["nothing"]


# ---- intervals

# Each range is tried with each version, without prereleases and with them.
RANGES = ["*", "^1.2.3", "^1.2.3-rc.4", "^1.2.3-rc.4 || >=3", "1 || 1.5 - 3 || 2", ">1.2.3-a <1.2.3-c || >=1.2.3-b <=2.0.0-x",
          "<1.2.3-b || >=1.2.3-b <1.2.3", ">=1.2.3-a <1.2.3-a.0", ">1.2.3", "<=1.2.3", "1.2.3", "1.2.3-rc.4", ">=240.0.0-300 <300",
          "3 || 1 || 2.0.0-b", "<0.0.1-0"]
TRIED = ["0.0.0-0", "0.0.0", "1.0.0", "1.2.2", "1.2.3-0", "1.2.3-a", "1.2.3-a.0", "1.2.3-b", "1.2.3-b.7", "1.2.3-c", "1.2.3-rc.4",
         "1.2.3-rc.5+build", "1.2.3", "1.2.4-0", "1.2.4", "1.9.9", "2.0.0-0", "2.0.0-b", "2.0.0-x", "2.0.0", "3.0.0-rc.1", "3.1.0",
         "240.0.0-300", "256.1.0"]
CALLS = {"Range::satisfies": "semver_keys::range_intervals", "Range::contains": "semver_keys::range_intervals_with_prereleases"}


def intervals(text):
    """The kind and both ends of each interval."""
    for interval in text.split("; ") if text != "nothing" else []:
        kind, lower, upper = re.fullmatch(r"(\w+)([\d ]*) to([\d ]*)", interval).groups()
        yield kind, key_bytes(lower), key_bytes(upper)


@pytest.mark.parametrize("call", CALLS)
@pytest.mark.parametrize("text", RANGES)
def test_intervals_hold_what_the_range_admits(text, call):
    keys = [key_bytes(answers.ask("semver_answers", "semver_keys::version_key", version)) for version in TRIED]
    admitted = [answers.ask("semver_answers", call, text, version) for version in TRIED]
    held = list(intervals(answers.ask("semver_answers", CALLS[call], text)))
    for version, found, is_admitted in zip(TRIED, keys, admitted, strict=True):
        kind = "prereleases" if "-" in version or call == "Range::contains" else "releases"
        is_held = any(it == kind and lower <= found < upper for it, lower, upper in held)
        assert is_admitted == str(is_held).lower(), version


def test_many_sets_have_many_intervals():
    """Of 2,000 sets that do not touch each has a prerelease at its lower end, and one more has none."""
    text = "".join(f"{major}.0.0-a - {major}.1.0 || " for major in range(2000)) + "3000"
    found = all_of([[call, text] for call in CALLS.values()])
    assert [len(list(intervals(it))) for it in found] == [4001, 2001]
