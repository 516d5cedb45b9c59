# SPDX-License-Identifier: Apache-2.0
"""Runs the commands of an input, which calls.c has from libFuzzer.

Looks for a call that raises what its docs do not have, and for a law of Python that does not hold of its result: equal objects
have one hash, and what pickle stores is read back.

A line is a command: a digit, the place of the result; a letter, what is done; and then the digits of the places of arguments,
or a text, in which `$` stands for a line feed. Bytes that are not UTF-8 become halves of pairs of UTF-16.
"""

import importlib.machinery
import importlib.util
import pickle
import sys
from typing import Any, Callable, Dict, List, Optional

PLACES = 8
MOST = 48


class Inside:
    """Finds the extension modules that are part of the program."""

    @staticmethod
    def find_spec(name: str, path: object = None, target: object = None) -> Optional[importlib.machinery.ModuleSpec]:
        if name in ("node_semver._native", "node_semver._calls"):
            return importlib.util.spec_from_loader(name, importlib.machinery.BuiltinImporter)  # type: ignore[arg-type]
        return None


sys.meta_path.insert(0, Inside)
from node_semver import PickError, Range, Version, pick, resolve, satisfies  # noqa: E402

# What a call may raise. A SystemError is none: the extension raises it where the library returned what it never returns, and
# Python where a call returned a value and raised, or neither.
ALLOWED = (TypeError, ValueError, AttributeError, PickError)


def text_of(line: bytes) -> str:
    return line.replace(b"$", b"\n").decode("utf-8", "surrogateescape")


# Calls of one argument or more. Each may be made with any object, and then raises what ALLOWED has.
CALLS: Dict[int, Callable[..., Any]] = dict(enumerate([
    Version, lambda text: Version(text, strict=True), lambda text: Version.coerce(text),
    lambda text: Version.coerce(text, rtl=True, include_prerelease=True), Range, lambda text: Range.parse_npm(text),
    lambda text: Range.parse_npm(text, loose=True), lambda text: Range.parse_npm(text, include_prerelease=True),
    satisfies, lambda one, other: one in other, lambda one, other: one.contains(other), lambda one, other: one & other,
    lambda one, other: one - other, lambda one, other: one | other, lambda one, other: one.allows_any(other),
    lambda one, other: one.allows_all(other), lambda one, other: one.least_beyond(other),
    lambda one, other: one.least_common(other, include_prerelease=True), lambda one: one.min_version(),
    lambda one: one.min_version(include_prerelease=True), lambda one: one.sets, Range.from_sets,
    lambda one: one.intervals(), lambda one: one.intervals(include_prerelease=True), lambda one: one.sql("a.b", "c"),
    lambda one, other: one.sql(other, other, placeholder=other), lambda one, other: one.filter(other),
    lambda one, other: one.filter(other, include_prerelease=True), lambda one, other: one.max_satisfying(other),
    lambda one, other: one.min_satisfying(other, include_prerelease=True), lambda one: one.key, lambda one: one.prerelease,
    lambda one: one.build, lambda one: (one.major, one.minor, one.patch, one.is_prerelease), str, repr,
    lambda one, other: one < other, lambda one, other: one == other, lambda one, other: one.diff(other),
    lambda one, other: one.compare_build(other), lambda one, other: one.bump(other),
    lambda one, other, more: one.bump(other, identifier=more), lambda one: one.bump("prerelease", identifier="beta", base=1),
    lambda one, other: one.bump("preminor", base=other), sorted, lambda one, other: pick(one, other),
    lambda one, other, more: pick(one, other, avoid=more, avoid_strict=True),
    lambda one, other, more: pick(one, other, before=more, node=more), lambda one, other: resolve(one, other),
    lambda one, other, more: resolve(one, other, before=more, default_tag=more, steps=100),
    lambda one, other, more: resolve(one, other, node=more, flat=True, lowest=True, steps=100),
    lambda one, other, more: resolve(one, other, lock=more, flat=True, lockfile=True, steps=100),
]))  # fmt: skip


def check(value: Any) -> None:
    """The laws of a value."""
    if isinstance(value, (Range, Version)):
        hash(value)
        try:
            again = pickle.loads(pickle.dumps(value))
        except ValueError:
            return
        assert again == value and hash(again) == hash(value), value


def made(held: List[Any], line: bytes) -> Any:
    """What a command makes."""
    letter, rest = line[:1], line[1:]
    if letter == b"s":
        return text_of(rest)
    if letter == b"y":
        return rest
    if letter == b"i":
        return int(rest[:20]) if rest[:20].lstrip(b"-").isdigit() else len(rest)
    if letter == b"n":
        return None
    places = [held[digit % PLACES] for digit in rest[1:]]
    if letter == b"l":
        return places
    if letter == b"t":
        return tuple(places)
    if letter == b"g":
        return (one for one in places)
    if letter == b"c" and rest:
        return CALLS[rest[0] % len(CALLS)](*places)
    return None


def run(data: bytes) -> None:
    held: List[Any] = [None] * PLACES
    for line in data.split(b"\n")[:MOST]:
        if not line:
            continue
        try:
            value = made(held, line[1:])
        except ALLOWED:
            continue
        check(value)
        held[line[0] % PLACES] = value
    held.clear()
