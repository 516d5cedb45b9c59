# SPDX-License-Identifier: Apache-2.0
"""The problems of lock files, and the packages that advisories hit."""

import collections.abc
import datetime
import typing
from typing import Any, Literal

from ._calling import call, document_of, text_of
from ._picking import _shown, exact, option
from ._shorter import Given

#: What lists of advisories are: a dict or a list, or its JSON.
Advisories = collections.abc.Mapping[str, Any] | list[Any] | str | bytes


class CheckError(ValueError):
    """A lock file, a manifest, advisories or an option cannot be read.

    >>> try:
    ...     check({'lockfileVersion': 3, 'packages': {'node_modules/a': 7}})
    ... except CheckError as error:
    ...     print(error)
    ...     print(error.name, error.member)
    lock, packages, node_modules/a: a member of `packages` is no object
    invalid_lock ['lock', 'packages', 'node_modules/a']
    """

    #: What is wrong, as `invalid_lock`.
    name: str
    #: The path to the member that is at fault.
    member: list[str | int]
    #: Its place in the text of the document, if that is given as a text.
    line: int
    column: int

    def __init__(self, message: str, name: str, member: list[str | int], line: int, column: int) -> None:
        super().__init__(message, name, member, line, column)  # the arguments that pickle and copy pass again
        self.name, self.member, self.line, self.column = name, member, line, column

    def __str__(self) -> str:
        path = ", ".join(str(step) for step in self.member)
        return f"{_shown(path)}: {self.args[0]}"


CheckError.__module__ = "node_semver"


class Report(typing.TypedDict):
    """What is found in a lock file. `problems` are as npm_lock_check writes them in JSON; `clean` says that none counts."""

    clean: bool
    packages: int
    dependencies: int
    not_checked: int
    problems: list[dict[str, Any]]


class Excepted(typing.TypedDict):
    """An advisory that is excepted for a package."""

    folder: str
    id: str
    name: str
    reason: str


class Audit(typing.TypedDict):
    """The packages that are hit. `hits` are as npm_lock_check writes them in JSON; `advisories` is how many were read."""

    clean: bool
    advisories: int
    hits: list[dict[str, Any]]
    excepted: list[Excepted]


def _document(given: Any, name: str) -> str:
    if isinstance(given, (str, bytes)):
        return document_of(exact(given))
    if isinstance(given, (collections.abc.Mapping, list)):
        return text_of(given)
    raise TypeError(f"{name} must be a dict, a str or bytes")


def _made(name: str, members: dict[str, str | None]) -> dict[str, Any]:
    refused, answer = call(name, members)
    if refused:
        raise CheckError(*(refused[part] for part in ("message", "name", "member", "line", "column")))
    return answer


def check(
    lock: Given,
    *,
    manifest: Given | None = None,
    workspaces: collections.abc.Mapping[str, Any] | None = None,
    node: str | None = None,
    ignore: collections.abc.Sequence[Literal["group", "missing", "invalid", "peer-local", "engine"]] = (),
    omit: collections.abc.Sequence[Literal["dev", "optional"]] = (),
    registry: collections.abc.Sequence[str] = (),
    sources: bool = False,
    exact: bool = False,
    strict: bool = False,
    unchecked: bool = False,
) -> Report:
    """The problems of a package-lock.json: dependencies that are missing or whose version is not in the range, as `npm ls` finds them.

    The lock file and the manifest of the root are dicts, or their JSON; `workspaces` are manifests by their folders. With a manifest also
    where it and the lock file do not ask for the same. `node` is the version of Node that `engines` are checked with, `ignore` leaves out
    kinds of problems and `omit` groups of packages. With `sources` or `registry` also suspicious sources of packages. `exact` and `strict`
    say what counts for `clean`, and `unchecked` lists what is not checked. Raises `CheckError` if something cannot be read.

    >>> found = check({'lockfileVersion': 3, 'packages': {'': {'dependencies': {'a': '^2'}}, 'node_modules/a': {'version': '1.0.0'}}})
    >>> found['clean'], [(one['problem'], one['name']) for one in found['problems']]
    (False, [('invalid', 'a')])
    """
    return typing.cast(Report, _made("check", {
        "lock": _document(lock, "a lock file"),
        "manifest": None if manifest is None else _document(manifest, "a manifest"),
        "workspaces": None if workspaces is None else _document(workspaces, "workspaces"),
        "node": option(node, "node"), "ignore": text_of(list(ignore)), "omit": text_of(list(omit)),
        "registry": text_of(list(registry)), "sources": text_of(sources), "exact": text_of(exact), "strict": text_of(strict),
        "unchecked": text_of(unchecked),
    }))  # fmt: skip


def audit(
    lock: Given,
    advisories: Advisories,
    *,
    severity: Literal["info", "low", "moderate", "high", "critical"] = "info",
    omit: collections.abc.Sequence[Literal["dev", "optional"]] = (),
    exceptions: collections.abc.Sequence[collections.abc.Mapping[str, str | None]] = (),
    today: datetime.date | None = None,
) -> Audit:
    """The packages of a package-lock.json that security advisories hit, and a version that none hits.

    The advisories are those of npm's bulk endpoint, or a list in OSV's form, or their JSON. `severity` leaves out those that are less severe,
    and `exceptions` those that do not count for a package: dicts with `id`, `package`, `reason` and maybe `until`, the last day. An advisory
    that is withdrawn by `today`, which is the day in UTC, does not count. Raises `CheckError` if something cannot be read.

    >>> lock = {'lockfileVersion': 3, 'packages': {'node_modules/a': {'version': '1.2.0'}}}
    >>> advisory = {'id': 7, 'severity': 'high', 'title': 'A hole', 'url': 'https://example.com', 'vulnerable_versions': '<1.3'}
    >>> [(hit['name'], hit['version']) for hit in audit(lock, {'a': [advisory]})['hits']]
    [('a', '1.2.0')]
    """
    day = datetime.datetime.now(datetime.timezone.utc).date() if today is None else today
    return typing.cast(Audit, _made("audit", {
        "lock": _document(lock, "a lock file"), "advisories": _document(advisories, "advisories"), "severity": text_of(severity),
        "omit": text_of(list(omit)), "exceptions": text_of([dict(one) for one in exceptions]),
        "today": text_of(f"{day:%Y-%m-%d}"),
    }))  # fmt: skip
