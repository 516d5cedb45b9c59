# SPDX-License-Identifier: Apache-2.0
"""Versions of packages that fit together."""

import collections.abc
import datetime
import typing
from typing import Any, Literal

from ._calling import Refusal, call, document_of, text_of
from ._picking import _time, option
from ._shorter import Given, documents_json, lock_json, manifest_json

#: Groups of dependencies.
Group = Literal["dev", "optional", "peer"]
_GROUPS: tuple[Group, ...] = typing.get_args(Group)

# By the name of what is wrong, and the member. See npm_calls.h.
_REFUSED = {
    "no_json manifest": "the manifest is no JSON, or it is nested too deep",
    "invalid_manifest manifest": "the manifest is no object, or its version or a dependency is no string",
    "no_json packuments": "the documents are no JSON, or they are nested too deep",
    "no_object packuments": "the documents are no object",
    "no_json lock": "the lock file is no JSON, or it is nested too deep",
    "not_flat lockfile": "lockfile takes flat: without it dependencies of versions are not selected",
    "omits lockfile": "lockfile takes no omit: a lock file has all groups",
}


def _sentence(refused: Refusal) -> str:
    member = refused["member"][0] if refused["member"] else ""
    if member == "lock" and refused["name"] == "invalid_lock":
        return f"the lock file: {refused['message']}"
    return _REFUSED.get(f"{refused['name']} {member}", "before must be a time, and node a version")


class Chosen(typing.TypedDict):
    """A version that is selected, for the name that is asked for. The package has another name for an alias."""

    name: str
    package: str
    version: str


class Culprit(typing.TypedDict):
    """A dependency that cannot be installed together with the others. Without any one of them the others can.

    `needed` is false for an optional peer, which only limits; `document` says whether there is a document of this name. `would_fit` is
    the first version of the name, outside the range of the spec, with which all else that the manifest asks for can be met: None if there
    is none, or if it takes more steps to find it.
    """

    name: str
    spec: str
    needed: bool
    document: bool
    would_fit: str | None


class Wish(typing.TypedDict):
    """What is asked of a name. The spec is None for any."""

    name: str
    spec: str | None
    needed: bool


class Reason(typing.TypedDict, total=False):
    """A line that says why, and its sentence as `text`.

    `source` is "root": the manifest asks for the `wish`; "versions": these `versions` of the `name` ask for it; or "lines": whatever is
    installed of the `name`, one of the `lines` with these numbers, from 0, rules it out. The `terms` never hold together. The last line
    has none.
    """

    source: Literal["root", "versions", "lines"]
    text: str
    terms: list[dict[str, Any]]
    wish: Wish
    name: str
    versions: list[str]
    lines: list[int]


class Names(typing.TypedDict):
    """Names that an answer is about.

    `left_out`: optional dependencies of which no version is in the range. `missing`: packages without a document, so that versions which
    need them are left out. `refused`: dependencies that ask no registry. `unread`: packages whose rule in `overrides` is not read.
    """

    left_out: list[str]
    missing: list[str]
    refused: list[str]
    unread: list[str]


class Selected(Names):
    """Versions that fit together, in the order in which they are first needed."""

    outcome: Literal["selected"]
    packages: list[Chosen]


class LockFile(Names):
    """Versions that fit together, as the text of a package-lock.json."""

    outcome: Literal["selected"]
    lockfile: str


class NoSelection(Names):
    """No versions fit together, and why. The culprits are None if it takes more steps to find them, and so are the reasons."""

    outcome: Literal["none"]
    culprits: list[Culprit] | None
    reasons: list[Reason] | None


class Undecided(Names):
    """The steps were used up before either was known."""

    outcome: Literal["undecided"]


class Unread(Names):
    """There is no lock file: the rules in `overrides` for these names are not read, and `npm ci` would refuse it."""

    outcome: Literal["unread"]
    overrides: list[str]


#: What `resolve` returns. A dict may have more members than these.
Resolution = Selected | NoSelection | Undecided

#: What `resolve` returns for `lockfile=True`.
LockResolution = LockFile | Unread | NoSelection | Undecided


def _omits(omit: Group | collections.abc.Iterable[Group]) -> str:
    groups = [omit] if isinstance(omit, str) else list(omit)
    if any(group not in _GROUPS for group in groups):
        raise ValueError("omit takes dev, optional and peer")
    return text_of([group for group in _GROUPS if group in groups])


def _steps(steps: int) -> str:
    if not isinstance(steps, int):
        raise TypeError("steps must be an int")
    steps = int.__index__(steps)
    if not 0 <= steps < 1 << 64:
        raise ValueError("steps must be 0 or more, and below 2**64")
    return text_of(steps)


def _mark(mark: bool, name: str) -> str:
    if not isinstance(mark, bool):
        raise TypeError(f"{name} must be True or False")
    return text_of(mark)


@typing.overload
def resolve(
    manifest: Given,
    documents: Given,
    *,
    default_tag: str = ...,
    before: datetime.datetime | str | None = ...,
    node: str | None = ...,
    lock: Given | None = ...,
    omit: Group | collections.abc.Iterable[Group] = ...,
    flat: bool = ...,
    lowest: bool = ...,
    lockfile: Literal[False] = ...,
    steps: int = ...,
) -> Resolution: ...


@typing.overload
def resolve(
    manifest: Given,
    documents: Given,
    *,
    default_tag: str = ...,
    before: datetime.datetime | str | None = ...,
    node: str | None = ...,
    lock: Given | None = ...,
    omit: Group | collections.abc.Iterable[Group] = ...,
    flat: bool = ...,
    lowest: bool = ...,
    lockfile: Literal[True],
    steps: int = ...,
) -> LockResolution: ...


@typing.overload
def resolve(
    manifest: Given,
    documents: Given,
    *,
    default_tag: str = ...,
    before: datetime.datetime | str | None = ...,
    node: str | None = ...,
    lock: Given | None = ...,
    omit: Group | collections.abc.Iterable[Group] = ...,
    flat: bool = ...,
    lowest: bool = ...,
    lockfile: bool = ...,
    steps: int = ...,
) -> Resolution | LockResolution: ...


def resolve(
    manifest: Given,
    documents: Given,
    *,
    default_tag: str = "latest",
    before: datetime.datetime | str | None = None,
    node: str | None = None,
    lock: Given | None = None,
    omit: Group | collections.abc.Iterable[Group] = (),
    flat: bool = False,
    lowest: bool = False,
    lockfile: bool = False,
    steps: int = 10_000_000,
) -> Resolution | LockResolution:
    """Versions of packages that fit together, or what cannot be installed together.

    The manifest is a package.json, and the documents are a dict from the name of a package to its document, as a registry serves
    it; or each is its JSON. One version is selected of each package that the manifest asks for, and of the peers of the versions
    that are selected: the best with which a selection that fits exists. A name without a document has no versions. A package of
    `optionalDependencies` that has no version in its range is left out.

    `before` leaves out what was published later, and `omit` the groups `dev`, `optional` and `peer`. `node` is the version of Node,
    for `engines`; without it any is fine. With `flat` the dependencies of selected versions count too, with `lowest` the lowest
    versions are preferred, and a version that the package-lock.json `lock` has in `node_modules/NAME` comes first. With `lockfile`,
    which takes `flat` and no `omit`, the answer is a package-lock.json if versions fit together and the rules in `overrides` are read.
    The search stops after so many `steps`. Raises `ValueError` if the manifest, the documents or an option cannot be read.

    >>> documents = {
    ...     'hot': {'versions': {'4.0.0': {'peerDependencies': {'react': '^17'}}}},
    ...     'react': {'versions': {'17.0.2': {}, '18.2.0': {}}},
    ... }
    >>> answer = resolve({'dependencies': {'hot': '*'}}, documents)
    >>> [(one['name'], one['version']) for one in answer['packages']]
    [('hot', '4.0.0'), ('react', '17.0.2')]
    >>> answer = resolve({'dependencies': {'hot': '*', 'react': '18'}}, documents)
    >>> answer['outcome'], [(one['name'], one['would_fit']) for one in answer['culprits']]
    ('none', [('hot', None), ('react', '17.0.2')])
    >>> answer = resolve({'dependencies': {'hot': '*'}}, documents, flat=True, lockfile=True)
    >>> '"node_modules/react"' in answer['lockfile']
    True
    """
    marks = {"flat": _mark(flat, "flat"), "lowest": _mark(lowest, "lowest"), "lockfile": _mark(lockfile, "lockfile")}
    file = lock_json(lock)
    refused, answer = call("resolve", {
        "manifest": document_of(manifest_json(manifest, lockfile)),
        "packuments": document_of(documents_json(documents, lockfile)),
        "tag": option(default_tag, "default_tag"), "before": option(_time(before), "before"), "node": option(node, "node"),
        "lock": document_of(file) if file else None, "steps": _steps(steps), "omit": _omits(omit), **marks,
    })  # fmt: skip
    if refused:
        raise ValueError(_sentence(refused))
    return typing.cast(Resolution, answer)
