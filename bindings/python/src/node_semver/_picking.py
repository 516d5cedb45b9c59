# SPDX-License-Identifier: Apache-2.0
"""The version of a package that npm would install."""

import collections.abc
import datetime
import json
import typing
from typing import Any, Literal

from ._calling import call, document_of, text_of

PickFault = Literal["Wanted", "NoTag", "NoVersion", "NoVersions", "NoneInRange", "Forbidden", "Avoided"]

#: npm's codes.
PickCode = Literal["EINVALIDTAGNAME", "ETARGET", "ENOVERSIONS", "E403"]

# By the outcome of a call.
_KINDS: dict[str, PickFault] = {
    "invalid_wanted": "Wanted", "no_tag": "NoTag", "no_version": "NoVersion", "no_versions": "NoVersions",
    "none_in_range": "NoneInRange", "forbidden": "Forbidden", "only_avoided": "Avoided",
}  # fmt: skip

# By the kind of the error: npm's code, and the reason.
_FAULTS: dict[PickFault, tuple[PickCode, str]] = {
    "Wanted": ("EINVALIDTAGNAME", "it is no version, no range and no tag"),
    "NoTag": ("ETARGET", "there is no such tag"),
    "NoVersion": ("ETARGET", "there is no such version, or it was published too late"),
    "NoVersions": ("ENOVERSIONS", "there are no versions, or all were published too late"),
    "NoneInRange": ("ETARGET", "no version is in the range"),
    "Forbidden": ("E403", "a policy forbids the version"),
    "Avoided": ("ETARGET", "there are only versions to avoid"),
}

_NO_DOCUMENT = "the document is no JSON, or it is nested too deep"
_NO_OPTION = "before must be a time, and node and npm must be versions"

# What is read of a manifest, and of a document beside its versions.
_OF_MANIFEST = ("deprecated", "engines")
_OF_DOCUMENT = ("dist-tags", "time")


class Picked(typing.NamedTuple):
    """The version that is picked.

    >>> pick({'versions': {'1.2.0': {}, '2.0.0': {}}}, '^1')
    Picked(version='1.2.0', is_avoided=False, is_outside=False, is_major=False)
    """

    #: The version, as the document writes it.
    version: str
    #: It is a version to avoid, and no other version was left.
    is_avoided: bool
    #: It was picked in place of a version to avoid, outside the range.
    is_outside: bool
    #: With `is_outside`: it was picked of all versions, and not of those that `^` admits.
    is_major: bool


def _shown(text: str) -> str:
    """The text for a terminal: a character that cannot be printed by its number, as repr has it."""
    return "".join(c if c.isprintable() else c.encode("unicode_escape").decode("ascii") for c in text)


class PickError(LookupError):
    """There is no version to be picked.

    >>> try:
    ...     pick({'name': 'one', 'versions': {'1.2.0': {}}}, '^2')
    ... except PickError as error:
    ...     print(error)
    ...     print(error.kind, error.code, error.wanted)
    one@^2: no version is in the range
    NoneInRange ETARGET ^2
    """

    #: What is wrong: a name, as `NoneInRange`.
    kind: PickFault
    #: npm's code, as `ETARGET`.
    code: PickCode
    #: The version, the tag or the range.
    wanted: str

    def __init__(self, name: str, wanted: str, kind: PickFault) -> None:
        super().__init__(name, wanted, kind)  # the arguments that pickle and copy pass again
        self.wanted, self.kind, self.code = wanted, kind, _FAULTS[kind][0]
        self._package = name

    def __str__(self) -> str:
        return f"{_shown(self._package)}{self._package and '@'}{_shown(self.wanted)}: {_FAULTS[self.kind][1]}"


Picked.__module__ = PickError.__module__ = "node_semver"


def _manifest(manifest: Any) -> Any:
    if not isinstance(manifest, collections.abc.Mapping):
        return manifest
    return {member: manifest[member] for member in _OF_MANIFEST if member in manifest}


def _versions(versions: Any) -> Any:
    if not isinstance(versions, collections.abc.Mapping):
        return versions
    return {key: _manifest(manifest) for key, manifest in versions.items()}


def _document(packument: collections.abc.Mapping[str, Any]) -> str:
    """The JSON of what is read of a document."""
    document = {member: packument[member] for member in _OF_DOCUMENT if member in packument}
    document["versions"] = _versions(packument.get("versions"))
    for member in ("stagedVersions", "policyRestrictions"):
        value = packument.get(member)
        if isinstance(value, collections.abc.Mapping):
            document[member] = {"versions": _versions(value.get("versions"))}
    return json.dumps(document)


def _time(before: datetime.datetime | str | None) -> str:
    if before is None:
        return ""
    if not isinstance(before, datetime.datetime):
        return before
    if before.tzinfo is None:
        raise ValueError("before must have a time zone")
    return before.isoformat()


def exact(text: str | bytes) -> str | bytes:
    """The characters or the bytes alone: those of a class below `str` or `bytes` without what that class does. A TypeError for an object
    that only says that it has such a class."""
    return str.__str__(text) if isinstance(text, str) else bytes.__getitem__(text, slice(None))


def _text(text: str | None, name: str) -> str:
    if text is None:
        return ""
    if not isinstance(text, str):
        raise TypeError(f"{name} must be a str")
    return str.__str__(text)


def option(text: str | None, name: str) -> str | None:
    """The JSON of a text, unless it is empty."""
    given = _text(text, name)
    return text_of(given) if given else None


def pick(
    packument: collections.abc.Mapping[str, Any] | str | bytes,
    wanted: str = "",
    *,
    default_tag: str = "latest",
    before: datetime.datetime | str | None = None,
    avoid: str | None = None,
    avoid_strict: bool = False,
    include_staged: bool = False,
    node: str | None = None,
    npm: str | None = None,
) -> Picked:
    """The version of a package that npm would install for a version, a tag or a range.

    The document is that of a package as a registry serves it, or its JSON. `before` leaves out what was published later,
    `avoid` is a range whose versions are picked only if no other is left, and never with `avoid_strict`. `node` and `npm`
    are versions for `engines`: if one is None, any is fine. Raises `PickError` if there is none, and `ValueError` if a text
    cannot be read.

    >>> document = {'dist-tags': {'latest': '1.2.0'}, 'versions': {'1.2.0': {}, '1.3.0': {}, '2.0.0': {}}}
    >>> pick(document, '^1').version, pick(document, '>=1.3 <2').version
    ('1.2.0', '1.3.0')
    >>> pick(document, '^1', avoid='1.2').version
    '1.3.0'
    """
    if not isinstance(packument, (collections.abc.Mapping, str, bytes)):
        raise TypeError("a packument must be a dict, a str or bytes")
    document = _document(packument) if isinstance(packument, collections.abc.Mapping) else exact(packument)
    asked = _text(wanted, "wanted")
    refused, answer = call("pick", {
        "packument": document_of(document), "wanted": text_of(asked), "tag": option(default_tag, "default_tag"),
        "avoid": option(avoid, "avoid"), "before": option(_time(before), "before"), "node": option(node, "node"),
        "npm": option(npm, "npm"), "avoid_strict": text_of(bool(avoid_strict)),
        "include_staged": text_of(bool(include_staged)),
    })  # fmt: skip
    if refused:
        raise ValueError(_NO_DOCUMENT if refused["name"] == "no_json" else _NO_OPTION)
    if answer["outcome"] == "picked":
        return Picked(answer["version"], answer["avoided"], answer["outside"], answer["major"])
    name = packument.get("name") if isinstance(packument, collections.abc.Mapping) else None
    raise PickError(name if isinstance(name, str) else "", asked, _KINDS[answer["outcome"]])
