# SPDX-License-Identifier: Apache-2.0
"""What the library reads of a manifest, of documents and of a lock file: shorter ones, as JSON."""

import collections.abc
import json
from typing import Any

from ._picking import exact

#: What `resolve` takes: a dict, or its JSON.
Given = collections.abc.Mapping[str, Any] | str | bytes

_GROUPS = ("dependencies", "devDependencies", "optionalDependencies", "peerDependencies")
_OF_ROOT = ("version", "overrides", "peerDependenciesMeta", *_GROUPS)
_OF_VERSION = ("engines", "peerDependenciesMeta", *_GROUPS)
_OF_DOCUMENT = ("dist-tags", "time")

# What a lock file has too: of a root and a version; and of a version alone.
_OF_LOCK_FILE = ("bin", "cpu", "engines", "hasInstallScript", "libc", "license", "os", "scripts")
_OF_INSTALLED = ("deprecated", *_OF_LOCK_FILE, *_OF_VERSION[1:])
_OF_DIST = ("integrity", "shasum", "tarball")

# What is read of a package in a lock file.
_OF_PACKAGE = ("link", "resolved", "version", "workspaces", *_GROUPS)


def _some(value: Any, names: collections.abc.Iterable[str]) -> Any:
    """The members of these names."""
    if not isinstance(value, collections.abc.Mapping):
        return value
    members = {name: value[name] for name in names if name in value}
    return {name: dict(it) if isinstance(it, collections.abc.Mapping) else it for name, it in members.items()}


def _manifest(manifest: Any) -> Any:
    """What is read of the manifest of a version. The reason why it is deprecated is not."""
    if not isinstance(manifest, collections.abc.Mapping):
        return manifest
    deprecated = manifest.get("deprecated")
    return {**_some(manifest, _OF_VERSION), "deprecated": bool(deprecated) if isinstance(deprecated, str) else deprecated}


def _installed(manifest: Any) -> Any:
    """The same, with what a lock file has of it."""
    if not isinstance(manifest, collections.abc.Mapping):
        return manifest
    return {**_some(manifest, _OF_INSTALLED), "dist": _some(manifest.get("dist"), _OF_DIST)}


def _versions(value: collections.abc.Mapping[str, Any], change: collections.abc.Callable[[Any], Any]) -> dict[str, Any]:
    """The versions of a document, or of what a policy says of it."""
    versions = value.get("versions")
    if isinstance(versions, collections.abc.Mapping):
        versions = {key: change(manifest) for key, manifest in versions.items()}
    return {"versions": versions}


def _document(document: Any, change: collections.abc.Callable[[Any], Any]) -> Any:
    """What is read of a document."""
    if not isinstance(document, collections.abc.Mapping):
        return document
    policy = document.get("policyRestrictions")
    restrictions = _versions(policy, _manifest) if isinstance(policy, collections.abc.Mapping) else None
    return {**_some(document, _OF_DOCUMENT), **_versions(document, change), "policyRestrictions": restrictions}


def _json(given: Given, name: str, change: collections.abc.Callable[[collections.abc.Mapping[str, Any]], Any]) -> str | bytes:
    """The JSON of a dict of which these are the members that are read, or the JSON that was given."""
    if isinstance(given, collections.abc.Mapping):
        return json.dumps(change(given))
    if isinstance(given, (str, bytes)):
        return exact(given)
    raise TypeError(f"{name} must be a dict, a str or bytes")


def manifest_json(manifest: Given, is_for_lock: bool) -> str | bytes:
    """The JSON of the manifest of a root; with all that a lock file has of it, if one is asked for."""
    names = ("name", *_OF_LOCK_FILE, *_OF_ROOT) if is_for_lock else _OF_ROOT
    return _json(manifest, "a manifest", lambda given: _some(given, names))


def documents_json(documents: Given, is_for_lock: bool) -> str | bytes:
    """The JSON of documents; with all that a lock file has of a version, if one is asked for."""
    change = _installed if is_for_lock else _manifest
    return _json(documents, "documents", lambda given: {name: _document(it, change) for name, it in given.items()})


def _lock(lock: collections.abc.Mapping[str, Any]) -> dict[str, Any]:
    packages = lock.get("packages")
    if isinstance(packages, collections.abc.Mapping):
        packages = {folder: _some(entry, _OF_PACKAGE) for folder, entry in packages.items()}
    return {"lockfileVersion": lock.get("lockfileVersion"), "packages": packages}


def lock_json(lock: Given | None) -> str | bytes:
    """The JSON of a lock file; the empty text if there is none."""
    return "" if lock is None else _json(lock, "a lock file", _lock)
