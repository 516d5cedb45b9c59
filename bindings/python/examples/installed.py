# SPDX-License-Identifier: Apache-2.0
"""Lists each installed dependency whose version does not satisfy the range that asks for it.

    python3 installed.py FOLDER

FOLDER is a project's folder, or its `node_modules`. Each line is a package, what it asks for, and what is installed.
Ends with status 1 if there is such a line.
"""

import json
import os
import sys
from typing import Dict, Iterator, List, NamedTuple, Optional, Tuple

from node_semver import Range, SemverError, Version

DEPENDENCIES = ("dependencies", "optionalDependencies", "peerDependencies")


class Fault(NamedTuple):
    """A package, the name and the range that it asks for, and the version that is installed under this name."""

    package: str
    name: str
    asked: str
    installed: str


class Report(NamedTuple):
    """How many dependencies were checked; which are wrong; and which ask for no range of versions, as a URL does."""

    checked: int
    faults: List[Fault]
    others: List[Tuple[str, str, str]]


def manifest_of(folder: str) -> Optional[Dict[str, object]]:
    """The package.json of a folder, or None if there is none that can be read."""
    try:
        with open(os.path.join(folder, "package.json"), encoding="utf-8") as file:
            manifest = json.load(file)
    except (OSError, ValueError):
        return None
    return manifest if isinstance(manifest, dict) else None


def packages_in(modules: str) -> Iterator[str]:
    """The folders of the packages in a `node_modules`, and in those inside them; `@scope/name` too."""
    for name in sorted(os.listdir(modules)) if os.path.isdir(modules) else []:
        if name.startswith("."):
            continue
        folder = os.path.join(modules, name)
        if name.startswith("@"):
            yield from packages_in(folder)
        else:
            yield folder
            yield from packages_in(os.path.join(folder, "node_modules"))


def installed_version(folder: str, name: str) -> Optional[str]:
    """The version that Node finds under a name from a folder: in its `node_modules`, or in that of a folder above."""
    while True:
        if os.path.basename(folder) != "node_modules":
            manifest = manifest_of(os.path.join(folder, "node_modules", name))
            if manifest is not None and isinstance(manifest.get("version"), str):
                return str(manifest["version"])
        above = os.path.dirname(folder)
        if above == folder:
            return None
        folder = above


def asked_by(manifest: Dict[str, object]) -> Iterator[Tuple[str, str]]:
    """The names and ranges that a package asks for."""
    for kind in DEPENDENCIES:
        section = manifest.get(kind)
        for name, asked in section.items() if isinstance(section, dict) else []:
            if isinstance(asked, str):
                yield name, asked


def range_of(asked: str) -> Optional[Range]:
    """The range of what a package asks for, or None if it asks for something else: a URL, a folder, a tag.

    `npm:other@^1` asks for another package under this name, and the empty text for any release.
    """
    if asked.startswith("npm:"):
        _, _, asked = asked[4:].rpartition("@")
    if ":" in asked or "/" in asked:
        return None
    try:
        return Range(asked.strip() or "*")
    except SemverError:
        return None


def is_satisfied(wanted: Range, version: str) -> bool:
    """Whether a version is read and in the range."""
    try:
        return Version(version) in wanted
    except SemverError:
        return False


def check(folder: str) -> Report:
    """Checks each dependency of a project's folder, or of a `node_modules`. What is not installed is left out."""
    folder = os.path.abspath(folder)
    modules = folder if os.path.basename(folder) == "node_modules" else os.path.join(folder, "node_modules")
    report, checked = Report(0, [], []), 0
    for place in [os.path.dirname(modules), *packages_in(modules)]:
        manifest = manifest_of(place) or {}
        package = f"{manifest.get('name', place)}@{manifest.get('version', '')}"
        for name, asked in asked_by(manifest):
            installed = installed_version(place, name)
            if installed is None:
                continue
            wanted = range_of(asked)
            if wanted is None:
                report.others.append((package, name, asked))
                continue
            checked += 1
            if not is_satisfied(wanted, installed):
                report.faults.append(Fault(package, name, asked, installed))
    return report._replace(checked=checked)


def shown(text: str) -> str:
    """The text for a terminal: a character that cannot be printed by its number, as repr has it."""
    return "".join(c if c.isprintable() else c.encode("unicode_escape").decode("ascii") for c in text)


def main(arguments: List[str]) -> int:
    if len(arguments) != 1:
        print("usage: installed.py FOLDER", file=sys.stderr)
        return 2
    report = check(arguments[0])
    for fault in report.faults:
        print(shown(f"{fault.package} asks for {fault.name} {fault.asked!r}, and {fault.installed} is installed"))
    for package, name, asked in report.others:
        print(shown(f"{package} asks for {name} {asked!r}, which is no range of versions"))
    print(f"{report.checked} checked, {len(report.faults)} not satisfied, {len(report.others)} not checked")
    return 1 if report.faults else 0


if __name__ == "__main__":
    sys.exit(main(sys.argv[1:]))
