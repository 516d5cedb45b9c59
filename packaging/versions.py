"""The version of this repository: it stands in the file VERSION, and each other place must say the same."""
import json
import os
import re

ROOT = os.path.dirname(os.path.dirname(os.path.abspath(__file__)))

# Where the version is written as well, and how it is found there.
PLACES = (
    ("bindings/c/include/node_semver.h", r'#define NODE_SEMVER_LIBRARY_VERSION "([^"]*)"'),
    ("bindings/c/include/npm_calls.h", r'#define NPM_CALLS_LIBRARY_VERSION "([^"]*)"'),
    ("bindings/python/src/node_semver/__init__.py", r'^__version__ = "([^"]*)"'),
    ("bindings/node/package.json", r'^  "version": "([^"]*)"'),
    ("crates/npm_lock_check/src/arguments/command.rt", r'NUMBER: &str = "([^"]*)"'),
    ("crates/npm_pick_command/src/help.rt", r'"npm_pick ([^"\\]*)\\n"'),
    ("crates/npm_resolve_command/src/help.rt", r'"npm_resolve ([^"\\]*)\\n"'),
    ("README.md", r"denimscree-semver-([0-9][0-9.]*)\.tgz"),
    ("CONTRIBUTING.md", r"denimscree-semver-([0-9][0-9.]*)\.tgz"),
    ("CONTRIBUTING.md", r"denimscree_semver-([0-9][0-9.]*)(?:-cp310|\.tar\.gz)"),
    ("CONTRIBUTING.md", r"`denimscree[-_]([0-9][0-9.]*[0-9])(?:[-_.][a-z])"),
    ("bindings/python/README.md", r"denimscree(?:_semver)?-([0-9][0-9.]*)(?:-cp310|-linux|\.tar\.gz)"),
)


def read(name):
    with open(os.path.join(ROOT, name), encoding="utf-8") as file:
        return file.read()


def version():
    """The version."""
    return read("VERSION").strip()


def parts():
    """The version's three numbers as the header says them."""
    header = read("bindings/c/include/node_semver.h")
    return ".".join(re.search(rf"LIBRARY_VERSION_{part} (\d+)", header).group(1) for part in ("MAJOR", "MINOR", "PATCH"))


def differing():
    """A line for each place that says another version, or none."""
    wanted = version()
    if not re.fullmatch(r"\d+\.\d+\.\d+", wanted):
        yield f"VERSION: {wanted!r} is no version"
    for name, pattern in PLACES:
        found = re.findall(pattern, read(name), re.MULTILINE)
        if not found or set(found) != {wanted}:
            yield f"{name}: {', '.join(found) or 'no version'}, and not {wanted}"
    if parts() != wanted:
        yield f"bindings/c/include/node_semver.h: {parts()} by its parts, and not {wanted}"
    if json.loads(read("bindings/node/package.json"))["version"] != wanted:
        yield "bindings/node/package.json: another version as JSON"
