"""Counts the instructions of npm_lock_check and npm_resolve at two sizes with valgrind: input of twice the size takes no more of them a byte, a
folder or a package, but for a tenth."""
import json
import os
import re
import subprocess

import pytest

from support import programs
from growth import grown


def instructions(words, given, program="npm_lock_check"):
    """How many a run takes, and how many bytes it writes on standard output."""
    tool = ["valgrind", "--tool=callgrind", "--callgrind-out-file=/dev/null"]
    ran = subprocess.run([*tool, programs.built(program), *words], input=given.encode(), capture_output=True)
    return int(re.search(rb"Collected : (\d+)", ran.stderr)[1]), len(ran.stdout)


def of_lock(shape, count, words):
    given = grown.text(shape, count)
    return instructions(words, given)[0], len(given)


def of_lines(shape, count, words):
    """Also of what is written."""
    given = grown.text(shape, count)
    found, written = instructions(words, given)
    return found, len(given) + written


def of_advisories(shapes, count, words):
    lock, advisories = shapes[0], grown.text(shapes[1], count)
    given = grown.text(lock, {grown.events: 0, grown.everywhere: 1}.get(shapes[1], count))
    with open("advisories.json", "w", encoding="utf-8") as file:
        file.write(advisories)
    return instructions(["--advisories", "advisories.json", *words], given)[0], len(given) + len(advisories)


def of_exceptions(_, count, words):
    """Of one package, with an exception for each advisory."""
    exceptions = grown.excepting(count)
    with open("exceptions.toml", "w", encoding="utf-8") as file:
        file.write(exceptions)
    found, read = of_advisories((grown.unversioned, grown.everywhere), count, ["--exceptions", "exceptions.toml", *words])
    return found, read + len(exceptions)


def of_folders(_, count, words):
    """Workspaces on disk, in folders of four parts each."""
    top = f"disk-{count}"
    for i in range(1, count + 1):
        folder = f"{top}/a/b/c/p{i:06}"
        os.makedirs(folder)
        with open(f"{folder}/package.json", "w", encoding="utf-8") as file:
            file.write("{}\n")
    with open(f"{top}/package.json", "w", encoding="utf-8") as file:
        file.write('{"workspaces": ["a/**", "a/b/c/*", "a/b/**"]}\n')
    return instructions(["--manifest", f"{top}/package.json", *words], '{"lockfileVersion": 3, "packages": {"": {}}}')[0], count


def of_registry(shape, count, words):
    """A manifest and documents on disk, and how many packages the tree has."""
    root, documents = shape(count)
    mirror = f"mirror-{count}"
    for name, document in documents.items():
        os.makedirs(os.path.dirname(f"{mirror}/{name}"), exist_ok=True)
        with open(f"{mirror}/{name}.json", "w", encoding="utf-8") as file:
            json.dump(document, file)
    found, written = instructions(["--manifest", "-", "--packuments", mirror, *words], json.dumps(root), "npm_resolve")
    assert written, "no tree"
    return found, count


GROWTH = [
    ("deep folders, path", 1000, of_lock, grown.path),
    ("deep folders, modules", 130, of_lock, grown.modules),
    ("deep folders, nested", 130, of_lock, grown.nested),
    ("names of two parts, asked for from a deep folder", 1000, of_lock, grown.slashed),
    ("a long pattern beside a long folder", 1000, of_lock, grown.pattern),
    ("long folders beside a long pattern", 20, of_lock, grown.long),
    ("many dependencies", 2000, of_lock, grown.wide),
    ("many links", 2000, of_lock, grown.links),
    ("many workspaces", 2000, of_lock, grown.workspaces),
    ("many patterns with stars", 2000, of_lock, grown.stars),
    ("many workspaces on disk", 1000, of_folders, None),
    ("many packages of one name", 2000, of_lock, grown.copies),
    ("one name along a chain of folders", 130, of_lock, grown.chain),
    ("one name beside each folder of a chain", 130, of_lock, grown.beside),
    ("twenty names in many folders, asked for from deep ones", 200, of_lock, grown.crowded),
    ("one name many times above many problems, for GitHub", 2000, of_lines, grown.repeated, "--format", "github"),
    ("many problems of a package in a deep folder, for GitHub", 200, of_lines, grown.asked, "--format", "github"),
    ("many problems of a package in a deep folder, as a log", 200, of_lines, grown.asked, "--format", "sarif"),
    ("advisories that hit no copy", 2000, of_advisories, (grown.copies, grown.sparing)),
    ("advisories that hit one copy each", 2000, of_advisories, (grown.versions, grown.striking)),
    ("advisories beside copies without a version", 2000, of_advisories, (grown.unversioned, grown.sparing)),
    ("advisories, each of them excepted", 1600, of_exceptions, None),
    ("advisories", 2000, of_advisories, (grown.tree, grown.tree_advisories)),
    ("events of one OSV range", 2000, of_advisories, (grown.hit, grown.events)),
    ("packages of a tree of folders", 500, of_registry, grown.registry, "--format", "lock"),
    ("askers of a package that is hit", 2000, of_advisories, (grown.hit, grown.one_advisory)),
]


@pytest.mark.parametrize("count, measure, shape, words", [(*row[1:4], row[4:]) for row in GROWTH], ids=[row[0] for row in GROWTH])
def test_grows_as_its_input(count, measure, shape, words, tmp_path, monkeypatch):
    monkeypatch.chdir(tmp_path)
    one, other = measure(shape, count, list(words)), measure(shape, 2 * count, list(words))
    assert 10 * other[0] * one[1] <= 11 * one[0] * other[1], f"{one} and {other} instructions, and bytes or folders"
