#!/usr/bin/env python3
"""What crates.txt says, and what was built of the sources as they stand: beside a built file NAME stands NAME.sources, with the sum of the
toolchain's name and of all sources, and that of the file itself. Sums are of contents, since time stamps say little.

    crates.py CRATE..    prints these crates and those of this repository below them, a line each
"""
import functools
import hashlib
import os
import re
import subprocess
import sys

import files

ROOT = files.ROOT
TOOLS = os.path.join(ROOT, "tools")
CRATES = os.path.join(ROOT, "crates")


@functools.cache
def listed():
    """Each crate with what it uses, and whether it is a static library."""
    lines = re.findall(r"^(\w+)( staticlib)?:(.*)$", files.read("crates.txt"), re.M)
    return {name: (uses.split(), bool(static)) for name, static, uses in lines}


def exports():
    return [name for name, (_, is_export) in listed().items() if is_export]


def below(*names):
    """These crates and those of this repository below them."""
    given, found, rest = listed(), set(), list(names)
    while rest:
        name = rest.pop()
        if name in given and name not in found:
            found.add(name)
            rest += given[name][0]
    return sorted(found)


def is_program(name):
    return os.path.isfile(os.path.join(CRATES, name, "src", "main.rt"))


@functools.cache
def programs():
    """The crate of each program by the name that users type, which is the crate's without `_command`. Programs for tests are none."""
    return {name.removesuffix("_command"): name for name in listed() if is_program(name) and not name.endswith("_answers")}


@functools.cache
def toolchain():
    """The name of the toolchain of Rattle, or nothing where there is none."""
    try:
        return subprocess.run(["rt", "version"], stdout=subprocess.PIPE, text=True).stdout.strip()
    except OSError:
        return ""


@functools.cache
def sum_of_content(path, *_):
    with open(path, "rb") as file:
        return hashlib.sha256(file.read()).hexdigest()


def sum_of_file(path):
    """The sum of a file, which is read again where its time or its length is another."""
    at = os.stat(path)
    return sum_of_content(path, at.st_mtime_ns, at.st_size, at.st_ino)


def sum_of_sources(name):
    """The sum of all that a crate and those below it are made of. Pages are no sources."""
    every = below(name)
    paths = [path for path in files.below(*(f"crates/{it}" for it in every)) if not path.endswith(".md")]
    found = [(path, sum_of_file(os.path.join(ROOT, path))) for path in sorted(paths)]
    return hashlib.sha256(repr((toolchain(), [(it, listed()[it]) for it in every], found)).encode()).hexdigest()


def built_file(name):
    return os.path.join(CRATES, name, "out", name if is_program(name) else f"lib{name}.a")


def library(name):
    """The file that stands for the folder of a library for the crates above it."""
    return os.path.join(CRATES, name, "out", "rlib", f"{name}.rlib", "format")


def noted(path):
    """Where the sums of a built file stand; those of a library that is a folder stand beside it."""
    return f"{path.removesuffix('/format')}.sources"


def is_built(name, path=None):
    """Whether a file of a crate, or else what it is built for, was built of the sources as they stand."""
    path = path or built_file(name)
    try:
        with open(noted(path), encoding="utf-8") as file:
            return file.read().split() == [sum_of_sources(name), sum_of_file(path)]
    except OSError:
        return False


def note(before, name, path):
    """Keeps of what sources a file was built, if they are still those."""
    if os.path.isfile(path) and sum_of_sources(name) == before:
        files.write(noted(path), f"{before}\n{sum_of_file(path)}\n")


def arguments(name):
    """The words that a program gets in its stored run, whose file `args` has a line each."""
    return ["--", *files.lines(f"crates/{name}/args")] if os.path.isfile(os.path.join(CRATES, name, "args")) else []


def build(name):
    """Proves and builds a program, or a library for other languages."""
    if not is_program(name):
        subprocess.run([os.path.join(TOOLS, "library"), name], check=True)
        return
    before, path = sum_of_sources(name), built_file(name)
    with open(os.path.join(CRATES, name, "stdin"), encoding="utf-8") as given:
        ran = subprocess.run(["rt", "run", *arguments(name)], cwd=os.path.join(CRATES, name), stdin=given, capture_output=True, text=True)
    if not os.path.isfile(path):
        sys.exit(f"{ran.stdout[-2000:]}{ran.stderr[-2000:]}\n{name} was not built")
    note(before, name, path)


if __name__ == "__main__":
    print("\n".join(below(*sys.argv[1:])))
