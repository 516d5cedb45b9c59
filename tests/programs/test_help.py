"""What `--help` says: each option that a program reads has a line, each example is a row of `help.rows`, which runs it, and each option is in
a command of a row."""
import functools
import os
import re
import subprocess

import pytest

from support import programs, rows
import files

crates = programs.crates
PROGRAMS = [name for name, crate in crates.programs().items() if os.path.isfile(os.path.join(programs.TESTS, "programs", name, "help.rows"))]
UNLISTED = {"-rev"}  # npm's help does not list it either.


def options(program):
    """The options that `clap` reads, or that an arm of a `match` of the program names, or that the definitions of the crates that it uses know."""
    crate = crates.programs()[program]
    sources = "".join(map(files.read, files.sources(crate)))
    if "clap" in crates.listed()[crate][0]:
        named = re.findall(r'\b(?:flag|option|path)\(\s*alloc,\s*"([a-z-]+)"', sources)
        return sorted({f"--{name}" for name in named} | {"--help", "--version", "-V", "-h"})
    known = re.findall(r'"(--?[a-zA-Z?][a-z-]*)"(?= (?:\||=>))', sources)
    known = known or re.findall(r'codes "(--?[a-zA-Z?][a-z-]*)"', "".join(map(files.read, files.matching(*(f"crates/{it}/specs/*.antt" for it in crates.listed()[crate][0])))))
    return sorted(set(known) - UNLISTED)


@functools.cache
def help_of(program):
    return subprocess.run([programs.built(program), "--help"], capture_output=True, encoding="utf-8", check=True).stdout


@pytest.mark.parametrize("program, option", [(program, option) for program in PROGRAMS for option in options(program)])
def test_has_a_line_for_each_option(program, option):
    listed = re.findall(r"^  (?:    )?(-.*?)(?:  |$)", help_of(program), re.M)
    assert option in {name for line in listed for name in re.findall(r"(?<![^ ])-[^ ,\[]+", line)}


@pytest.mark.parametrize("program", PROGRAMS)
def test_has_rows_of_the_same_examples(program):
    shown = set(re.findall(r"^ *Example: (.*)$", help_of(program), re.M)) - {f"{program} --help"}
    tried = {case.name for case in rows.read(os.path.join(programs.TESTS, "programs", program, "help.rows"))}
    assert shown and shown - tried == set()


@pytest.mark.parametrize("program", [name for name in PROGRAMS if name != "npm_lock_check"])
def test_has_a_row_with_each_option(program):
    folder = os.path.join(programs.TESTS, "programs", program)
    tried = "\n".join(line for name in sorted(os.listdir(folder)) for case in rows.read(os.path.join(folder, name)) for line in case.commands)
    assert [it for it in options(program) if not re.search(rf"(?<![\w-]){re.escape(it)}(?![\w-])", tried)] == []
