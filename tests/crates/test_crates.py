"""The tests of each crate, and the stored run of each program that users run, by `rt try`: nothing is proved. The gate proves and runs them by
`rt ci`, and those of the programs for tests too, which rows ask here."""
import os
import re

import pytest

from support import programs, rows
import files

crates = programs.crates
TESTED = {name: sum(files.read(path).count("#[test]") for path in files.sources(name)) for name in crates.listed()}


def size(name):
    return sum(os.path.getsize(os.path.join(programs.ROOT, path)) for it in crates.below(name) for path in files.sources(it))


def tried(*given):
    if not crates.toolchain():
        pytest.skip("rt, the command of the Rattle toolchain, is not in PATH")
    return programs.tried(*given)


@pytest.mark.parametrize("crate", sorted(filter(TESTED.get, TESTED), key=size, reverse=True))
def test_the_tests_of_a_crate(crate):
    status, output, error = tried(crate, ["--test"])
    told = re.findall(r"^test (\S+) \.\.\. (\w+)", output + error, re.M)
    assert status == 0 and [name for name, said in told if said != "ok"] == [] and len(dict(told)) >= TESTED[crate], (output + error)[-3000:]


@pytest.mark.parametrize("crate", sorted(crates.programs().values(), key=size, reverse=True))
def test_the_stored_run_of_a_program(crate):
    def stored(name):
        return files.read(path) if os.path.isfile(os.path.join(programs.ROOT, path := f"crates/{crate}/{name}")) else ""

    data = [path.split("/", 3)[3] for path in files.below(f"crates/{crate}/data")]
    words = [word for name in data for word in ("--data", f"{name}=data/{name}")] + crates.arguments(crate)
    status, output, error = tried(crate, words, stored("stdin").encode())
    wrong = rows.beside("standard output", stored("stdout"), output) + rows.beside("status", str(int(stored("status") or 0)), str(status))
    assert wrong == [] and re.search(r"^run=ended status=", error, re.M), "\n".join([*wrong, error[-1500:]])
