"""npm_lock_check on many packages, workspaces, advisories and lock files. What is wanted is written here for each of them."""
import json
import os
import subprocess

import pytest

from support import programs, rows

WORDS = rows.words("npm_lock_check")


@pytest.fixture(autouse=True)
def room(tmp_path, monkeypatch):
    programs.built("npm_lock_check")  # (where it is not, thousands of files need not be written)
    monkeypatch.chdir(tmp_path)


def put(path, value):
    with open(path, "w", encoding="utf-8") as file:
        json.dump(value, file)


def lock(packages):
    put("lock.json", {"lockfileVersion": 3, "packages": packages})


def check(words, status, output, error, command=("npm_lock_check",)):
    """Compares a run with lock.json as standard input with a status and the lines of both outputs."""
    with open(os.devnull if not os.path.isfile("lock.json") else "lock.json", encoding="utf-8") as given:
        ran = subprocess.run([*command, *words], stdin=given, capture_output=True, encoding="utf-8", env=programs.environment("npm_lock_check"))
    assert ran.stderr.splitlines() == error
    assert ran.stdout.splitlines() == output
    assert ran.returncode == status


def unmet(name, spec):
    return rows.said(f"{name} {{missing}} {spec}{{by the root}}", WORDS)


def test_100000_packages_of_version_1():
    packages = {f"p{i}": {"version": f"1.0.{i}", "requires": {f"p{i - 1}": "^1.0.0"}} for i in range(1, 100000)}
    put("lock.json", {"lockfileVersion": 1, "dependencies": {"p0": {"version": "1.0.0"}, **packages}})
    check([], 0, [], ["100001 packages, 99999 dependencies, 0 problems, 0 not checked"])


@pytest.fixture
def workspaces(room):
    """10,000 folders with a manifest of ten dependencies each."""
    asked = {f"d{i}": "^1" for i in range(10)}
    for i in range(10000):
        os.makedirs(f"many/p{i}")
        put(f"many/p{i}/package.json", {"version": "1.0.0", "dependencies": asked})
    return asked


def test_10000_workspaces(workspaces):
    """Each manifest is read and put in its place once."""
    put("many/package.json", {})
    packages = {"": {}, **{f"node_modules/d{i}": {"version": "1.2.0"} for i in range(10)}}
    for i in range(10000):
        packages[f"node_modules/p{i}"] = {"link": True, "resolved": f"p{i}"}
        packages[f"p{i}"] = {"version": "1.0.0", "dependencies": workspaces}
    lock(packages)
    check(["--manifest", "many/package.json"], 0, [], ["10011 packages, 100000 dependencies, 0 problems, 0 not checked, 0 mismatches"])


def test_10000_workspaces_that_were_added(workspaces):
    """The lock file has none of them, and two patterns find each."""
    put("many/package.json", {"workspaces": ["*", "**"]})
    lock({"": {}})
    check(["--manifest", "many/package.json", "--format", "text"], 1, sorted(unmet(f"p{i}", f"file:p{i}") for i in range(10000)),
          ["1 packages, 0 dependencies, 10000 problems, 0 not checked, 0 mismatches"])


def in_npms_form(pairs):
    made = {}
    for name, number in pairs:
        made.setdefault(name, []).append({"id": f"A-{number}", "severity": "low", "vulnerable_versions": "<=1.0.0"})
    return made


def in_osvs_form(pairs):
    ranges = [{"type": "SEMVER", "events": [{"introduced": "0"}, {"fixed": "1.0.1"}]}]
    return [{"id": f"A-{number}", "database_specific": {"severity": "LOW"}, "affected": [{"package": {"ecosystem": "npm", "name": name}, "ranges": ranges}]}
            for name, number in pairs]


@pytest.mark.parametrize("form", [in_npms_form, in_osvs_form])
def test_hundreds_of_hits(form):
    """250 packages that an advisory each hits, and one that 250 hit."""
    names = [*(f"n{number:03}" for number in range(250)), "z"]
    pairs = [*zip(names, range(250)), *(("z", number) for number in range(250))]
    lock({"": {"dependencies": {name: "*" for name in names}}, **{f"node_modules/{name}": {"version": "1.0.0"} for name in names}})
    put("advisories.json", form(pairs))
    hits = [{"admitted": "1.0.1", "advisories": [{"id": f"A-{number}", "severity": "low"} for of, number in pairs if of == name],
             "folder": f"node_modules/{name}", "least": "1.0.1", "name": name, "version": "1.0.0"} for name in names]
    check(["--advisories", "advisories.json"], 1, [json.dumps(hit, separators=(",", ":")) for hit in hits],
          ["252 packages, 251 dependencies, 0 problems, 0 not checked, 251 hit, 500 advisories read"])


MANY = sorted(f"p{i}" for i in range(2500))
MANY_COUNTS = ['"many.json": 1 packages, 2500 dependencies, 2500 problems, 0 not checked'] * 2


@pytest.fixture
def many(room):
    """A lock file of 2,500 problems, all on one line, and the column of each."""
    text = '{"lockfileVersion": 3, "packages": {"": {"dependencies": {' + ", ".join(f'"p{i}": "1"' for i in range(2500)) + "}}}}\n"
    with open("many.json", "w", encoding="utf-8") as file:
        file.write(text)
    return {name: text.index(f'"{name}"') + 1 for name in MANY}


def test_one_lock_file_twice(many):
    check(["--format", "text", "many.json", "many.json"], 1, [f"many.json: {unmet(name, 1)}" for name in MANY] * 2, MANY_COUNTS)


def test_a_log_of_5000_problems(many):
    check(["--format", "sarif", "many.json", "many.json"], 1, ["[True]", *[f"missing|error|many.json|1|{many[name]}|{unmet(name, 1)}" for name in MANY] * 2],
          MANY_COUNTS, ["as_log", "npm_lock_check"])


def hundred():
    """A hundred lock files with a problem each: their numbers, names and problems."""
    for i in range(100, 200):
        put(f"{i}.json", {"lockfileVersion": 3, "packages": {"": {"dependencies": {f"p{i}": "1"}}}})
    return [(i, f"{i}.json", unmet(f"p{i}", 1)) for i in range(100, 200)]


LINES = {
    "text": lambda i, file, says: f"{file}: {says}",
    "json": lambda i, file, says: f'{{"dev":false,"file":"{file}","from":"","name":"p{i}","optional":false,"peer":false,"problem":"missing","spec":"1"}}',
    "github": lambda i, file, says: f"::error file={file},line=1,col=59::{says}",
    "sarif": lambda i, file, says: f"missing|error|{file}|1|59|{says}",
}


@pytest.mark.parametrize("form", LINES)
def test_a_hundred_lock_files(form):
    made = hundred()
    lines = [LINES[form](*one) for one in made]
    command = ["npm_lock_check"]
    if form == "sarif":
        lines, command = ["[True]", *lines], ["as_log", *command]
    check(["--format", form, *(file for _, file, _ in made)], 1, lines,
          [f'"{file}": 1 packages, 1 dependencies, 1 problems, 0 not checked' for _, file, _ in made], command)


def test_a_hundred_lock_files_of_which_the_last_one_is_refused():
    *made, (_, last, _) = hundred()
    put(last, [])
    refused = f'npm_lock_check: "{last}": the input is no lock file that is read here: `lockfileVersion` is not 1, 2 or 3 (line 1, column 1)'
    check(["--format", "text", *(file for _, file, _ in made), last], 2, [LINES["text"](*one) for one in made],
          [*(f'"{file}": 1 packages, 1 dependencies, 1 problems, 0 not checked' for _, file, _ in made), refused])
