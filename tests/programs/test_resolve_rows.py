"""The rows of `resolve` of the packages for Node and Python, asked of the program npm_resolve: all three say the same."""
import json
import os
import re
import subprocess

import pytest

from support import programs

with open(os.path.join(programs.ROOT, "bindings", "node", "test", "resolve-rows.json"), encoding="utf-8") as file:
    SHARED = json.load(file)

# Options of the program, by the names of the rows.
VALUES = {"tag": "--tag", "before": "--before", "node": "--node", "steps": "--steps"}
FLAGS = {"flat": "--flat", "lowest": "--lowest"}
# A name that is also the name of a file. A document of another name cannot be in a folder, or is not read there.
NAME = re.compile(r"[a-z_][a-z0-9_-]*")


def documents_of(row):
    documents = row["documents"]
    return SHARED[documents] if isinstance(documents, str) else documents


def is_asked(row):
    """Whether the program can be asked the same. It reads each document from a file of its own, and its options are words."""
    documents = documents_of(row)
    return isinstance(documents, dict) and all(NAME.fullmatch(name) and isinstance(it, dict) for name, it in documents.items()) \
        and not row.get("error", "").endswith(" type")


def put(path, value):
    with open(path, "w", encoding="utf-8") as file:
        file.write(value if isinstance(value, str) else json.dumps(value))


def words_of(options):
    """The options as words of the program."""
    words = [word for name, option in VALUES.items() if name in options for word in (option, str(options[name]))]
    words += [option for name, option in FLAGS.items() if options.get(name)]
    words += [word for group in options.get("omit", []) for word in ("--omit", group)]
    if options.get("lock", "") != "":
        put("lock.json", options["lock"])
        words += ["--lock", "lock.json"]
    return [*words, "--format", "lock" if options.get("lockfile") else "json"]


def told(ran, is_lock):
    """The answer as a row has it. Without one the text for a person says why versions do not fit together."""
    if is_lock and ran.returncode == 0:
        return {"lockfile": ran.stdout}
    answer = json.loads(ran.stdout)
    if answer["outcome"] == "selected":
        return {"packages": [[one["name"], one["package"], one["version"]] for one in answer["packages"]]}
    if answer["outcome"] == "none":
        parts = ["name", "spec", "needed", "document", "would_fit"]
        return {"culprits": [[one[part] for part in parts] for one in answer["culprits"]]}
    return {answer["outcome"]: True}


def expected_of(row):
    expected = {name: row[name] for name in ("packages", "culprits", "undecided") if name in row}
    return {"lockfile": json.dumps(row["lockfile"], indent=2, ensure_ascii=False) + "\n"} if "lockfile" in row else expected


@pytest.mark.parametrize("row", [pytest.param(row, id=row["name"]) for row in SHARED["rows"] if is_asked(row)])
def test_says_the_same(row, tmp_path, monkeypatch):
    monkeypatch.chdir(tmp_path)
    os.mkdir("mirror")
    put("package.json", row["manifest"])
    for name, document in documents_of(row).items():
        put(f"mirror/{name}.json", document)
    words = [programs.built("npm_resolve"), "--peers", "--manifest", "package.json", "--packuments", "mirror", *words_of(row.get("options", {}))]
    ran = subprocess.run(words, stdin=subprocess.DEVNULL, capture_output=True, encoding="utf-8", env=programs.environment("npm_resolve"))
    if "error" in row:
        assert (ran.returncode, ran.stdout) == (2, "")
        assert row["error"].startswith("lock: ") <= ran.stderr.endswith(f': {row["error"].removeprefix("lock: ")}\n')
    elif "unread" in row:
        assert (ran.returncode, ran.stdout) == (2, "")
        assert re.findall(r"(?m)^npm_resolve: overrides are not read: (.*)$", ran.stderr) == row["unread"]
    elif ran.returncode in (1, 3) and ran.stdout[:1] != "{":
        assert ran.returncode == (3 if "undecided" in row else 1) and "lockfile" not in row and "packages" not in row
    else:
        assert told(ran, row.get("options", {}).get("lockfile", False)) == expected_of(row)
        assert ran.returncode == (0 if "packages" in row or "lockfile" in row else 3 if "undecided" in row else 1)
