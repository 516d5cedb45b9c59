"""Commands of npm in one process, as other tests here run them, beside npm itself: each ends with the same status, says the same, and
leaves the same files."""
import os

from support import registry

PACKAGES = {"core": {"dist-tags": {"latest": "2.0.0"}, "versions": {"1.0.0": {}, "2.0.0": {}}},
            "plugin": {"dist-tags": {"latest": "1.0.0"}, "versions": {"1.0.0": {"peerDependencies": {"core": "^1"}}}}}
PROJECTS = {"fits": {"core": "^1", "plugin": "*"}, "apart": {"core": "^2", "plugin": "*"}}

# A project, a command, its status, and a word of what npm says. Each begins with what those before it have left.
COMMANDS = [
    ("fits", "install --package-lock-only --strict-peer-deps", 0, ""),
    ("apart", "install --package-lock-only --strict-peer-deps", 1, "ERESOLVE"),
    ("fits", "ci", 0, ""),
    ("fits", "ls --all", 0, ""),
    ("fits", "pkg set dependencies.core=^2", 0, ""),
    ("fits", "ls --all", 1, "invalid: core@1.0.0"),
    ("fits", "ci", 1, "ERESOLVE"),
]


def files(folder):
    """The text of each file below a folder."""
    found = {}
    for at, _, names in os.walk(folder):
        for name in names:
            with open(os.path.join(at, name), encoding="utf-8") as file:
                found[os.path.relpath(os.path.join(at, name), folder)] = file.read()
    return found


def plain(said, folder):
    """What npm says, without its folder and the names of its logs."""
    return [line.replace(folder, "") for line in said.splitlines() if "Log files" not in line and "-eresolve-report" not in line]


def ran(run, room, top, address):
    """What each command gives in projects of their own, and the files that they leave."""
    for name, wanted in PROJECTS.items():
        os.makedirs(os.path.join(top, name))
        registry.put(os.path.join(top, name, "package.json"), {"name": name, "version": "1.0.0", "dependencies": wanted})
    said = run(room, address, [(os.path.join(top, project), command.split()) for project, command, _, _ in COMMANDS])
    return [(status, plain(text, top)) for status, text in said], files(top)


def faults(own, together):
    """What is wrong with a command, by npm itself or in one process."""
    for (project, command, status, word), one, other in zip(COMMANDS, own, together):
        if one[0] != status or word not in "\n".join(one[1]):
            yield f"{project}: npm {command}: wanted: {status} {word}, got: {one}"
        if other != one:
            yield f"{project}: npm {command}: by itself: {one}, in one process: {other}"


def test_end_say_and_do_as_npm_itself(tmp_path):
    room = str(tmp_path)
    with registry.served(room, PACKAGES) as address:
        own, kept = ran(registry.npm_itself, room, os.path.join(room, "itself"), address)
        together, others = ran(registry.npm, room, os.path.join(room, "together"), address)
    wrong = list(faults(own, together))
    assert not wrong, "\n".join(wrong)
    assert "fits/node_modules/core/package.json" in kept and others == kept
