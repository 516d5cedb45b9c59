"""A registry on this machine, and npm over it."""
import contextlib
import json
import os
import subprocess

from support import programs

SERVER = os.path.join(programs.TESTS, "support", "registry.js")
COMMANDS = os.path.join(programs.TESTS, "npm", "commands.js")


def put(path, value):
    with open(path, "w", encoding="utf-8") as out:
        json.dump(value, out)


def read(path):
    with open(path, encoding="utf-8") as file:
        return json.load(file)


def with_options(room, address, words):
    """The words of a command of npm, with those that each has."""
    return [*words, "--no-audit", "--no-fund", "--ignore-scripts", "--no-update-notifier", "--logs-max=0", f"--registry={address}",
            f"--cache={room}/cache", f"--userconfig={room}/npmrc"]


def run(words, folder, given=""):
    return subprocess.run(words, cwd=folder, env=programs.environment(), input=given, capture_output=True, encoding="utf-8")


def npm_itself(room, address, commands):
    """The status of each command of npm, a folder and its words, and what it says. Each runs by itself."""
    ran = [run(["npm", *with_options(room, address, words)], folder) for folder, words in commands]
    return [(done.returncode, done.stderr) for done in ran]


def npm(room, address, commands):
    """The same by npm's own code in one process, which takes a tenth of the time."""
    lines = [{"folder": folder, "words": with_options(room, address, words)} for folder, words in commands]
    done = run(["node", COMMANDS], room, "".join(f"{json.dumps(line)}\n" for line in lines))
    found = [json.loads(line) for line in done.stdout.splitlines()]
    assert done.returncode == 0 and len(found) == len(lines), f"npm ended after {len(found)} of {len(lines)} commands: {done.stderr}"
    return [(one["status"], one["said"]) for one in found]


@contextlib.contextmanager
def served(room, packages=None):
    """The address of a registry that has these packages, or those that `registry.js` names. It listens inside `with`."""
    given = os.path.join(room, "packages.json")
    if packages:
        put(given, packages)
    open(os.path.join(room, "npmrc"), "w").close()
    with subprocess.Popen(["node", SERVER, *([given] if packages else [])], stdout=subprocess.PIPE, text=True) as process:
        try:
            yield process.stdout.readline().strip()
        finally:
            process.terminate()
