"""The lock files of `npm_resolve --flat --format lock` beside npm itself, over a registry on this machine.

Sets of packages are made, whose versions depend on each other in every group, and manifests that ask for a few of a set. Of each lock
file that the program writes, npm_lock_check finds nothing; `npm ci` installs it, with the versions that it says; `npm ls` finds nothing
wrong with what is installed; and npm keeps what the file says when it writes it anew, each mark of a package too. A third of the
manifests have `overrides`, for packages that the root itself does not ask for: npm refuses others.
"""
# The marks of a package in a lock file are those of the ways to it. npm's one walk can leave a mark that no longer holds, where a package is
# reached in several ways.
import itertools
import json
import os
import random
import subprocess
import urllib.request

from support import made as making, programs, registry

SETS, LOCKS = 5, 12  # Sets of packages, and lock files for manifests of each.
VERSIONS = ["1.0.0", "1.1.0", "2.0.0"]
RANGES = ["*", "*", "^1", ">=1", "1 || 2", "latest"]
COMMANDS = [["ci"], ["ls", "--all"], ["install", "--package-lock-only"]]  # What npm does with each lock file in turn.


def group(r, names, most):
    return {name: r.choice(RANGES) for name in r.sample(names, min(len(names), r.randint(0, most)))}


def version(r, names, at):
    """A version of the package at this place, which depends on packages before it, and has one behind it as a peer."""
    before, manifest = names[:at], {}
    for kind, often in (("dependencies", .7), ("optionalDependencies", .3)):
        if r.random() < often:
            manifest[kind] = group(r, before, 2)
    if r.random() < .3 and names[at + 1:]:
        peer = r.choice(names[at + 1:])
        manifest["peerDependencies"] = {peer: "*"}
        if r.random() < .5:
            manifest["peerDependenciesMeta"] = {peer: {"optional": True}}
    if r.random() < .3:
        manifest |= {"engines": {"node": ">=4"}, "license": "MIT", "os": ["linux", "darwin"], "cpu": ["x64", "arm64"]}
    if r.random() < .2:
        manifest |= {"bin": {"run": "run.js"}, "scripts": {"postinstall": "true"}, "deprecated": "old"}
    return {kind: value for kind, value in manifest.items() if value != {}}


def packages(r, names):
    return {name: {"dist-tags": {"latest": r.choice(VERSIONS)}, "versions": {one: version(r, names, at) for one in VERSIONS}}
            for at, name in enumerate(names)}


def manifest(r, names):
    mixed, made = r.sample(names, len(names)), {"name": "project", "version": "1.0.0", "license": "MIT"}
    for at, kind in enumerate(("dependencies", "devDependencies", "optionalDependencies")):
        made[kind] = {name: r.choice(RANGES) for name in mixed[2 * at:2 * at + 2] if r.random() < .7}
    if r.random() < .3:
        made["dependencies"]["alias"] = f"npm:{r.choice(names)}@*"
    if r.random() < .34:
        made["overrides"] = {name: r.choice([*RANGES, "1.0.0", "2.0.0"]) for name in mixed[6:]}
    return {kind: value for kind, value in made.items() if value != {}}


def mirror(room, names, address):
    """Saves the document of each package as the registry serves it."""
    os.mkdir(os.path.join(room, "mirror"))
    for name in names:
        with urllib.request.urlopen(f"{address}/{name}") as answer:
            registry.put(os.path.join(room, "mirror", f"{name}.json"), json.load(answer))


def installed(folder, lock):
    """What is wrong with the packages that npm installed, or None."""
    for place, member in lock["packages"].items():
        if place and registry.read(os.path.join(folder, place, "package.json"))["version"] != member["version"]:
            return f"{place} is another version"
    return None


def said(lock):
    """A lock file, without the dependencies that a package has as optional ones too: npm leaves them out of `dependencies`."""
    for member in lock["packages"].values():
        for name in member.get("optionalDependencies", {}):
            member.get("dependencies", {}).pop(name, None)
        if member.get("dependencies") == {}:
            del member["dependencies"]
    return lock


def locked(folder, one):
    """The lock file that the program writes for a manifest, or None if no versions fit together."""
    os.mkdir(folder)
    registry.put(os.path.join(folder, "package.json"), one)
    words = [programs.built("npm_resolve"), "--flat", "--format", "lock", "--manifest", "package.json", "--packuments", "../mirror"]
    done = subprocess.run(words, cwd=folder, stdin=subprocess.DEVNULL, capture_output=True, encoding="utf-8")
    if done.returncode == 1 and done.stdout.startswith("Th"):
        return None
    assert done.returncode == 0 and not done.stderr, f"{json.dumps(one)}: status {done.returncode}: {done.stderr}"
    with open(os.path.join(folder, "package-lock.json"), "w", encoding="utf-8") as out:
        out.write(done.stdout)
    words = [programs.built("npm_lock_check"), "--manifest", "package.json", "package-lock.json"]
    checked = subprocess.run(words, cwd=folder, capture_output=True, encoding="utf-8")
    assert checked.returncode == 0 and not checked.stdout, f"{json.dumps(one)}: npm_lock_check: {checked.stdout}{checked.stderr}"
    return json.loads(done.stdout)


def locks(r, room, names):
    """Lock files for manifests of a set, by their folders. At most as many manifests again have none."""
    folders = [os.path.join(room, f"{names[0]}-{at}") for at in range(2 * LOCKS)]
    made = ((folder, locked(folder, manifest(r, names))) for folder in folders)
    found = dict(itertools.islice((it for it in made if it[1]), LOCKS))
    assert len(found) == LOCKS, f"{len(found)} lock files would say little"
    return found


def fault(folder, lock, ran):
    """What is wrong with what npm does with a lock file, or None."""
    for words, (status, told) in zip(COMMANDS, ran):
        if status != 0:
            return f"npm {' '.join(words)}: {told}"
    kept = registry.read(os.path.join(folder, "package-lock.json"))
    return installed(folder, lock) or (None if kept == said(lock) else f"npm writes another file: {json.dumps(kept)}")


def test_are_checked_installed_and_kept(record_property, tmp_path):
    programs.built("npm_resolve")  # (where it is not, no registry need be served)
    r, room = random.Random(11 + making.SEED), str(tmp_path)
    sets = [[f"{letter}{at}" for letter in "abcdefgh"] for at in range(SETS * making.TIMES)]
    with registry.served(room, {name: one for names in sets for name, one in packages(r, names).items()}) as address:
        mirror(room, itertools.chain(*sets), address)
        found = {folder: lock for names in sets for folder, lock in locks(r, room, names).items()}
        ran = registry.npm(room, address, [(folder, words) for folder in found for words in COMMANDS])
    faults = {folder: fault(folder, lock, ran[at * len(COMMANDS):]) for at, (folder, lock) in enumerate(found.items())}
    wrong = [f"{json.dumps(registry.read(os.path.join(folder, 'package.json')))}: {told}" for folder, told in faults.items() if told]
    assert not wrong, "\n".join(wrong)
    record_property("made", len(found))
