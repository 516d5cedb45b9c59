"""The lock files of trees, of `npm_resolve --format lock`, beside npm itself.

Sets of packages are made, whose versions depend on each other in every group, and manifests that ask for a few of a set; every other one has
a workspace. `npm ci` finds nothing in the lock file that it would have to ask a registry for, and `npm ls` finds no dependency that is missing
or not met.
"""
import itertools
import json
import os
import random

from support import made as making, programs, registry
from test_flat_locks import manifest, packages
from tree_projects import resolved, written

LOCKS = 12
NAMES = [f"{letter}0" for letter in "abcdefgh"]
COMMANDS = [["ci", "--dry-run", "--offline"], ["ls", "--all", "--package-lock-only"]]  # What npm does with each lock file in turn.
NOWHERE = "http://127.0.0.1:9"


def with_tarballs(name, document):
    """A document whose versions have tarballs: to npm a tag is met only by a package with one."""
    for version, made in document["versions"].items():
        made["dist"] = {"tarball": f"{NOWHERE}/{name}/-/{name}-{version}.tgz"}
    return document


def project(r, folder, has_workspace):
    """Writes the manifests and the documents of a project, and returns the paths of its manifests."""
    documents = {name: with_tarballs(name, document) for name, document in packages(r, NAMES).items()}
    root, paths = manifest(r, NAMES), ["package.json"]
    if has_workspace:
        root["workspaces"], paths = ["packages/*"], [*paths, "packages/w/package.json"]
        os.makedirs(os.path.join(folder, "packages", "w"))
        registry.put(os.path.join(folder, paths[1]), {**manifest(r, NAMES), "name": "w", "overrides": {}})
    written(folder, root, documents)
    return paths


def locked(r, folder, has_workspace):
    """The lock file that the program writes for a project, or None if it has no tree."""
    paths = project(r, folder, has_workspace)
    done = resolved(folder, paths)
    if done.returncode == 1:
        return None
    assert done.returncode == 0, f"{folder}: status {done.returncode}: {done.stderr}"
    with open(os.path.join(folder, "package-lock.json"), "w", encoding="utf-8") as out:
        out.write(done.stdout)
    return json.loads(done.stdout)


def test_are_accepted(record_property, tmp_path):
    programs.built("npm_resolve")
    r, room = random.Random(17 + making.SEED), str(tmp_path)
    open(os.path.join(room, "npmrc"), "w").close()
    count = LOCKS * making.TIMES
    made = ((folder, locked(r, folder, at % 2 == 1)) for at in range(4 * count) for folder in [os.path.join(room, str(at))])
    found = dict(itertools.islice((one for one in made if one[1]), count))
    assert len(found) == count, f"{len(found)} lock files would say little"
    assert any(place.count("node_modules/") > 1 for lock in found.values() for place in lock["packages"]), "no package is inside another"
    ran = registry.npm(room, NOWHERE, [(folder, words) for folder in found for words in COMMANDS])
    told = zip([(folder, words) for folder in found for words in COMMANDS], ran)
    wrong = [f"{folder}: npm {' '.join(words)}: {said}" for (folder, words), (status, said) in told if status != 0]
    assert not wrong, "\n".join(wrong)
    record_property("made", len(found))
