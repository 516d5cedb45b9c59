"""The trees of `npm_resolve` beside npm's own, of made projects with peers, optional dependencies, aliases, overrides and workspaces, and of npm.

npm finds nothing wrong with a lock file of the program. Where both make a tree without peers, the trees have the same versions of packages.
Where there are peers, npm and the program may take other versions for them and what needs them: of 100 trees at least 85 have the same.
"""
import json
import os
import random
import subprocess

import pytest

from support import made as making, registry
from tree_projects import documents_of_npm, project, resolved, written

PROJECTS, PARTS = 300, 4  # Projects in all, and tests that share them.
HERE = os.path.dirname(os.path.abspath(__file__))


def lock_of(folder, paths):
    """The lock file that the program writes, or None where it has no tree."""
    done = resolved(folder, paths, "--node", "20.20.2")
    assert done.returncode in (0, 1, 2), f"{folder}: status {done.returncode}: {done.stderr}"
    return json.loads(done.stdout) if done.returncode == 0 else None


def versions_of(lock):
    found = set()
    for place, one in lock["packages"].items():
        if place.rpartition("node_modules/")[1] and not one.get("link"):
            found.add(f"{one.get('name', place.rpartition('node_modules/')[2])}@{one['version']}")
    return sorted(found)


def has_odd_rules(root):
    """True if rules of `overrides` are for a range or inside others, or if there are workspaces too: there npm and `docs/DIFFERENCES.md` part."""
    rules = root.get("overrides", {})
    return bool(rules) and ("workspaces" in root or any("@" in key or isinstance(rule, dict) for key, rule in rules.items()))


def has_peers(project, versions):
    """True if one of these packages, as `a@1.0.0`, has a peer."""
    manifests = [project["documents"][name]["versions"][version] for name, version in (one.split("@") for one in versions)]
    return any(manifest.get("peerDependencies") for manifest in manifests)


def compared(projects, told):
    """For each project with two trees, without odd rules: whether they have peers, and whether they have the same versions."""
    for one, said in zip(projects, told):
        if one["lock"] and said["npm"]["outcome"] == "tree" and not has_odd_rules(one["root"]):
            versions = versions_of(one["lock"])
            yield has_peers(one, {*versions, *said["npm"]["versions"]}), versions == said["npm"]["versions"]


def asked(projects, room):
    """What npm says of each project."""
    registry.put(os.path.join(room, "projects.json"), projects)
    ran = registry.run(["node", os.path.join(HERE, "trees.js"), os.path.join(room, "projects.json")], room)
    told = [json.loads(line) for line in ran.stdout.splitlines()]
    assert ran.returncode == 0 and len(told) == len(projects), ran.stderr
    return told


@pytest.mark.parametrize("part", range(PARTS))
def test_are_as_npms(part, record_property, tmp_path):
    r, projects = random.Random(90 + part + PARTS * making.SEED), []
    for at in range(PROJECTS * making.TIMES // PARTS):
        folder = str(tmp_path / str(at))
        documents, paths, root = project(r, folder)
        projects.append({"folder": folder, "documents": documents, "lock": lock_of(folder, paths), "root": root})
    told = asked(projects, str(tmp_path))
    plain = [(one, said) for one, said in zip(projects, told) if not has_odd_rules(one["root"])]
    faults = [f"{one['folder']}: {fault}" for one, said in plain for fault in said.get("faults") or []]
    assert not faults, "\n".join(faults)
    alone = [one["folder"] for one, said in zip(projects, told) if not one["lock"] and said["npm"]["outcome"] == "tree"]
    assert 100 * len(alone) <= len(projects), f"npm alone has a tree: {alone}"
    found = list(compared(projects, told))
    assert len(found) >= len(projects) // 2, f"only {len(found)} have two trees"
    assert (False, False) not in found, "without peers, and other versions"
    assert 100 * found.count((True, False)) <= 15 * len(found), f"{found.count((True, False))} of {len(found)} have other versions"
    record_property("made", len(found))


def test_npms_own_packages_stand_where_npm_puts_them(record_property, tmp_path):
    top = os.path.join(subprocess.run(["npm", "root", "-g"], capture_output=True, encoding="utf-8").stdout.strip(), "npm")
    documents, manifest = documents_of_npm(top), registry.read(os.path.join(top, "package.json"))
    root = {"name": "npm", "version": manifest["version"], "dependencies": manifest["dependencies"]}
    written(str(tmp_path), root, documents)
    lock = lock_of(str(tmp_path), ["package.json"])
    [told] = asked([{"folder": str(tmp_path), "documents": documents, "lock": lock}], str(tmp_path))
    found = [f"{place} {one.get('name', place.rpartition('node_modules/')[2])}@{one['version']}" for place, one in lock["packages"].items() if place]
    assert told["faults"] == [] and sorted(found) == told["npm"]["places"]
    record_property("made", len(found))
