"""The program npm_resolve beside npm itself, over a registry on this machine.

Sets of packages are made, whose versions have each other as peers, and manifests that ask for a few of a set. Where the program selects
versions, `npm install --strict-peer-deps` of these very versions must succeed; where it says that none fit together, npm must stop with
ERESOLVE for the manifest. Each spec has a version, so nothing else is wrong with a manifest. A third of the manifests have `overrides`,
for packages that the root itself does not ask for: npm refuses others, unless both have the same spec.
"""
import json
import os
import random
import subprocess

from support import made as making, programs, registry

SETS, MANIFESTS = 10, 20  # Sets of packages, and manifests of each.
CORES = ["1.0.0", "1.1.0", "2.0.0", "2.1.0", "3.0.0"]
INSTALL = ["install", "--package-lock-only", "--strict-peer-deps"]


def plugin(r, core, before):
    """The document of a plugin: each of its versions has the core as a peer, and perhaps one of the plugins before it."""
    versions = {}
    for major in (1, 2, 3):
        peers = {core: r.choice([f"^{major}", f"^{major}", f"^{major} || ^{max(1, major - 1)}", f">={major}"])}
        meta = {}
        if before and r.random() < 0.6:
            other = r.choice(before)
            peers[other] = f"^{r.randint(1, major)}"
            if r.random() < 0.4:
                meta[other] = {"optional": True}
        versions[f"{major}.0.0"] = {"peerDependencies": peers, "peerDependenciesMeta": meta}
    return {"dist-tags": {"latest": "3.0.0"}, "versions": versions}


def packages(r, core, plugins):
    """The documents of a set."""
    return {core: {"dist-tags": {"latest": "3.0.0"}, "versions": {version: {} for version in CORES}},
            **{name: plugin(r, core, plugins[:at]) for at, name in enumerate(plugins)}}


def manifest(r, core, plugins):
    wanted = {core: r.choice(["*", "^1", "^2", "^3", "<3"])} if r.random() < 0.7 else {}
    for name in r.sample(plugins, r.randint(2, 4)):
        wanted[name] = r.choice(["*", "^1", "^2", "^3", ">=2", "<3"])
    made = {"name": "project", "version": "1.0.0", "dependencies": wanted}
    if r.random() < .34:
        made["overrides"] = {name: r.choice(["^1", "^2", "^3", "1.0.0", "2.0.0"]) for name in [core, *plugins] if name not in wanted}
    return made


def with_versions(manifest, versions):
    """The manifest with these versions alone, for which npm must find nothing to change."""
    rules = {name: versions.get(name, spec) for name, spec in manifest.get("overrides", {}).items()}
    return {**manifest, "dependencies": versions, "overrides": rules}


def selected(room, manifest, notes=""):
    """The versions that the program selects, or None if none fit together."""
    registry.put(os.path.join(room, "package.json"), manifest)
    words = [programs.built("npm_resolve"), "--peers", "--manifest", "package.json", "--packuments", "mirror", "--format", "json"]
    done = subprocess.run(words, cwd=room, stdin=subprocess.DEVNULL, capture_output=True, encoding="utf-8")
    assert done.returncode in (0, 1) and done.stderr == notes, f"{json.dumps(manifest)}: status {done.returncode}: {done.stderr}"
    said = json.loads(done.stdout)
    return {one["name"]: one["version"] for one in said["packages"]} if said["outcome"] == "selected" else None


def commands(room, manifests, found):
    """The commands of npm: an install of each selection, and of each manifest that has none."""
    for at, (one, pinned) in enumerate(zip(manifests, found)):
        folder = os.path.join(room, str(at))
        os.mkdir(folder)
        registry.put(os.path.join(folder, "package.json"), one if pinned is None else with_versions(one, pinned))
        yield folder, INSTALL


def fault(pinned, status, told):
    """What is wrong with what npm does, or None."""
    if pinned is None:
        return None if status and "ERESOLVE" in told else f"npm ends with status {status}: {told}"
    return None if status == 0 else f"npm refuses {pinned}: {told}"


def test_fits_where_npm_installs(record_property, tmp_path):
    r, room = random.Random(5 + making.SEED), str(tmp_path)
    names = [(f"core{at}", [f"{letter}{at}" for letter in "abcde"]) for at in range(SETS * making.TIMES)]
    documents = {name: document for core, plugins in names for name, document in packages(r, core, plugins).items()}
    manifests = [manifest(r, core, plugins) for core, plugins in names for _ in range(MANIFESTS)]
    os.mkdir(os.path.join(room, "mirror"))
    for name, document in documents.items():
        registry.put(os.path.join(room, "mirror", f"{name}.json"), document)
    found = [selected(room, one) for one in manifests]
    with registry.served(room, documents) as address:
        installed = registry.npm(room, address, list(commands(room, manifests, found)))
    faults = [fault(pinned, *one) for pinned, one in zip(found, installed)]
    wrong = [f"{json.dumps(one)}: {said}" for one, said in zip(manifests, faults) if said]
    assert not wrong, "\n".join(wrong)
    # Few of either kind would compare little.
    fits = sum(pinned is not None for pinned in found)
    assert len(found) // 4 <= fits <= len(found) - len(found) // 4
    record_property("made", len(found))


# ---- optional dependencies that cannot be installed

DOCUMENTS = {
    "core": {"dist-tags": {"latest": "2.0.0"}, "versions": {"1.0.0": {}, "2.0.0": {}}},
    "plugin": {"dist-tags": {"latest": "1.0.0"}, "versions": {"1.0.0": {"peerDependencies": {"core": "1"}}}},
}
NOTE = "npm_resolve: optional, and no version fits: {}\n"
OPTIONS = [
    ({"dependencies": {"core": "1"}, "optionalDependencies": {"gone": "1"}}, "gone"),
    ({"dependencies": {"core": "1"}, "optionalDependencies": {"plugin": "9"}}, "plugin"),
    ({"dependencies": {"gone": "1"}, "optionalDependencies": {"gone": "1"}}, "gone"),
    ({"peerDependencies": {"gone": "1"}, "optionalDependencies": {"gone": "1"}}, "gone"),
    ({"devDependencies": {"gone": "1"}, "optionalDependencies": {"gone": "1"}}, None),
    ({"dependencies": {"plugin": "1"}, "optionalDependencies": {"core": "9"}}, "core"),
    ({"dependencies": {"plugin": "1"}, "optionalDependencies": {"core": "2"}}, None),
]


def locked(folder):
    """The versions in the lock file that npm wrote, by name."""
    packages = registry.read(os.path.join(folder, "package-lock.json"))["packages"]
    return {place[len("node_modules/"):]: one["version"] for place, one in packages.items() if place}


def test_leaves_out_the_options_that_npm_leaves_out(tmp_path):
    room, folders = str(tmp_path), []
    os.mkdir(os.path.join(room, "mirror"))
    for name, document in DOCUMENTS.items():
        registry.put(os.path.join(room, "mirror", f"{name}.json"), document)
    found = [selected(room, one, NOTE.format(name) if name else "") for one, name in OPTIONS]
    for at, (one, _) in enumerate(OPTIONS):
        folders.append(os.path.join(room, str(at)))
        os.mkdir(folders[-1])
        registry.put(os.path.join(folders[-1], "package.json"), {"name": "project", "version": "1.0.0", **one})
    with registry.served(room, DOCUMENTS) as address:
        installed = registry.npm(room, address, [(folder, INSTALL) for folder in folders])
    assert found == [locked(folder) if status == 0 else None for folder, (status, _) in zip(folders, installed)]
    assert None in found and {} in found and {"core": "1.0.0"} in found
