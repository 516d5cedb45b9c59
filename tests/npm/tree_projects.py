"""Projects for the tests of trees: made ones, with peers, optional dependencies, aliases, overrides and workspaces, and npm itself."""
import base64
import hashlib
import os
import subprocess

from support import programs, registry

VERSIONS = ["0.1.0", "0.2.0", "1.0.0", "1.0.1", "1.2.0", "2.0.0-rc.1", "2.0.0", "2.1.0", "3.0.0"]
WANTED = ("dependencies", "devDependencies", "optionalDependencies", "peerDependencies")
KEPT = {"name", "version", "dependencies", "optionalDependencies", "peerDependencies", "peerDependenciesMeta", "engines"}


def spec(r, versions):
    """A spec that one of these versions meets, as a rule."""
    version = r.choice(versions) if r.random() < .98 else r.choice(VERSIONS)
    major = int(version.split(".")[0])
    return r.choice([f"^{version}", f"^{version}", f"^{version}", f"~{version}", f">={version}", version, f"{major}.x", "*", "latest",
                     f"^{version} || ^{r.choice(versions)}", f"<={version}", f"{version} - {major + 1}"])


def group(r, all_versions, names, most):
    """Names with specs; one of 25 is an alias."""
    found = {}
    for name in r.sample(names, min(len(names), r.randint(0, most))):
        of = spec(r, all_versions[name])
        if r.random() < .04:
            found[f"alias{r.randint(0, 1)}"] = f"npm:{name}@{of}"
        else:
            found[name] = of
    return found


def dist(name, version):
    """npm takes versions with one `integrity` for one package."""
    sum_of_it = base64.b64encode(hashlib.sha512(f"{name}@{version}".encode()).digest()).decode()
    return {"integrity": f"sha512-{sum_of_it}", "tarball": f"https://registry.example/{name}/-/{name.rpartition('/')[2]}-{version}.tgz"}


def manifest_of(r, name, version, all_versions, names):
    """A version of a package, which asks for packages behind it, and now and then for any."""
    behind = names[names.index(name) + 1:]
    others = [one for one in names if one != name]
    made = {"name": name, "version": version, "dependencies": group(r, all_versions, behind if r.random() < .85 else others, 3)}
    if r.random() < .3:
        made["peerDependencies"] = {one: of for one, of in group(r, all_versions, behind, 2).items() if not one.startswith("alias")}
        made["peerDependenciesMeta"] = {one: {"optional": True} for one in made["peerDependencies"] if r.random() < .25}
    if r.random() < .12:
        made["optionalDependencies"] = group(r, all_versions, behind, 1)
    if r.random() < .08:
        made["deprecated"] = "it is old"
    if r.random() < .1:
        made["engines"] = {"node": r.choice([">=18", "<10", "20.x"])}
    made["dist"] = dist(name, version)
    return made


def documents_of(r, all_versions):
    names, found = list(all_versions), {}
    for name, versions in all_versions.items():
        releases = [one for one in versions if "-" not in one] or versions
        tags = {"latest": max(releases) if r.random() < .8 else r.choice(versions)}
        found[name] = {"name": name, "dist-tags": tags, "versions": {one: manifest_of(r, name, one, all_versions, names) for one in versions}}
    return found


def root_of(r, name, all_versions, groups=WANTED):
    names, made = list(all_versions), {"name": name, "version": "1.0.0"}
    for kind, most, often in (("dependencies", 4, 1), ("devDependencies", 2, .4), ("optionalDependencies", 1, .25), ("peerDependencies", 1, .15)):
        if kind in groups and r.random() < often:
            made[kind] = group(r, all_versions, names, most)
    return made


def overridden(r, root, all_versions):
    """The manifest with a rule for a package that it does not ask for itself."""
    free = [name for name in all_versions if not any(name in root.get(kind, {}) for kind in WANTED)]
    if not free:
        return root
    name, above = r.choice(free), r.choice(list(all_versions))
    version = r.choice(all_versions[name])
    rules = [{name: version}, {f"{name}@{spec(r, all_versions[name])}": version}, {above: {name: version}}]
    return {**root, "overrides": r.choice(rules[:2] if above == name else rules)}


def project(r, folder):
    """Writes a project, and returns its documents, the paths of its manifests, and the manifest of the root."""
    all_versions = {name: r.sample(VERSIONS, r.randint(1, 5)) for name in "abcdefghijklm"[:r.randint(4, 13)]}
    documents, paths = documents_of(r, all_versions), ["package.json"]
    root = root_of(r, "project", all_versions)
    if r.random() < .25:
        root = overridden(r, root, all_versions)
    if r.random() < .2:
        root["workspaces"], paths = ["packages/*"], [*paths, "packages/w/package.json"]
        os.makedirs(os.path.join(folder, "packages", "w"))
        registry.put(os.path.join(folder, paths[1]), root_of(r, "w", all_versions))
    written(folder, root, documents)
    return documents, paths, root


def written(folder, root, documents):
    """Writes a manifest and the documents beside it."""
    os.makedirs(folder, exist_ok=True)
    registry.put(os.path.join(folder, "package.json"), root)
    for name, document in documents.items():
        path = os.path.join(folder, "mirror", f"{name}.json")
        os.makedirs(os.path.dirname(path), exist_ok=True)
        registry.put(path, document)


def documents_of_npm(top):
    """A document for each package that is installed with npm, with the versions that are there."""
    found = {}
    for at, _, files in os.walk(os.path.join(top, "node_modules")):
        name = at.rpartition("node_modules/")[2]
        if "package.json" in files and name.count("/") == name.startswith("@"):
            manifest = registry.read(os.path.join(at, "package.json"))
            kept = {kind: value for kind, value in manifest.items() if kind in KEPT}
            kept["dist"] = dist(kept["name"], kept["version"])
            found.setdefault(kept["name"], {"name": kept["name"], "dist-tags": {}, "versions": {}})["versions"][kept["version"]] = kept
    return found


def resolved(folder, paths, *words):
    """A run of the program that writes the lock file of a project."""
    manifests = [word for path in paths for word in ("--manifest", path)]
    words = [programs.built("npm_resolve"), "--format", "lock", "--packuments", "mirror", *words, *manifests]
    return subprocess.run(words, cwd=folder, stdin=subprocess.DEVNULL, capture_output=True, encoding="utf-8")
