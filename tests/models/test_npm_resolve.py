"""npm_resolve::resolved beside a plain model of it, on small manifests and documents.

The model reads manifests, documents, ranges and tags by itself, makes names and ranges numbers, and hands the problem to the model of
version_solving, which makes all selections:

- The root asks for `dependencies`, `devDependencies`, `optionalDependencies` and `peerDependencies`, and a version for its
  `peerDependencies`, unless `dependencies` or `optionalDependencies` have the name. Of the root the last of `peerDependencies`,
  `dependencies`, `optionalDependencies` and `devDependencies` counts. A peer that `peerDependenciesMeta` calls optional only limits.
- A rule in `overrides` of the root counts in place of each spec of its name, but for `*` and the empty text. A rule that has a range in
  its key or is no text, and one for a name with several rules, is not read.
- In the flat form a version asks for its `dependencies` and `optionalDependencies` too, of which the latter only limit.
- The versions of a document are in this order: that of the lock file; that of the tag `latest`, if it is not deprecated and fits the
  version of Node; what is not deprecated and fits; what fits; what is not deprecated; and the greater version. Where the lowest are
  asked for, the tag does not count, and the lesser version does. What is published too late or restricted is not made here; npm_pick's
  comparison has it.
"""
# An optional dependency of a version only limits, since npm proceeds without it: packages with a build for each platform are selected only if
# the manifest names the platform's.
import solving
from support import programs

NAMES = ["a", "b", "c", "@s/d"]
VERSIONS = ["1.0.0", "1.1.0", "2.0.0", "2.1.0-rc.1", "3.0.0"]


def order(version):
    """What versions are sorted by."""
    core, _, pre = version.partition("-")
    return [*map(int, core.split(".")), not pre, pre]


def satisfies(version, text):
    """Whether a range that is made here has the version."""
    return any(has(version, part) for part in text.split(" || "))


def has(version, text):
    if text == "*":
        return "-" not in version
    major = int(text.lstrip("^<>=").split(".")[0])
    if text.startswith("^"):
        return order(version)[0] == major and "-" not in version
    if text.startswith(">="):
        return order(version)[0] >= major and "-" not in version
    if text.startswith("<"):
        return order(version)[0] < major and "-" not in version
    return version == text.lstrip("=")


TEXTS = ["*", "*", "", "^1", "^2", ">=2", ">=1", "<2", "<3", "^1 || ^3", "^1 || ^2", " ^2 ", "latest", "*"]
# Those that fewer documents can meet.
RARE = ["1.1.0", "=2.1.0-rc.1", "next", "none", "^7"]


def spec(r, name):
    text = r.choice(TEXTS if r.random() < .85 else RARE)
    if r.random() < .04:
        return r.choice(["file:../a", "github:a/b", "https://a.b/c.tgz", "a/b"])
    if r.random() < .05:
        return f"npm:{r.choice(NAMES)}@{text.strip() or '*'}"
    return text


def group(r, most):
    names = NAMES + (["absent", "alias"] if r.random() < .1 else [])
    return {name: spec(r, name) for name in r.sample(names, r.randint(0, most))}


def document(r, is_flat):
    versions = {}
    for version in r.sample(VERSIONS, r.randint(1, 3)):
        manifest = {}
        if r.random() < .7:
            manifest["peerDependencies"] = group(r, 2)
            if r.random() < .4:
                manifest["peerDependenciesMeta"] = {name: {"optional": True} for name in manifest["peerDependencies"] if r.random() < .7}
        for _ in range(2 if is_flat else 1):
            if r.random() < (.5 if is_flat else .1):
                manifest[r.choice(["dependencies", "optionalDependencies", "devDependencies"])] = group(r, 2 if is_flat else 1)
        if r.random() < .15:
            manifest["deprecated"] = "old"
        if r.random() < .4:
            manifest["engines"] = {"node": r.choice(["^1", ">=2", "<2", "", "foo bar", 1])}
        versions[version] = manifest
    tags = {"latest": r.choice(sorted(versions) + VERSIONS)}
    if r.random() < .5:
        tags["next"] = r.choice(VERSIONS)
    return {"dist-tags": tags, "versions": versions}


def overrides(r):
    """Rules for some names: most of them are read."""
    made = {name: spec(r, name) for name in r.sample([*NAMES, "alias"], r.randint(1, 2))}
    if r.random() < .2:
        made[f"{r.choice(NAMES)}@1"] = "^1"
    if r.random() < .2:
        made["parent"] = {r.choice(NAMES): "^1"}
    return made


def problem(r, is_flat=False):
    manifest = {kind: group(r, 2) for kind in
                ("dependencies", "devDependencies", "optionalDependencies", "peerDependencies") if r.random() < .6}
    if r.random() < .3 and "peerDependencies" in manifest:
        manifest["peerDependenciesMeta"] = {name: {"optional": True} for name in manifest["peerDependencies"]}
    if r.random() < .33:
        manifest["overrides"] = overrides(r)
    omits = [kind for kind in ("dev", "optional", "peer") if r.random() < .08]
    options = {"flat": True} if is_flat else {}
    if r.random() < .2:
        options["lowest"] = True
    if r.random() < .3:
        options["node"] = r.choice(VERSIONS)
    if r.random() < .3:
        locked = {f"node_modules/{name}": {"version": r.choice(VERSIONS)} for name in [*NAMES, "alias"] if r.random() < .7}
        nested = {f"node_modules/x/node_modules/{name}": {"version": r.choice(VERSIONS)} for name in NAMES}
        options["lock"] = {"lockfileVersion": 3, "packages": {**locked, **nested}}
    return manifest, {name: document(r, is_flat) for name in NAMES if r.random() < .93}, omits, options


# ---- the model

def named(rules):
    """The name of each rule, of those inside others too."""
    for key, value in rules.items():
        yield key[0] + key[1:].partition("@")[0]
        if isinstance(value, dict):
            yield from named(value)


def changed(root, name, text):
    """The spec of a name, as the rules of the root change it."""
    rules = root.get("overrides", {})
    rule = rules.get(name)
    return rule if isinstance(rule, str) and rule not in ("", "*") and list(named(rules)).count(name) == 1 else text


def asks(root, manifest, omits, is_flat):
    """What a manifest asks, by name: the spec, as the root changes it, and whether the name is needed."""
    is_root = manifest is root
    found = {}
    for kind, omitted in (("peerDependencies", "peer"), ("dependencies", None), ("optionalDependencies", "optional"),
                          *([("devDependencies", "dev")] if is_root else [])):
        for name, text in manifest.get(kind, {}).items():
            optional = kind == "peerDependencies" and bool(manifest.get("peerDependenciesMeta", {}).get(name, {}).get("optional"))
            optional = optional or kind == "optionalDependencies" and not is_root
            found[name] = (changed(root, name, text), not optional, kind == "peerDependencies", omitted)
    return [(name, text, needed) for name, (text, needed, is_peer, omitted) in sorted(found.items(), key=lambda one: one[0].encode())
            if omitted not in omits and (is_root or is_flat or is_peer)]


def registered(name, text):
    """The package and the text that a registry is asked for, or None."""
    if text.startswith("npm:"):
        package, _, text = text[4:].rpartition("@")
        return package, text
    if ":" in text or "/" in text:
        return None
    return name, text.strip() or "*"


def fits_node(manifest, options):
    """Whether the version of Node fits; prereleases count as other versions do."""
    asked = manifest.get("engines", {}).get("node")
    if not asked or "node" not in options:
        return True
    major = order(options["node"])[0]
    return {"^1": major == 1, ">=2": order(options["node"]) >= order("2.0.0"), "<2": order(options["node"]) < order("2.0.0")}.get(asked, False)


def locked_first(versions, name, options):
    """The versions, the one that the lock file has for the name first."""
    locked = options.get("lock", {"packages": {}})["packages"].get(f"node_modules/{name}", {}).get("version")
    return sorted(versions, key=lambda version: version != locked)


def preferred(document, options):
    versions = document["versions"]
    lasting = {version: not manifest.get("deprecated") for version, manifest in versions.items()}
    fits = {version: fits_node(manifest, options) for version, manifest in versions.items()}
    rank = lambda version: (lasting[version] and fits[version], fits[version], lasting[version])
    ascending = sorted(versions, key=order, reverse=not options.get("lowest"))
    by_rank = sorted(ascending, key=rank, reverse=True)
    if options.get("lowest"):
        return by_rank
    return sorted(by_rank, key=lambda version: not is_default(document, version, options))


def is_default(document, version, options):
    manifest = document["versions"][version]
    return document["dist-tags"]["latest"] == version and not manifest.get("deprecated") and fits_node(manifest, options)


def allowed(document, version, text, options):
    tags = document["dist-tags"]
    if text in ("next", "latest", "none"):
        return tags.get(text) == version
    return satisfies(version, text) or (text == "*" and is_default(document, version, options))


def numbered(problem):
    """The problem by numbers, and the names, the versions and the asks of the root."""
    manifest, documents, omits, options = problem
    is_flat = options.get("flat", False)
    root = [ask for ask in asks(manifest, manifest, omits, is_flat) if registered(*ask[:2])]
    places, queue = {}, list(root)
    while queue:
        name, text, _ = queue.pop(0)
        package = registered(name, text)[0]
        if name in places:
            continue
        places[name] = (package, locked_first(preferred(documents[package], options), name, options) if package in documents else [])
        for version in places[name][1]:
            queue += [ask for ask in asks(manifest, documents[package]["versions"][version], omits, is_flat) if registered(*ask[:2])]
    names, ranges = list(places), []

    def demand(ask):
        name, text, needed = ask
        asked, text = registered(name, text)
        package, versions = places[name]
        # A spec that is no alias is met by the version of whichever package has the name.
        ranges.append([int(asked in (package, name) and allowed(documents[package], version, text, options)) for version in versions])
        return [names.index(name), len(ranges) - 1, needed]

    packages = [[[demand(ask) for ask in asks(manifest, documents[package]["versions"][version], omits, is_flat)
                  if registered(*ask[:2])] for version in versions] for package, versions in places.values()]
    # Of the root an optional dependency that no version meets only limits.
    needed = {ask[0] for ask in asks(manifest, manifest, [*omits, "optional"], is_flat) if ask[2]}
    demands = [[name, range_, how and (names[name] in needed or any(ranges[range_]))] for name, range_, how in map(demand, root)]
    return (demands, packages, ranges), names, [versions for _, versions in places.values()], root


def fault(problem, line):
    """What is wrong with the answer of the program, or None."""
    case, names, versions, root = numbered(problem)
    first, *shown = line.split("\t")
    if first == "selected":
        if not any(True for _ in solving.all_that_fit(case)):
            return "no selection fits"
        choices = []
        for one in shown:
            name, _, version = one.rpartition("@")
            if name not in names or version not in versions[names.index(name)]:
                return f"no version {one}"
            choices.append(f"{names.index(name)}={versions[names.index(name)].index(version)}")
        return solving.fault(case, " ".join(["selected", *choices]))
    if first != "none":
        return "neither selected nor none"
    blamed = []
    for one in shown:
        found = [at for at, (name, text, _) in enumerate(root) if f"{name}:{text or '*'}" == one]
        if not found:
            return f"no ask {one}"
        blamed.append(case[0][found[0]])
    return solving.fault(case, " ".join(["none", *(f"{name}:{range_}" for name, range_, _ in blamed)]))


def test_is_the_answer_of_the_model(record_property):
    program = programs.built("solver_answers")
    record_property("made", solving.compare(program, problem, fault, 2000, 1))


def test_is_the_answer_of_the_model_if_dependencies_count(record_property):
    program = programs.built("solver_answers")
    record_property("made", solving.compare(program, lambda r: problem(r, True), fault, 500, 2))
