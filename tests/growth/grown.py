"""grown.py SHAPE N: writes a lock file, or advisories, that has many of something or is deep; the function of that name says what. As
each is made twice as large, npm_lock_check must take no more instructions a byte."""
import base64
import json
import sys


def names(count):
    return [f"name-{i}" for i in range(count)]


def asking(listed, spec="^1.0.0", group="dependencies", **more):
    return {group: {name: spec for name in listed}, **more}


def installed(listed):
    return {f"node_modules/{name}": {"version": "1.2.3"} for name in listed}


def half_missing(folder, listed):
    """A package in a folder asks for these names: half are found in the root, the others nowhere."""
    return {folder: {**asking(listed[::2]), **asking(listed[1::2], group="optionalDependencies")}, **installed(listed[::2])}


def path(count):
    """A package in a folder `f/f/f/..` of N parts asks for N names."""
    return half_missing("/".join(["f"] * count), names(count))


def modules(count):
    """The same in `node_modules/a/node_modules/a/..`, with no package in the folders between, and with names that differ in their scopes alone."""
    return half_missing("/".join(["node_modules/a"] * count), [f"@scope-{i}/name" for i in range(count)])


def nested(count):
    """N packages, each in the `node_modules` of the one before, ask for a name in the root and for one that is nowhere."""
    asks = {"version": "1.2.3", "dependencies": {"found": "^1.0.0"}, "peerDependencies": {"gone": "1"}}
    return {**{"/".join(["node_modules/a"] * (i + 1)): asks for i in range(count)}, **installed(["found"])}


def wide(count):
    """The root asks for N names, which are installed."""
    return {"": asking(names(count)), **installed(names(count))}


def linked(listed, folders, **more):
    links = [{f"node_modules/{name}": {"link": True, "resolved": folder}, folder: {"version": "1.2.3"}} for name, folder in zip(listed, folders)]
    return {"": asking(listed, **more), **{key: value for link in links for key, value in link.items()}}


def links(count):
    """The root asks for N names, which are links."""
    return linked(names(count), [f"linked/{name}" for name in names(count)])


def workspaces(count):
    """The root asks for N names, which are workspaces, listed one by one."""
    folders = [f"linked/{name}" for name in names(count)]
    return linked(names(count), folders, workspaces=folders)


def stars(count):
    """The root asks for N names, which are workspaces, each in a folder of its own, before the `/*` or `/**` of a pattern."""
    patterns = [f"linked/{name}/*{'*' * (i % 2)}" for i, name in enumerate(names(count))]
    return linked(names(count), [f"linked/{name}/{name}" for name in names(count)], workspaces=patterns)


def pattern(count):
    """The root asks for a workspace in a folder `f/f/f/..` of N parts, which are in a pattern before its star."""
    above = "/".join(["f"] * count)
    return linked(["w"], [f"{above}/w"], spec="^2", workspaces=[f"{above}/*"])


def long(count):
    """The root asks for N names, which are workspaces, in folders that share 3,000 bytes, as does the pattern with `**`."""
    above = "/".join(["f"] * 1500)
    return linked(names(count), [f"{above}/{'g/' * 400}{name}" for name in names(count)], spec="^2", workspaces=[f"{above}/**"])


def copies(count):
    """N packages, each with a copy of one name in its own `node_modules`, ask for that name."""
    made = {}
    for name in names(count):
        made[f"node_modules/{name}"] = asking(["copied"], version="1.2.3")
        made[f"node_modules/{name}/node_modules/copied"] = {"version": "1.2.3"}
    return made


def chain(count):
    """N packages of one name, each in the `node_modules` of the one before, and beside each one a package that asks for it."""
    return {"node_modules/a/" * i + f"node_modules/{name}": asking(["a"], version="1.2.3") for i in range(count) for name in "ab"}


def beside(count):
    """A chain of N packages, each in the `node_modules` of the one before, that ask for a name in the root; beside each one a package has
    that name in its own `node_modules`."""
    made = {}
    for i in range(count):
        folder = "node_modules/b/" * i
        made[f"{folder}node_modules/a"] = made[f"{folder}node_modules/a/node_modules/found"] = {"version": "1.2.3"}
        made[f"{folder}node_modules/b"] = asking(["found"], version="1.2.3")
    return {**made, **installed(["found"])}


def slashed(count):
    """A package in a folder `f/f/f/..` of N parts may have N names of two parts, which are nowhere."""
    return {"/".join(["f"] * count): asking([f"x/{i}" for i in range(count)], group="optionalDependencies")}


def crowded(count):
    """N folders with twenty names in their `node_modules`, and N packages in a folder `z/z/z/..` of N parts that ask for these names."""
    few, made = names(20), {}
    for i in range(count):
        made.update({f"f/{i}/node_modules/{name}": {"version": "1.2.3"} for name in few})
        made["z/" * count + str(i)] = asking(few)
    return {**made, **installed(few)}


def asked(count):
    """A package in a folder `node_modules/a/node_modules/a/..` of N parts asks for N names that are nowhere."""
    return {"/".join(["node_modules/a"] * count): asking(names(count))}


def repeated(count):
    """The root N times, the last time with N dependencies that are nowhere."""
    return {"": asking(names(count))}


def versions(count):
    """N copies of a package, each of another version."""
    return {"": {}, **{f"node_modules/p{i:06}/node_modules/copied": {"version": f"{i}.0.0"} for i in range(count)}}


def unversioned(count):
    """N copies of a package, which have no version."""
    return {"": {}, **{f"node_modules/p{i:06}/node_modules/copied": {} for i in range(count)}}


def hit(count):
    """A package that N packages depend on."""
    return {"": {}, "node_modules/hit": {"version": "1.0.0"},
            **{f"node_modules/p{i}": asking(["hit"], "^1.0.0" if i % 2 else ">=1", version="1.0.0") for i in range(count)}}


class Numbers:
    """Numbers in a fixed order."""
    seed = 20111

    def below(self, n):
        self.seed = (self.seed * 1103515245 + 12345) & 0x7FFFFFFF
        return self.seed // 65536 % n


def package(i):
    return f"@scope-{i % 40}/package-{i}" if i % 7 == 0 else f"package-{i}"


def version(i):
    return f"{1 + i % 9}.{i % 17}.{i % 23}"


def tree(count, is_tree=True):
    """N packages in a graph like a real one: a package is a dependency of one package before it, each second package depends also on one of
    200 that many share, and each hundredth on a package before it, which makes a cycle."""
    numbers, direct, shared = Numbers(), 60, 200

    def others(i):
        if not is_tree:
            for _ in range(6 if i + 1 < count else 0):
                yield numbers.below(count) if numbers.below(50) == 0 else i + 1 + numbers.below(min(300, count - i - 1))
            return
        yield from range(direct + 3 * i, min(direct + 3 * i + 3, count))
        if i % 2 and i < count - shared:
            yield count - shared + numbers.below(shared)
        if i % 100 == 99:
            yield numbers.below(i)

    def spec(i):
        return [f"^{version(i)}", f"^{1 + i % 9}.0.0", f"~{version(i)}", f">={1 + i % 9}", version(i), "*"][numbers.below(6)]

    made = {"": {"name": "large", "version": "1.0.0", "dependencies": {package(i): spec(i) for i in range(direct)}}}
    for i in range(count):
        made[f"node_modules/{package(i)}"] = {
            "version": version(i),
            "resolved": f"https://registry.npmjs.org/{package(i)}/-/package-{i}-{version(i)}.tgz",
            "integrity": "sha512-" + base64.b64encode((str(i) * 64)[:64].encode()).decode(),
            "license": "MIT",
            "dependencies": {package(j): spec(j) for j in others(i)},
            "engines": {"node": ">=14"},
        }
    return made


def graph(count):
    """N packages of six dependencies each, mostly on packages that come after it, at random."""
    return tree(count, False)


def registry(count):
    """A manifest, and the documents of the packages of a tree, by name. Each package has an old version too, and each tenth asks for that of one of
    the shared ones, beside the new one in the root's folder."""
    packages = tree(count)
    root = packages.pop("")
    documents = {}
    for at, (folder, manifest) in enumerate(packages.items()):
        name, asks = folder.removeprefix("node_modules/"), manifest["dependencies"]
        if at % 10 == 5 and at < count - 200:
            asks = {**asks, package(count - 1 - at % 200): "0.5.0"}
        versions = {"0.5.0": {"name": name, "version": "0.5.0"}, manifest["version"]: {**manifest, "name": name, "dependencies": asks}}
        documents[name] = {"name": name, "dist-tags": {"latest": manifest["version"]}, "versions": versions}
    return root, documents


def tree_advisories(count):
    """Advisories that hit each second package of a tree."""
    return {package(i): [{"id": i, "title": f"What {package(i)} does", "severity": "high", "vulnerable_versions": f"<={version(i)}",
                          "url": f"https://advisories.example/{i}"}] for i in range(0, count, 2)}


def sparing(count):
    """N advisories about a package that hit no copy of version 1.2.3."""
    return {"copied": [{"id": i, "vulnerable_versions": f"{i}.0.1"} for i in range(count)]}


def striking(count):
    """N advisories about a package, of which each hits one version."""
    return {"copied": [{"id": i, "vulnerable_versions": f"{i}.0.0 - {i}.0.3"} for i in range(count)]}


def everywhere(count):
    """N advisories about a package, of which each hits all versions."""
    return {"copied": [{"id": i, "vulnerable_versions": "*"} for i in range(count)]}


def excepting(count):
    """N exceptions of that package, of which each excepts one of N advisories."""
    return "".join(f'[[exceptions]]\nid = "{i}"\npackage = "copied"\nreason = "read"\n' for i in range(count))


def events(count):
    """An advisory about `hit`: one OSV range of twice N events, the last first."""
    made = [event for i in range(count, 0, -1) for event in ({"fixed": f"{i}.1.0"}, {"introduced": f"{i}.0.0"})]
    return [{"id": "E", "affected": [{"package": {"ecosystem": "npm", "name": "hit"}, "ranges": [{"type": "ECOSYSTEM", "events": made}]}]}]


def one_advisory(_):
    """An advisory about `hit`."""
    return {"hit": [{"id": 1, "vulnerable_versions": "<1.0.1"}]}


ADVISORIES = (tree_advisories, sparing, striking, everywhere, events, one_advisory)


def text(shape, count):
    """The text that a shape of this size is."""
    made = shape(count)
    if shape in ADVISORIES:
        return json.dumps(made)
    said = json.dumps({"lockfileVersion": 3, "packages": {**({} if "" in made else {"": {"name": "deep", "version": "1.0.0"}}), **made}})
    return said.replace('{"": ', "{" + '"": {}, ' * (count - 1) + '"": ') if shape is repeated else said


if __name__ == "__main__":
    print(text(globals()[sys.argv[1]], int(sys.argv[2])))
