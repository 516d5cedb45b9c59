"""Large lock files, manifests and advisories, and what is wrong with them: rows of calls of npm_answers, and runs of
npm_lock_check."""
import json

from large.rows import LONG, MANY

LEVELS = ["info", "low", "moderate", "high", "critical"]
NAMES = [f"m{number:05}" for number in range(MANY)]
LONGEST = 4096  # No folder of a package has more bytes.
NESTED = "/".join(f"node_modules/{name}" for name in NAMES)  # Each package inside the one before.


def text_of(value):
    return json.dumps(value, separators=(",", ":"), sort_keys=True)


def dependency(name, spec, at="", **members):
    """A problem, or a dependency that is not checked, as its JSON object has it."""
    return {"dev": False, "from": at, "name": name, "optional": False, "peer": False, "spec": spec, **members}


def lock_of(root, packages):
    return {"lockfileVersion": 3, "packages": {"": root, **packages}}


def at_root(version, **members):
    """Each name installed once."""
    return {f"node_modules/{name}": {"version": version, **members} for name in NAMES}


class Case:
    """A lock file, and what a check finds."""

    def __init__(self, lock, problems=(), unchecked=(), packages=MANY, dependencies=MANY, manifest=None, node=None):
        self.lock, self.manifest, self.node = lock, manifest, node
        self.problems, self.unchecked = list(problems), list(unchecked)
        # The root is a package too.
        self.counts = f"{packages + 1} packages, {dependencies} dependencies"

    def result(self):
        found = [text_of(one) + "\t" for one in self.problems + self.unchecked]
        return "".join(found) + self.counts


def asked(spec, group="dependencies"):
    return {group: dict.fromkeys(NAMES, spec)}


def reason(why, spec):
    return [dependency(name, spec, to=f"node_modules/{name}", unchecked=why, version="1.0.0") for name in NAMES]


def cases():
    """Each kind of problem, each reason, and each way to be asked, as often as there are names."""
    installed = at_root("1.0.0")
    missing = [dependency(name, "^1", problem="missing") for name in NAMES]
    yield Case(lock_of(asked("^1"), {}), missing, packages=0)
    yield Case(lock_of(asked("^1"), installed))
    invalid = {"problem": "invalid", "version": "1.0.0"}
    for group, marks in (("dependencies", {}), ("optionalDependencies", {"optional": True}), ("devDependencies", {"dev": True})):
        problems = [dependency(name, "^2", to=f"node_modules/{name}", **{**invalid, **marks}) for name in NAMES]
        yield Case(lock_of(asked("^2", group), installed), problems)
    yield Case(lock_of(asked("latest"), installed), unchecked=reason("tag", "latest"))
    yield Case(lock_of(asked("github:c/c"), installed), unchecked=reason("location", "github:c/c"))
    yield Case(lock_of({}, at_root("1.0.0", engines={"node": ">=22"})), [
        dependency("node", ">=22", f"node_modules/{name}", problem="engine", version="20.0.0") for name in NAMES
    ], dependencies=0, node="20.0.0")
    yield peers()
    yield from overrides()
    yield from askers()
    yield version_one()


def peers():
    """Packages that have a peer in their own `node_modules`."""
    packages = at_root("1.0.0", peerDependencies={"d": "1"})
    packages.update({f"{folder}/node_modules/d": {"version": "1.0.0"} for folder in list(packages)})
    return Case(lock_of({}, packages), [
        dependency("d", "1", f"node_modules/{name}", peer=True, problem="peer-local",
                   to=f"node_modules/{name}/node_modules/d", version="1.0.0") for name in NAMES
    ], packages=2 * MANY)


def overrides():
    """A package that asks for all names, of which rules change what it asks for."""
    asker = {"node_modules/asker": {"version": "1.0.0", **asked("^1")}}
    root = {"overrides": dict.fromkeys(NAMES, "2.0.0")}
    yield Case(lock_of(root, {**asker, **at_root("2.0.0")}), packages=MANY + 1, manifest=root)
    invalid = [dependency(name, "2.0.0", "node_modules/asker", problem="invalid", to=f"node_modules/{name}", version="1.0.0")
               for name in NAMES]
    yield Case(lock_of(root, {**asker, **at_root("1.0.0")}), invalid, packages=MANY + 1, manifest=root)
    root = {"overrides": {name: {"x": "1"} for name in NAMES}}
    unread = [dependency(name, "^1", "node_modules/asker", to=f"node_modules/{name}", unchecked="override", version="1.0.0")
              for name in NAMES]
    yield Case(lock_of(root, {**asker, **at_root("1.0.0")}), unchecked=unread, packages=MANY + 1, manifest=root)


def askers():
    """One package that many ask for, one that is missing for many, and a package in the longest folder."""
    d = {"node_modules/d": {"version": "1.0.0"}}
    packages = at_root("1.0.0", dependencies={"d": "^2"})
    yield Case(lock_of({}, {**packages, **d}), [
        dependency("d", "^2", f"node_modules/{name}", problem="invalid", to="node_modules/d", version="1.0.0") for name in NAMES
    ], packages=MANY + 1)
    workspaces = {f"w/{name}": {"version": "1.0.0", "dependencies": {"z": "1"}} for name in NAMES}
    links = {f"node_modules/{name}": {"link": True, "resolved": f"w/{name}"} for name in NAMES}
    root = {"workspaces": [f"w/{name}" for name in NAMES]}
    yield Case(lock_of(root, {**links, **workspaces}), [
        dependency("z", "1", f"w/{name}", problem="missing") for name in NAMES
    ])
    deep = NESTED[:LONGEST]
    yield Case(lock_of({}, {deep: {"version": "1.0.0", "dependencies": {"d": "2", "z": "1"}}, **d}), [
        dependency("d", "2", deep, problem="invalid", to="node_modules/d", version="1.0.0"),
        dependency("z", "1", deep, problem="missing"),
    ], packages=2, dependencies=2)
    spec = " || ".join(f"0.{number}.0" for number in range(MANY)) + " || 1"
    yield Case(lock_of({"dependencies": {"d": spec}}, d), packages=1, dependencies=1)
    long = "n" * LONG
    yield Case(lock_of({"dependencies": {long: "1"}}, {}), [dependency(long, "1", problem="missing")], packages=0, dependencies=1)


def version_one():
    """A lock file of version 1, of which each package lacks one, and the manifest's own."""
    lock = {"lockfileVersion": 1, "dependencies": {name: {"version": "1.0.0", "requires": {"z": "1"}} for name in NAMES}}
    problems = [dependency(name, "^2", problem="invalid", to=f"node_modules/{name}", version="1.0.0") for name in NAMES]
    problems += [dependency("z", "1", f"node_modules/{name}", problem="missing") for name in NAMES]
    return Case(lock, problems, dependencies=2 * MANY, manifest=asked("^2"))


def check_rows():
    for case in cases():
        words = [text_of(case.lock), text_of(case.manifest) if case.manifest else "", case.node or ""]
        yield "npm_lock::check_any", words, case.result()
        if case.lock["lockfileVersion"] == 3:
            yield "npm_lock::check", words, case.result()
    one = version_one()
    packages = {"": asked("^2"), **at_root("1.0.0", dependencies={"z": "1"})}
    yield "npm_lock::convert", [text_of(one.lock), text_of(one.manifest)], text_of({"lockfileVersion": 3, "packages": packages})


def listed(found):
    """A list, as npm_answers prints it."""
    return "".join(text_of(one) + "\t" for one in found) or "nothing"


def mismatch(name, group, at="", **members):
    return {"from": at, "group": group, "name": name, "problem": "group", **members}


GROUPS = ["dependencies", "devDependencies", "optionalDependencies", "peerDependencies"]


def manifest_rows():
    for group in GROUPS:
        for at in ("", "w"):
            lock = {"lockfileVersion": 3, "packages": {at: asked("^1", group)}}
            both = [mismatch(name, group, at, locked="^1", spec="^2") for name in NAMES]
            one = [mismatch(name, group, at, locked="^1") for name in NAMES]
            other = [mismatch(name, group, at, spec="^2") for name in NAMES]
            yield "npm_lock::mismatches_of", [text_of(lock), text_of(asked("^2", group)), at], listed(both)
            yield "npm_lock::mismatches_of", [text_of(lock), "{}", at], listed(one)
            yield "npm_lock::mismatches_of", [text_of(lock), text_of(asked("^1", group)), at], "nothing"
            empty = {"lockfileVersion": 3, "packages": {at: {}}}
            yield "npm_lock::mismatches_of", [text_of(empty), text_of(asked("^2", group)), at], listed(other)
        put = {"lockfileVersion": 3, "packages": {"": {**asked("^2", group), **dict.fromkeys(["dev", "link", "optional", "peer"], False)}}}
        lock = {"lockfileVersion": 3, "packages": {"": asked("^1", group)}}
        yield "npm_lock::put_manifest", [text_of(lock), text_of(asked("^2", group)), ""], text_of(put)
    own = {**asked("^1", "dependencies"), "overrides": dict.fromkeys(NAMES, "2")}
    dropped = {"lockfileVersion": 3, "packages": {"": {**own, "overrides": None}}}
    yield "npm_lock::drop_overrides", [text_of({"lockfileVersion": 3, "packages": {"": own}})], text_of(dropped)
    links = {f"node_modules/{name}": {"link": True, "resolved": f"w/{name}"} for name in NAMES}
    folders = {f"w/{name}": {} for name in NAMES}
    yield "npm_packages::linked_folders", [text_of({"packages": {**links, **folders}})], "".join(f"w/{name}\t" for name in NAMES)
    yield "npm_lock::workspace_patterns", [text_of({"workspaces": [f"./w/{name}" for name in NAMES]})], "".join(f"w/{name}\t" for name in NAMES)
    among = text_of({"packages": {"": {}, **links, **folders}})
    long = "d" * MANY
    yield "npm_lock::workspace_problem", [among, text_of(NAMES[-1]), f"w/{NAMES[-1]}"], "nothing"
    wanted = text_of(dependency(long, f"file:{long}", problem="missing"))
    yield "npm_lock::workspace_problem", [among, text_of(long), long], wanted


# ---- addresses

KINDS = ["other-version", "other-package", "insecure", "other-host", "no-integrity"]


def source_rows():
    """Each package has an address at which nothing is right, in a file of either version, and many registries are given."""
    entry = {"version": "1.0.0", "resolved": "http://r/x/-/x-2.0.0.tgz"}
    wanted = listed({**entry, "folder": f"node_modules/{name}", "problem": "source", "source": kind} for name in NAMES for kind in KINDS)
    old = {"lockfileVersion": 1, "dependencies": dict.fromkeys(NAMES, entry)}
    for lock in (lock_of({}, {f"node_modules/{name}": entry for name in NAMES}), old):
        yield "npm_lock::suspicious_sources", [text_of(lock), "https://r/npm"], wanted
    long = {"folder": "node_modules/d", "problem": "source", "resolved": f"http://r/{'n' * LONG}", "source": "no-integrity", "version": "1.0.0"}
    one = lock_of({}, {"node_modules/d": {"version": "1.0.0", "resolved": long["resolved"]}})
    yield "npm_lock::suspicious_sources", [text_of(one), "http://r"], listed([{**long, "source": "insecure"}, long])
    yield "npm_lock::suspicious_sources", [text_of(one), *(f"http://r{number}" for number in range(MANY)), "http://r"], listed(
        [{**long, "source": "insecure"}, long])


# ---- advisories


def advisory(number, versions, severity="low", **members):
    return {"id": number, "severity": severity, "title": f"t{number}", "vulnerable_versions": versions, **members}


def told(one):
    """What is told of an advisory."""
    return {"id": one["id"], "severity": one.get("severity", "unknown"), "title": one["title"]}


def found(name, version, hits, least, admitted=None):
    members = {"admitted": admitted} if admitted else {}
    said = {"folder": f"node_modules/{name}", "least": least, "name": name, "version": version, **members}
    return {"advisories": list(map(told, hits)), **said}


def osv(number, name, severity=None, **affected):
    one = {"package": {"ecosystem": "npm", "name": name}, **affected}
    return {"id": f"O{number}", "summary": f"t{number}", "affected": [one],
            **({"database_specific": {"severity": severity}} if severity else {})}


def osv_told(number, severity="unknown"):
    return {"id": f"O{number}", "severity": severity, "title": f"t{number}"}


def copies():
    """Copies of a package, each of another version and with a dependent of its own, and advisories that hit one each."""
    numbers = range(1, MANY + 1)
    packages = {f"node_modules/p{it}": {"version": "1.0.0", "dependencies": {"d": f"^{it}.0.0"}} for it in numbers}
    packages.update({f"node_modules/p{it}/node_modules/d": {"version": f"{it}.0.0"} for it in numbers})
    listed = [advisory(it, f"{it}.0.0 - {it}.0.3") for it in numbers]
    hits = [found(f"p{it}/node_modules/d", f"{it}.0.0", [listed[it - 1]], f"{it}.0.4", f"{it}.0.4") for it in numbers]
    hits = sorted(({**hit, "name": "d"} for hit in hits), key=lambda hit: hit["folder"])
    return {"d": listed}, lock_of({}, packages), "info", hits


def audits():
    """The advisories, a lock file, a level, and the packages that are hit."""
    everyone = lock_of(asked("*"), at_root("1.0.0"))
    one = lock_of({"dependencies": {"d": "*"}}, {"node_modules/d": {"version": "1.0.0"}})
    by_name = {name: [advisory(number, "<2.0.0")] for number, name in enumerate(NAMES)}
    yield by_name, everyone, "info", [found(name, "1.0.0", by_name[name], "2.0.0", "2.0.0") for name in NAMES]
    yield by_name, one, "info", []
    of_one = [advisory(number, f"<1.{number + 1}.0") for number in range(MANY)]
    yield {"d": of_one}, one, "info", [found("d", "1.0.0", of_one, f"1.{MANY}.0", f"1.{MANY}.0")]
    for level in LEVELS:
        listed = [advisory(number, "<2.0.0", LEVELS[number % 5]) for number in range(5 * MANY)]
        hits = [it for it in listed if LEVELS.index(it["severity"]) >= LEVELS.index(level)]
        yield {"d": listed}, one, level, [found("d", "1.0.0", hits, "2.0.0", "2.0.0")]
    askers = at_root("1.0.0", dependencies={"d": "^1.0.0"})
    askers[f"node_modules/{NAMES[-1]}"]["dependencies"]["d"] = ">=1.7.0"
    packages = {**askers, "node_modules/d": {"version": "1.0.0"}}
    hit = found("d", "1.0.0", [advisory(1, "")], "1.5.0", "1.7.0")
    yield {"d": [advisory(1, "<1.5.0")]}, lock_of({}, packages), "info", [hit]
    apart = [advisory(number, f"{number}.0.0 - {number + 1}.0.0-0") for number in range(1, MANY)]
    yield {"d": apart}, one, "info", [found("d", "1.0.0", apart[:1], f"{MANY}.0.0", f"{MANY}.0.0")]
    yield copies()
    long = advisory(1, "||".join(f"{number}.0.0" for number in range(MANY, 0, -1)), title="t" * LONG)
    yield {"d": [long]}, one, "info", [found("d", "1.0.0", [long], "1.0.1", "1.0.1")]


def semver(events):
    return {"type": "SEMVER", "events": events}


def osv_audits():
    """The same in OSV's form."""
    packages = {"node_modules/d": {"version": f"{MANY}.0.0"}}
    one, last = lock_of({"dependencies": {"d": "*"}}, packages), f"{MANY}.0.0"

    def hit(told_of, least):
        said = {"folder": "node_modules/d", "name": "d", "version": last, "admitted": least, "least": least}
        return [{"advisories": told_of, **said}]

    versions = [f"{number}.0.0" for number in range(1, MANY + 1)]
    yield [osv(1, "d", versions=versions)], one, "info", hit([osv_told(1)], f"{MANY}.0.1")
    yield [osv(1, "d", versions=versions[::-1])], one, "info", hit([osv_told(1)], f"{MANY}.0.1")
    pairs = [[{"introduced": f"{number}.0.0"}, {"fixed": f"{number}.5.0"}] for number in range(1, MANY + 1)]
    events = [event for pair in pairs for event in pair]
    for ordered in (events, events[::-1]):
        yield [osv(1, "d", ranges=[semver(ordered)])], one, "info", hit([osv_told(1)], f"{MANY}.5.0")
    ends = [{"last_affected" if key == "fixed" else key: text for key, text in event.items()} for event in events]
    yield [osv(1, "d", ranges=[semver(ends)])], one, "info", hit([osv_told(1)], f"{MANY}.5.1")
    yield [osv(1, "d", ranges=list(map(semver, pairs)))], one, "info", hit([osv_told(1)], f"{MANY}.5.0")
    all_of = [semver([{"introduced": "0"}, {"fixed": f"{MANY + 1}.0.0"}])]
    advisories = [osv(number, "d", "HIGH" if number % 2 else "LOW", ranges=all_of) for number in range(MANY)]
    said = [osv_told(number, "high" if number % 2 else "low") for number in range(MANY)]
    yield advisories, one, "info", hit(said, f"{MANY + 1}.0.0")
    yield advisories, one, "high", hit([it for it in said if it["severity"] == "high"], f"{MANY + 1}.0.0")
    affected = [{"package": {"ecosystem": "npm", "name": name}, "ranges": all_of} for name in ["d"] * MANY]
    yield {**osv(1, "d"), "affected": affected}, one, "info", hit([osv_told(1)] * MANY, f"{MANY + 1}.0.0")
    others = [osv(number, name, ranges=all_of) for number, name in enumerate(NAMES)] + [osv(MANY, "d", ranges=all_of)]
    yield others, one, "info", hit([osv_told(MANY)], f"{MANY + 1}.0.0")


def refused_advisories():
    """Advisories of which the last has a fault, and the steps to it."""
    sound = [advisory(number, "<2.0.0") for number in range(MANY)]
    yield {"d": [*sound, advisory(MANY, "?")]}, ["d", MANY, "vulnerable_versions"]
    events = [{"introduced": f"{number}.0.0"} for number in range(MANY)]
    ranges = [semver(events)] * 4 + [semver([*events, {"fixed": "1"}])]
    elements = [{"package": {"ecosystem": "npm", "name": name}} for name in NAMES]
    elements.append({"package": {"ecosystem": "npm", "name": "d"}, "ranges": ranges})
    others = [osv(number, "e") for number in range(MANY)]
    yield [*others, {**osv(1, "d"), "affected": elements}], [MANY, "affected", len(NAMES), "ranges", 4, "events", MANY]


def audit_rows():
    for advisories, lock, level, hits in [*audits(), *osv_audits()]:
        yield "npm_advisories::audit_lock", [text_of(advisories), text_of(lock), level], listed(hits)
    one = lock_of({"dependencies": {"d": "*"}}, {"node_modules/d": {"version": "1.0.0"}})
    for advisories, steps in refused_advisories():
        yield "npm_advisories::fault_steps", [text_of(advisories), text_of(one)], "".join(f"{step}\t" for step in steps)
    packages = at_root("1.0.0", dependencies={"d": "^1"})
    lock = lock_of({}, {**packages, "node_modules/d": {"version": "1.0.0"}})
    yield "Dependents::of_lock", [text_of(lock), "", "node_modules/d"], "^1\t" * MANY
    aliased = lock_of({"dependencies": {name: f"npm:r-{name}@1" for name in NAMES}}, at_root("1.0.0"))
    yield "Aliases::of_edges", [text_of(aliased), f"node_modules/{NAMES[-1]}"], f"r-{NAMES[-1]}"
    found = "".join(f"node_modules/{name}>d ^1 node_modules/d 1.0.0\t" for name in sorted(NAMES))
    yield "npm_packages::edges_of", [text_of(lock)], found


def pick_rows():
    """The greatest of many versions, the only one that is not deprecated, and one by its key."""
    versions = {f"1.{number}.0": {"deprecated": True, "engines": {"node": ">=1"}} for number in range(MANY)}
    document = text_of({"dist-tags": {"latest": "1.0.0"}, "versions": versions})
    yield "npm_pick::pick", [document, '{"node": "18.0.0", "avoid": ">2"}', "^1"], f"1.{MANY - 1}.0"
    yield "npm_pick::pick", [document, "", "1.7.0"], "1.7.0"
    yield "npm_pick::keep", [document, '{"all": true}', "^1,2"], "".join(f"1.{number}.0\t" for number in range(MANY))
    yield "npm_pick::keep", [document, "", ",".join(reversed([f"1.{number}.0" for number in range(MANY)]))], "".join(
        f"1.{number}.0\t" for number in range(MANY))
    yield "npm_pick::pick", [document, '{"avoidStrict": true, "avoid": "<1.9"}', "~1.0.0"], f"1.{MANY - 1}.0"
    document = text_of({"versions": {**versions, "1.3.0": {}}})
    yield "npm_pick::pick", [document, "", "*"], "1.3.0"
