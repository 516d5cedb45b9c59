"""Runs of the programs on large input: the words, the files, and all that is written, with the status."""
import json
import os

from large.findings import Finding, advisory_rule, at_dependency, at_mismatch, at_package, github, sarif
from large.lock_files import GROUPS, LEVELS, NAMES, NESTED, asked, at_root, audits, cases, lock_of, mismatch, osv_audits, text_of
from large.rows import LONG, MANY, alternatives
from support import rows

WORDS = rows.words("npm_lock_check")
DEEP = 60  # So many packages are inside one another: a text nests at most 128 deep.


class Run:
    """A run of npm_lock_check. Each file is the value of an option. What is not checked is listed and changes no status, and so
    are mismatches without `--exact`. `log` is written in place of the lines."""

    def __init__(self, lock, words, lines, error, files=(), manifests=(), unchecked=(), log=None):
        self.lock, self.words, self.files, self.manifests = lock, words, dict(files), dict(manifests)
        self.output = "".join(line + "\n" for line in ([log] if log else [*lines, *unchecked]))
        self.error, self.status = error + "\n", 1 if lines else 0

    def arguments(self, folder):
        """Writes the files, and returns the words."""
        for at, manifest in self.manifests.items():
            os.makedirs(os.path.join(folder, at), exist_ok=True)
            with open(os.path.join(folder, at, "package.json"), "w", encoding="utf-8") as file:
                file.write(text_of(manifest))
        words = list(self.words)
        for option, value in self.files.items():
            path = os.path.join(folder, f"{option}.json")
            with open(path, "w", encoding="utf-8") as file:
                file.write(text_of(value))
            words += [f"--{option}", path]
        return words


def asker(lock, at):
    """The package that asks, in a sentence."""
    if not at:
        return WORDS["by the root"]
    version = lock["packages"][at].get("version") if "packages" in lock else "1.0.0"
    folder, modules, name = at.rpartition("node_modules/")
    said = f"{WORDS['which']} {name if modules else at}{f' {version}' if version else ''} {WORDS['asks']}"
    return f"{said} ({at})" if modules else said


def sentence(lock, one):
    """The sentence of a problem, or of a dependency that is not checked."""
    version = f" {one['version']}" if "version" in one else ""
    said = WORDS[{"engine": "invalid"}.get(one.get("problem"), one.get("problem", "unchecked"))]
    why = WORDS[one["unchecked"]] if "unchecked" in one else ""
    return f"{one['name']}{version} {said} {one['spec']}{asker(lock, one['from'])}{why}"


def hit_sentence(one):
    advisories = f"{WORDS['and']} ".join(f"{it['id']} ({it['severity']}): {it['title']}" for it in one["advisories"])
    offer = f"{one['admitted']} {WORDS['fits']}" if "admitted" in one else f"{one['least']} {WORDS['does not fit']}"
    return f"{one['name']} {one['version']} {WORDS['hit']} {advisories}; {offer} ({one['folder']})"


def side(one, key):
    return f'"{one[key]}"' if key in one else WORDS["absent"]


def mismatch_sentence(one):
    manifest = f"{one['from']}/package.json" if one["from"] else "package.json"
    said = f"{one['name']} {{in}} {one['group']} {{is}} {side(one, 'spec')} {{in}} {manifest}{{but}} {side(one, 'locked')} {{locked}}"
    return rows.said(said, WORDS)


def annotated(lock, words, found, notes, error, files=()):
    """The runs of the formats with places. What is in `found` counts for the status, and what is in `notes` does not."""
    yield Run(lock, ["--format", "github", *words], github(lock, found), error, files, unchecked=github(lock, notes))
    yield Run(lock, ["--format", "sarif", *words], found, error, files, log=sarif(lock, [*found, *notes]))


def annotated_case(case, error, files):
    """The runs of a case in these formats, with what is not checked."""
    found = [Finding(one["problem"].replace(" ", "-"), sentence(case.lock, one), at_dependency(one)) for one in case.problems]
    notes = [Finding("unchecked", sentence(case.lock, one), at_dependency(one)) for one in case.unchecked]
    node = ["--node", case.node] if case.node else []
    yield from annotated(case.lock, ["--unchecked", *node], found, notes, error, files)


def check_runs():
    """Each case in each format, also with what is not checked, and without its kinds of problems."""
    for case in cases():
        files = {"manifest": case.manifest} if case.manifest else {}
        node = ["--node", case.node] if case.node else []
        of_mismatches = ", 0 mismatches" if case.manifest and case.lock["lockfileVersion"] > 1 else ""
        for form in ("json", "text"):
            write = text_of if form == "json" else lambda one: sentence(case.lock, one)
            problems, unchecked = map(write, case.problems), list(map(write, case.unchecked))
            lines = list(problems)
            counts = f"{case.counts}, {len(lines)} problems, {len(unchecked)} not checked"
            words = ["--format", form, *node]
            hint = " (see --unchecked)" if unchecked else ""
            yield Run(case.lock, words, lines, counts + hint + of_mismatches, files)
            if unchecked:
                yield Run(case.lock, [*words, "--unchecked"], lines, counts + of_mismatches, files, unchecked=unchecked)
        yield from annotated_case(case, counts + of_mismatches, files)
        if lines:
            kinds = [one["problem"].replace(" ", "-") for one in case.problems]
            ignored = [word for kind in sorted(set(kinds)) for word in ("--ignore", kind)]
            yield Run(case.lock, [*node, *ignored], [], f"{case.counts}, 0 problems, 0 not checked{of_mismatches}", files)


def read_of(advisories):
    """How many advisories a file has, as it is told: one of OSV's has `affected`, and npm's form has a list for each name."""
    lists = [[advisories]] if "affected" in advisories else advisories.values() if isinstance(advisories, dict) else [advisories]
    count = sum(map(len, lists))
    return f"{count} advisor{'y' if count == 1 else 'ies'} read"


def audit_runs():
    for advisories, lock, level, hits in [*audits(), *osv_audits()]:
        packages = len(lock["packages"])
        dependencies = sum(len(one.get("dependencies", {})) for one in lock["packages"].values())
        counts = f"{packages} packages, {dependencies} dependencies, "
        if "1.7.0" in text_of(lock):
            # (a dependency on a later version than the installed one is a problem too; a row of npm_answers has this audit)
            continue
        error = f"{counts}0 problems, 0 not checked, {len(hits)} hit, {read_of(advisories)}"
        for form in ("json", "text"):
            lines = [text_of(one) if form == "json" else hit_sentence(one) for one in hits]
            words = ["--format", form, "--severity", level]
            yield Run(lock, words, lines, error, {"advisories": advisories})
        found = [Finding(advisory_rule(one), hit_sentence(one), at_package(one["folder"])) for one in hits]
        yield from annotated(lock, ["--severity", level], found, [], error, {"advisories": advisories})


class ExceptedRun(Run):
    """A run of npm_lock_check with a file of exceptions, each an id and a name. `told` is on standard error, after the counts."""

    def __init__(self, lock, lines, counts, told, exceptions, advisories):
        super().__init__(lock, [], lines, "\n".join([counts, *told]), {"advisories": advisories})
        self.exceptions = exceptions

    def arguments(self, folder):
        words, path = super().arguments(folder), os.path.join(folder, "exceptions.toml")
        with open(path, "w", encoding="utf-8") as file:
            for known, name in self.exceptions:
                file.write(f'[[exceptions]]\nid = "{known}"\npackage = "{name}"\nreason = "why"\n')
        return [*words, "--exceptions", path]


def exception_runs():
    """Many packages that are hit, each with an exception, or with one that is about another package; and one package that many
    advisories hit, each of them excepted."""
    for advisories, lock, _, hits in list(audits())[0:3:2]:
        counts = f"{len(lock['packages'])} packages, {len(hits)} dependencies, 0 problems, 0 not checked"
        pairs = [(told["id"], one) for one in hits for told in one["advisories"]]
        said = [f"excepted: {one['name']} {one['version']} {WORDS['hit']} {known}: why ({one['folder']})" for known, one in pairs]
        exceptions = [(known, one["name"]) for known, one in pairs]
        yield ExceptedRun(lock, [], f"{counts}, 0 hit, {read_of(advisories)}, {len(pairs)} excepted", said, exceptions, advisories)
        idle = [(known, name + "-") for known, name in exceptions]
        said = [f"exception: {known} of {name} {WORDS['idle']}: why" for known, name in idle]
        yield ExceptedRun(lock, list(map(text_of, hits)), f"{counts}, {len(hits)} hit, {read_of(advisories)}", said, idle, advisories)


def omission_runs():
    """Many packages for development, of which each has a problem."""
    installed = at_root("1.0.0", dev=True, dependencies={"gone": "1"})
    lock = lock_of({"devDependencies": {name: "2" for name in NAMES}}, installed)
    counts = f"{MANY + 1} packages, {2 * MANY} dependencies, 0 problems, 0 not checked, {MANY} packages omitted"
    yield Run(lock, ["--omit", "dev"], [], counts)


def manifest_runs():
    """Mismatches of the root's manifest, and of the manifests of many workspaces."""
    installed = at_root("1.0.0")
    for group in GROUPS[:1]:
        lock = lock_of(asked("^1.0.0", group), installed)
        found = [mismatch(name, group, locked="^1.0.0", spec="^1") for name in NAMES]
        counts = f"{MANY + 1} packages, {MANY} dependencies, 0 problems, 0 not checked, {MANY} mismatches"
        for form in ("json", "text"):
            lines = [text_of(one) if form == "json" else mismatch_sentence(one) for one in found]
            files = {"manifest": asked("^1", group)}
            yield Run(lock, ["--format", form, "--exact"], lines, counts, files)
            yield Run(lock, ["--format", form], [], counts, files, unchecked=lines)
        findings = [Finding("mismatch", mismatch_sentence(one), at_mismatch(one), "error") for one in found]
        yield from annotated(lock, ["--exact"], findings, [], counts, files)
        warnings = [Finding("mismatch", mismatch_sentence(one), at_mismatch(one)) for one in found]
        yield from annotated(lock, [], [], warnings, counts, files)
    names = [f"w{number:05}" for number in range(MANY)]
    root = {"workspaces": [f"w/{name}" for name in names]}
    links = {f"node_modules/{name}": {"link": True, "resolved": f"w/{name}"} for name in names}
    workspaces = {f"w/{name}": {"version": "1.0.0", "dependencies": {"d": "1"}} for name in names}
    lock = lock_of(root, {**links, **workspaces, "node_modules/d": {"version": "1.0.0"}})
    manifests = {f"w/{name}": {"name": name, "version": "1.0.0", "dependencies": {"d": "^1"}} for name in names}
    found = [mismatch("d", "dependencies", f"w/{name}", locked="1", spec="^1") for name in names]
    counts = f"{MANY + 2} packages, {MANY} dependencies, 0 problems, 0 not checked, {MANY} mismatches"
    yield Run(lock, ["--format", "json", "--exact"], list(map(text_of, found)), counts, {"manifest": root}, manifests)


class RefusedRun(Run):
    """A run of npm_lock_check that refuses its input. With a line and a column it writes an annotation too."""

    def __init__(self, lock, words, says, place=None):
        super().__init__(lock, words, [], f"npm_lock_check: standard input: {says}")
        self.status = 2
        if place:
            self.output = f"::error file=-,line={place[0]},col={place[1]}::{says}\n"


def refused_runs():
    """A fault in the last of many packages, and in the innermost of packages that are each inside the one before, and a folder that
    is too long."""
    many = lock_of({}, at_root("1.0.0"))
    many["packages"]["z"] = {"dependencies": {"a": "1", "last": 1}}
    names = ["packages", "z", "dependencies", "last"]
    faults = [(many, "a dependency of a package is no string", names)]
    deep, names = {"version": "1.0.0", "requires": 1}, ["requires"]
    for _ in range(DEEP):
        deep, names = {"version": "1.0.0", "dependencies": {"a": deep}}, ["dependencies", "a", *names]
    faults.append(({"lockfileVersion": 1, **deep}, "the dependencies of a package are no object", names))
    too_long = "npm does not write the folder of a package so, or it has more than 4096 bytes"
    faults.append((lock_of({}, {NESTED: {"version": "1.0.0"}}), too_long, ["packages", NESTED]))
    for lock, fault, names in faults:
        column = text_of(lock).index(f'"{names[-1]}":') + 1
        path = ", ".join(f'"{name}"' for name in names)
        says = f"the input is no lock file that is read here: {fault}: {path} (line 1, column {column})"
        yield RefusedRun(lock, [], says)
        yield RefusedRun(lock, ["--format", "github"], says, (1, column))


def lock_runs():
    yield from check_runs()
    yield from audit_runs()
    yield from exception_runs()
    yield from omission_runs()
    yield from manifest_runs()
    yield from refused_runs()


def pair_runs():
    """Pairs of lines, and their answers."""
    lines, answers = [], []
    for number in range(MANY):
        lines += [f"^{number}.1.0", f"{number}.{number % 3}.0", f"<={number}.0.0-rc || foo", f"{number}.0.0-b"]
        answers += ["yes" if number % 3 else "no", "yes"]
    yield lines, answers
    many = "||".join(f"{number}.0.0" for number in range(MANY))
    yield [many, f"{MANY - 1}.0.0", "f" * LONG, "1.0.0", "1.2.3", "1" * LONG], ["yes", "bad range", "bad version"]


LONG_WORD = 100000  # The bytes of a long word of a command line, which the system bounds.
# A form of alternatives that semver_command explains, the print of its sets, and which prereleases satisfy them.
EXPLAINED = [
    ("^%.1.0", ">=%.1.0 <&.0.0-0", "no prereleases"),
    (">=%.0.0-rc.% <%.9.0-a.b", ">=%.0.0-rc.% <%.9.0-a.b", "prereleases of %.0.0 and %.9.0"),
    (">%.0.0 <%.0.1-0", ">%.0.0 <%.0.1-0", "no versions"),
]


def explained_runs():
    """Words of semver_command after `--explain`, with the status and all that is written."""
    for form, print_of, note in EXPLAINED:
        sets, noted = alternatives(print_of), f"{print_of}  {note}"
        lines = alternatives(noted).replace("||", "\n") + "\n"
        yield ["--range", alternatives(form)], (0, lines, "")
        yield [word for text in sets.split("||") for word in ("--range", text)], (0, lines, "")
    included = alternatives(">=%.1.0 <&.0.0-0  all prereleases inside").replace("||", "\n") + "\n"
    yield ["--include-prerelease", "--range", alternatives("^%.1.0")], (0, included, "")
    before = ">=1.0.0 " * (LONG_WORD // 8)
    yield ["--range", before + "foo"], (1, "", f"{before}foo\n{' ' * len(before)}^\n")
    yield ["--loose", "--range", before + "foo"], (0, ">=1.0.0  no prereleases\n", "")
    yield ["--range", "f" * LONG_WORD, "--range", "1.2.3"], (1, "1.2.3  no prereleases\n", "f" * LONG_WORD + "\n^\n")


class PickRun:
    """A run of npm_pick_command or npm_resolve_command: the words, the documents of its mirror and other files, and all that is written."""

    def __init__(self, words, files, lines, error=(), status=0):
        self.words, self.files, self.status = words, files, status
        self.output, self.error = ("".join(line + "\n" for line in it) for it in (lines, error))

    def arguments(self, folder):
        """Writes the files, and returns the words."""
        os.makedirs(os.path.join(folder, "mirror"))
        for at, value in self.files.items():
            with open(os.path.join(folder, at), "w", encoding="utf-8") as file:
                file.write(text_of(value))
        return self.words


def document(*versions, **members):
    return {"dist-tags": {"latest": versions[-1]}, "versions": {version: {} for version in versions}, **members}


def pick_runs():
    """Runs of npm_pick_command on many dependencies, packages, versions, manifests and notes."""
    numbers = [f"{number:04}" for number in range(MANY)]
    outdated = ["--packuments", "mirror", "--lock", "lock.json", "--outdated"]
    keep = ["--packuments", "mirror", "--manifest", "package.json", "--keep"]
    three = document("1.0.0", "1.2.0", "2.0.0")

    def of_root(spec, version):
        packages = {f"node_modules/n{at}": {"version": version} for at in numbers}
        return lock_of({"dependencies": {f"n{at}": spec for at in numbers}}, packages)

    behind = [f"n{at} 1.0.0 1.2.0 2.0.0" for at in numbers]
    files = {"lock.json": of_root("npm:a@^1", "1.0.0"), "mirror/a.json": three}
    yield PickRun(outdated, files, behind, status=1)
    yield PickRun(outdated, {"lock.json": of_root("npm:a@*", "2.0.0"), "mirror/a.json": three}, [])
    error = [f"npm_pick: {MANY} dependencies have no document in the folder"]
    yield PickRun(outdated, {"lock.json": of_root("1", "1.0.0")}, [], error)
    files = {"lock.json": of_root("1", "1.0.0"), **{f"mirror/n{at}.json": three for at in numbers}}
    yield PickRun(outdated, files, behind, status=1)
    many = {f"n{at}": "^1" for at in numbers}
    files = {"package.json": {"dependencies": many}, **{f"mirror/n{at}.json": three for at in numbers}}
    yield PickRun(keep, files, [f"n{at}@1.2.0" for at in numbers])
    yield PickRun([*keep, "--all"], files, [f"n{at}@{key}" for at in numbers for key in ("1.0.0", "1.2.0")])
    absent = [f"npm_pick: no document in the folder: n{at}" for at in numbers]
    yield PickRun(keep, {"package.json": {"dependencies": many}}, [], absent, 1)
    notes = [f"npm_pick: not from a registry: n{at} (./n{at})" for at in numbers]
    yield PickRun(keep, {"package.json": {"dependencies": {f"n{at}": f"./n{at}" for at in numbers}}}, [], notes)
    versions = [f"1.{number}.0" for number in range(MANY)]
    files = {"package.json": {"dependencies": {"a": "*"}}, "mirror/a.json": document(*versions)}
    yield PickRun([*keep, "--all"], files, [f"a@{key}" for key in versions])
    words = ["--packument", "mirror/a.json", f">=1.0.0 <1.{MANY - 1}.0"]
    yield PickRun(words, files, [f"1.{MANY - 2}.0"])
    # as many manifests as the words of a command line name, with a dependency each
    few = numbers[:450]
    files = {f"{at}.json": {"dependencies": {f"n{at}": "npm:a@1.0.0" if int(at) % 2 else "npm:a@2"}} for at in few}
    words = ["--packuments", "mirror", "--keep", *[word for at in few for word in ("--manifest", f"{at}.json")]]
    yield PickRun(words, {**files, "mirror/a.json": three}, ["a@1.0.0", "a@2.0.0"])
    files = {f"{at}.json": {"dependencies": {f"n{at}": "1"}} for at in few}
    yield PickRun(words, files, [], absent[: len(few)], 1)
    # long texts
    long = "a" * 200
    yield PickRun(keep, {"package.json": {"dependencies": {long: "^1 " + "|| ^1 " * (LONG // 6)}}, f"mirror/{long}.json": three},
                  [f"{long}@1.2.0"])


def lock_lines(numbers):
    """The lines of a lock file in which each package asks for the next one."""
    root = {"dependencies": {f"n{numbers[0]}": "*"}}
    asks = [{"dependencies": {f"n{after}": "1"}} for after in numbers[1:]] + [{}]
    packages = {"": root, **{f"node_modules/n{at}": {**asked, "version": "1.0.0"} for at, asked in zip(numbers, asks)}}
    return json.dumps({"lockfileVersion": 3, "packages": packages, "requires": True}, indent=2).split("\n")


def chain_reasons(numbers):
    """Why the first name of a chain cannot be installed if the last one has no document: a line says what follows from at most seven others."""
    lines, sources = [], []

    def add(line):
        lines.append(line)
        sources.append(len(lines))

    def conclude(line):
        before = f"{', '.join(map(str, sources[:-1]))} and {sources[-1]}" if sources[1:] else f"{sources[0]}"
        lines.append(f"{line} (by {before})")
        sources[:] = [len(lines)]

    for at, after in reversed(list(zip(numbers, numbers[1:]))):
        add(f"n{at} 1.0.0 asks for n{after}")
        if len(lines) == 1:
            conclude(f"since n{after} has no document, no version of n{at} that asks for n{after} fits")
        elif len(sources) == 7:
            conclude(f"so no version of n{at} that asks for n{after} fits")
    add(f"the root asks for n{numbers[0]} *")
    conclude(f"so no version of n{numbers[0]} is left")
    return [f"  {place}. {line}" for place, line in enumerate(lines, 1)]


def resolve_runs():
    """Runs of npm_resolve_command on many names, versions, peers, manifests and notes."""
    numbers = [f"{number:04}" for number in range(MANY)]
    words = ["--peers", "--packuments", "mirror", "--manifest", "package.json"]
    three = document("1.0.0", "1.2.0", "2.0.0")
    many = {"dependencies": {f"n{at}": "^1" for at in numbers}}
    files = {"package.json": many, **{f"mirror/n{at}.json": three for at in numbers}}
    yield PickRun(words, files, [f"n{at}@1.2.0" for at in numbers])
    rules = {f"n{at}": "2.0.0" for at in numbers}
    yield PickRun(words, {**files, "package.json": {**many, "overrides": rules}}, [f"n{at}@2.0.0" for at in numbers])
    rules = {f"n{at}@1": "2.0.0" for at in numbers}
    unread = [f"npm_resolve: overrides are not read: n{at}" for at in numbers]
    yield PickRun(words, {**files, "package.json": {**many, "overrides": rules}}, [f"n{at}@1.2.0" for at in numbers], unread)
    locked = {"lock.json": lock_of({}, {f"node_modules/n{at}": {"version": "1.0.0"} for at in numbers})}
    yield PickRun([*words, "--lock", "lock.json"], {**files, **locked}, [f"n{at}@1.0.0" for at in numbers])
    yield PickRun([*words, "--lowest"], files, [f"n{at}@1.0.0" for at in numbers])
    packages = ",".join(f'{{"name":"n{at}","package":"n{at}","version":"1.2.0"}}' for at in numbers)
    yield PickRun([*words, "--format", "json"], files, [f'{{"outcome":"selected","packages":[{packages}]}}'])
    versions = [f"1.{number}.0" for number in range(MANY)]
    files = {"package.json": {"dependencies": {"a": f"<1.{MANY - 1}.0"}}, "mirror/a.json": document(*versions)}
    yield PickRun(words, files, [f"a@1.{MANY - 2}.0"])
    # each asks for the next one
    chain = {f"mirror/n{at}.json": {"versions": {"1.0.0": {"peerDependencies": {f"n{after}": "1"}}}} for at, after in zip(numbers, numbers[1:])}
    last = {f"mirror/n{numbers[-1]}.json": {"versions": {"1.0.0": {}}}}
    yield PickRun(words, {"package.json": {"dependencies": {f"n{numbers[0]}": "*"}}, **chain, **last}, [f"n{at}@1.0.0" for at in numbers])
    # the same by dependencies, and as a lock file
    chained = {at: {"versions": {"1.0.0": {"dependencies": value["versions"]["1.0.0"]["peerDependencies"]}}} for at, value in chain.items()}
    files = {"package.json": {"dependencies": {f"n{numbers[0]}": "*"}}, **chained, **last}
    yield PickRun([*words, "--flat"], files, [f"n{at}@1.0.0" for at in numbers])
    yield PickRun([*words, "--flat", "--format", "lock"], files, lock_lines(numbers))
    # each in a tree, and the same where all are asked for at once
    yield PickRun(words[1:], files, [f"node_modules/n{at} n{at}@1.0.0" for at in numbers])
    wide = {"package.json": many, **{f"mirror/n{at}.json": three for at in numbers}}
    yield PickRun(words[1:], wide, [f"node_modules/n{at} n{at}@1.2.0" for at in numbers])
    alone = ["This cannot be installed:", f"  n{numbers[0]} *, which the root asks for", "because", *chain_reasons(numbers)]
    yield PickRun(words, {"package.json": {"dependencies": {f"n{numbers[0]}": "*"}}, **chain}, alone, status=1)
    notes = [f"npm_resolve: not from a registry: n{at} (./n{at})" for at in numbers]
    yield PickRun(words, {"package.json": {"dependencies": {f"n{at}": f"./n{at}" for at in numbers}}}, [], notes)
    # as many manifests as the words of a command line name, with a dependency each
    few = numbers[:450]
    files = {f"{at}.json": {"dependencies": {f"n{at}": "npm:a@1.0.0"}} for at in few}
    of_all = ["--peers", "--packuments", "mirror", *[word for at in few for word in ("--manifest", f"{at}.json")]]
    yield PickRun(of_all, {**files, "mirror/a.json": three}, [f"n{at}@npm:a@1.0.0" for at in few])
    # long texts
    long = "a" * 200
    yield PickRun(words, {"package.json": {"dependencies": {long: "^1 " + "|| ^1 " * (LONG // 6)}}, f"mirror/{long}.json": three},
                  [f"{long}@1.2.0"])
