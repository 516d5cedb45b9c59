"""What npm_lock_check writes in the formats github and sarif for lock files that are written in one line."""
import json
import re

DEPENDENCIES = "https://docs.npmjs.com/cli/configuring-npm/package-json#dependencies"
AUDIT = "https://docs.npmjs.com/cli/commands/npm-audit"
LOCK = "https://docs.npmjs.com/cli/configuring-npm/package-lock-json"
# The level of each rule, its description and its page.
RULES = {
    "missing": ("error", "A dependency is not installed.", DEPENDENCIES),
    "invalid": ("error", "An installed version does not satisfy what a package asks for.", DEPENDENCIES),
    "peer-local": ("error", "A peer dependency is installed inside the package that has it as a peer.", DEPENDENCIES.replace("dep", "peerdep")),
    "engine": ("error", "The version of Node does not satisfy engines.node of a package.", DEPENDENCIES.replace("dependencies", "engines")),
    "mismatch": ("warning", "A manifest and the lock file do not ask for the same.", "https://docs.npmjs.com/cli/commands/npm-ci"),
    "advisory": ("error", "A security advisory hits an installed package.", AUDIT),
    "unchecked": ("note", "A dependency is not checked, a manifest was not read, or workspaces were not looked for.", DEPENDENCIES),
    "refused": ("error", "A file is not read, or has a fault.", LOCK),
    "source": ("error", "Where a package comes from is suspicious: its address is that of another version or package, is not encrypted or is below "
                        "no registry that was given, or it has no integrity.", LOCK),
}
# GitHub's `security-severity` of the severities that have a rule of their own.
SCORES = {"critical": "9.5", "high": "8.0", "moderate": "5.5", "low": "2.0"}
RULES |= {f"advisory-{it}": ("error", f"A security advisory of {it} severity hits an installed package.", AUDIT) for it in SCORES}
RULES["left-out"] = ("error", "A package that is needed is left out, since the lock file marks it.", LOCK)
COMMANDS = {"error": "error", "warning": "warning", "note": "notice"}


def columns(value):
    """The column of the name of each member, by the path of the member, in the text that `json.dumps` writes in one line with
    sorted keys and no spaces."""
    found = {}

    def after(value, path, at):
        """The column after a value that begins at a column."""
        if not isinstance(value, dict) or not value:
            return at + len(json.dumps(value, separators=(",", ":")))
        for key in sorted(value):
            # An opening brace or a comma comes before each name.
            found[(*path, key)] = at + 1
            at = after(value[key], (*path, key), at + 1 + len(json.dumps(key)) + 1)
        return at + 1

    after(value, (), 1)
    return found


def in_package(folder, *names):
    """The path of a member of a package in `packages`."""
    return ("packages", folder, *names)


def nested(folder, *names):
    """The path of a member of a package in `dependencies`, as lock files of version 1 have it."""
    return (*(part for name in folder.split("node_modules/")[1:] for part in ("dependencies", name.removesuffix("/"))), *names)


def at_dependency(one):
    """Where a problem is, or a dependency that is not checked: the first member of these that is there."""
    folder, name = one["from"], one["name"]
    if one.get("problem") == "engine":
        return [in_package(folder, "engines", "node"), in_package(folder)]
    groups = ["devDependencies", "optionalDependencies", "dependencies", "peerDependencies"]
    members = [in_package(folder, group, name) for group in groups] + [in_package(folder)]
    return [*members, nested(folder, "requires", name), nested(folder)]


def at_mismatch(one):
    return [in_package(one["from"], one["group"], one["name"]), in_package(one["from"])]


def at_package(folder):
    return [in_package(folder), nested(folder)]


class Finding:
    """What is found: its rule, its level, its sentence, and the paths of the members that it may be at."""

    def __init__(self, rule, message, paths, level=None):
        self.rule, self.message, self.paths, self.level = rule, message, paths, level or RULES[rule][0]

    def column(self, known):
        return next((known[path] for path in self.paths if path in known), 1)


def advisory_rule(one):
    """The rule of a package that is hit: that of its most severe advisory."""
    said = {it["severity"] for it in one["advisories"]}
    return next((f"advisory-{it}" for it in SCORES if it in said), "advisory")


def github(lock, findings):
    """The lines of annotations, for the file `-`."""
    known = columns(lock)
    return [f"::{COMMANDS[one.level]} file=-,line=1,col={one.column(known)}::{one.message.replace('%', '%25')}" for one in findings]


def plain(text):
    """A text as a plain text of a message: SARIF 2.1.0, sections 3.11.5 and 3.11.6."""
    return re.sub(r"[{}]", r"\g<0>\g<0>", re.sub(r"[][\\]", r"\\\g<0>", text))


def sarif(lock, findings):
    """The log, for the file `-`."""
    known = columns(lock)
    rules = [{"id": rule, "shortDescription": {"text": text}, "helpUri": page, "defaultConfiguration": {"level": level},
              **({"properties": {"security-severity": SCORES[rule[9:]], "tags": ["security"]}} if rule[9:] in SCORES else {})}
             for rule, (level, text, page) in RULES.items()]
    results = [{
        "ruleId": one.rule, "ruleIndex": list(RULES).index(one.rule), "level": one.level, "message": {"text": plain(one.message)},
        "locations": [{"physicalLocation": {"artifactLocation": {"uri": "-"}, "region": {"startLine": 1, "startColumn": one.column(known)}}}],
    } for one in findings]
    driver = {"name": "npm_lock_check", "version": "1.0.0", "rules": rules}
    run = {"tool": {"driver": driver}, "invocations": [{"executionSuccessful": True}], "columnKind": "unicodeCodePoints", "results": results}
    log = {"$schema": "https://json.schemastore.org/sarif-2.1.0.json", "version": "2.1.0", "runs": [run]}
    return json.dumps(log, separators=(",", ":"))
