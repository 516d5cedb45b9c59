"""Imports of sources, definitions and proofs, and paths that name a crate, keep to the borders:

- A crate uses another by its code, its contracts, and the definitions of its `specs`: its `specs/Private` and `proofs` are cited there alone. Where
  a crate has `specs/Lemmas/Public`, others cite of its `specs/Lemmas` what that file lists.
- No import names a whole crate, or all of its `specs`: what follows would not be seen here.
- What has to be trusted, the definitions outside `Private` and `Lemmas`, rests on neither of these two.

EXCEPTIONS has what is let through: what is cited, by which files, and why. One that nothing needs is a fault too.
"""
import os
import re

import pytest

from support import programs
import definitions
import files
import rattle

listed = programs.crates.listed
EXCEPTIONS = [
    ("semver_texts.specs.Lemmas", "semver_versions/", "the readers of versions are those of numbers and identifiers"),
    ("semver_sets.proofs", "node_semver/proofs/Examples/", "worked examples compute with those of the crate below"),
    ("semver_sets.proofs", "semver_pairs/proofs/WorkedRows.antt", "the same"),
    ("semver_sets.proofs.Ranges.Decisions", "semver_pairs/proofs/AnswerLemmas.antt", "that a text is refused or not, and admits a version or not"),
    ("semver_versions.proofs.version.Version.TheLaws", "node_semver_c/proofs/handle/", "the toolchain writes a type's laws there"),
    ("node_semver.proofs.range.Range.TheLaws", "node_semver_c/proofs/handle/", "the same"),
]
PRIVATE, WHOLE, UNTRUSTED = "is private to its crate", "names a whole folder", "needs no trust, and a trusted file rests on it"
# An import: in a source wherever it stands, since texts and comments are blank there, and else where it begins a line.
USE = {".rt": re.compile(r"(?<![\w'.])use\s+(?=[\w:{])"), ".antt": re.compile(r"^\s*(?:pub\s+)?use\s+", re.M)}
# A crate of the repository, and names after it, of which the first is a folder that has a border.
DOT = r"\s*(?:::|\.)\s*"
MENTION = re.compile(rf"(?<![\w.:-])(?:Rattle{DOT})?(?:{'|'.join(listed())}){DOT}(?:specs|proofs)(?:{DOT}[^\s.:;,(){{}}\[\]]+)+")


def named(code, use):
    """The paths of a file's imports, and those of its other text that begin with a crate's name."""
    rest, at = "", 0
    for found in use.finditer(code):
        rest, at = rest + code[at : found.start()], rattle.end_of_import(code, found.end())
        yield from ((names, True) for _, names in rattle.paths_of_tree(code[found.end() : at]))
    yield from ((rattle.path_of(it), False) for it in MENTION.findall(rest + code[at:]))


def fault_of(crate, inside, names, is_import):
    """What is wrong with a path that a file of the crate names, or None."""
    of, rest = crate if names[0] in ("crate", "self", "super") else names[0], names[1:]
    if of not in listed():
        return None
    if is_import and rest in ([], ["*"], ["specs"], ["specs", "*"]) and of != crate:
        return WHOLE
    is_private, is_lemma = "Private" in rest or rest[:1] == ["proofs"], rest[:2] == ["specs", "Lemmas"]
    if (is_private or is_lemma) and re.match(r"specs/(?!Lib\.antt|(Private|Lemmas)(/|\.antt))", inside):
        return UNTRUSTED
    has_list = is_lemma and rest[2:3] != ["Public"] and os.path.exists(os.path.join(files.ROOT, f"crates/{of}/specs/Lemmas/Public.antt"))
    return PRIVATE if of != crate and (is_private or has_list) else None


def faults(file, text, used):
    """What is wrong in a file: each path and its fault. The exceptions that let something through are added to `used`."""
    crate, inside = file.split("/", 1)
    code = rattle.Source(text).plain if file.endswith(".rt") else definitions.COMMENT.sub("", text)
    for names, is_import in named(code, USE[os.path.splitext(file)[1]]):
        fault, path = fault_of(crate, inside, names, is_import), ".".join(names)
        letting = [it for it in EXCEPTIONS if fault == PRIVATE and f"{path}.".startswith(f"{it[0]}.") and file.startswith(it[1])]
        used.update(letting)
        if fault and not letting:
            yield path, fault


def test_each_import_keeps_to_the_borders():
    used, paths = set(), (path for path in files.below("crates") if path.endswith((".rt", ".antt")) and path.split("/")[1] in listed())
    assert [f"{path}: {cited} {fault}" for path in paths for cited, fault in faults(path.removeprefix("crates/"), files.read(path), used)] == []
    assert [f"nothing below {by} cites {of} any more" for of, by, why in EXCEPTIONS if (of, by, why) not in used] == []


# A file, its text, and what is wrong with an import in it; None where nothing is.
PLANTED = [
    ("node_semver/src/a.rt", "ghost use Rattle.semver_sets.specs as Hidden;", WHOLE),
    ("node_semver/src/a.rt", "use semver_sets::{set::admits, specs::{Meaning, Private::PieceReading as P}};", PRIVATE),
    ("node_semver/src/a.rt", "ghost use Rattle.semver_sets.{\n    specs.Meaning,\n    specs.Private.X,\n};", PRIVATE),
    ("node_semver/src/a.rt", "#[tactic(auto, using(semver_sets::proofs::Ranges::Decisions::found))]\nfn f() {}", PRIVATE),
    ("node_semver/src/a.rt", "mod m { use semver_sets::*; }", WHOLE),
    ("node_semver/src/a.rt", "fn f() {\n    let text = \"use semver_sets::*;\"; // Rattle.semver_sets.specs.Private.X\n}", None),
    ("node_semver/specs/A.antt", "pub use Rattle.node_semver.specs.Private.LeastViews.{IsStep}", UNTRUSTED),
    ("node_semver_c/specs/Private/A.antt", "use Rattle.node_semver.specs.Lemmas.GreatestViews.{IsBetter}", None),
    ("semver_pairs/proofs/A.antt", "use Rattle.semver_versions.specs.Lemmas.Order.{version_total}", PRIVATE),
    ("semver_sets/proofs/A.antt", "use Rattle.semver_cuts.specs.Lemmas.Lists.{all_map}", None),
]


@pytest.mark.parametrize("file, text, wanted", PLANTED, ids=range(len(PLANTED)))
def test_an_import_is_judged(file, text, wanted):
    assert [fault for _, fault in faults(file, text, set())] == ([wanted] if wanted else [])
