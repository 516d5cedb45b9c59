"""Reads files of definitions: the definitions in each, with the words above them and what they name."""
import functools
import os
import re
from dataclasses import dataclass, field

import files
import rattle

WORD = re.compile(r"(?<![\w'.])[^\W\d][\w']*(?:\.[^\W\d][\w']*)*")
BEFORE = r"(?:(?:pub|abbrev|unfoldable|opaque|irreducible|def|rec)\s+)*"
DECLARED = re.compile(rf"{BEFORE}(data|record)?\s*(?:pub\s+)?([\w'◌<=>≤≡+*-]+)")
# The head of a group: its definitions are indented, and refer to one another, or have parameters in common.
GROUP = re.compile(r"(abbrev )?mutual$|module\b.*\bwhere$")
COMMENT = re.compile(r"--.*")
FIELD = re.compile(r" +(?:pub )?([\w']+)(?: +[^:]*)? :")
CONSTRUCTORS = re.compile(r"^ {2,4}([\w']+(?: [\w']+)*) :")


def said_in(comments):
    """The words of comments, as one text."""
    return " ".join(re.sub(r"^ *-- ?", "", line) for line in comments).strip()


@dataclass(eq=False)
class Definition:
    name: str
    path: str  # The file that it is in.
    kind: str  # `data` or `record`, or nothing.
    said: str  # The words above it.
    lines: list = field(default_factory=list)  # With those of comments, but without blank ones.

    def short(self):
        """Its name, after its crate and its file."""
        _, crate, _, *rest = self.path.removesuffix(".antt").split("/")
        return ".".join([crate, *rest, self.name])

    def words(self):
        """What it names."""
        return {word for line in self.lines for word in WORD.findall(COMMENT.sub("", line))}

    def fields(self):
        """The fields of a record, each with the words above it."""
        found, comments = {}, []
        for line in self.lines if self.kind == "record" else ():
            comments += [line] if line.startswith(" ") and line.lstrip().startswith("--") else []
            if part := FIELD.match(line):
                found[part[1]], comments = said_in(comments), []
        return found


class File:
    """A file: its definitions by their names, the definition of each name with constructors, and what it imports."""

    def __init__(self, path):
        lines, code = files.lines(path), COMMENT.sub("", files.read(path))
        self.path, self.length = path, len(lines)
        self.imports = {name: way for start in ("use", "pub use") for name, way in rattle.imported(code, start)}
        self.named, own = {}, {}
        above, at = [], None
        for line in outside_groups(lines):
            if line.startswith("--") or GROUP.match(line):
                above.append(line)
            elif not line.strip() or re.match(r"(pub )?(use|mod)\b", line):
                above, at = [], None
            elif line[:1].strip() and line[:1] not in "})]":
                at, above = self.begun(line, above, own), []
            if at and line.strip() and not line.startswith("--"):
                at.lines.append(line)
        made = {name: it.name for it in self.named.values() if it.kind == "data" for line in it.lines
                for found in CONSTRUCTORS.findall(line) for name in found.split()}
        self.of = {**made, **own}

    def begun(self, line, above, own):
        """The definition that a line begins, or goes on with. The comments above it are lines of it."""
        found = DECLARED.match(line)
        if not found:
            raise ValueError(f"{self.path}: this is no definition: {line}")
        name = own[found[2]] = found[2] if found[1] else own.get(found[2], found[2])
        at = self.named.setdefault(name, Definition(name, self.path, found[1] or "", said_in(it for it in above if it.startswith("--"))))
        at.lines += above
        return at


def outside_groups(lines):
    """The lines, with those of a group as they would be outside of it."""
    within = False
    for line in lines:
        within = bool(GROUP.match(line)) or within and not line[:1].strip()
        yield line.removeprefix("  ") if within else line


file = functools.cache(File)


def found(way):
    """The definition that a path such as semver_sets, specs, Meaning, IsRefused leads to, wherever it is handed on from; None for a lemma, and
    for what is no definition of this repository."""
    for length in range(len(way) - 1, 2, -1) if way[1:2] == ["specs"] and "Lemmas" not in way else ():
        path = os.path.join("crates", *way[:length]) + ".antt"
        if os.path.isfile(os.path.join(files.ROOT, path)):
            at, names = file(path), way[length:]
            return at.named.get(names[0]) or (found(at.imports[names[0]] + names[1:]) if names[0] in at.imports else None)
    return None


def named_in(path, word):
    """The definition that a word of a definition in a file names, or None."""
    at, (first, *more) = file(path), word.split(".")
    return at.named.get(at.of.get(first)) or (found(at.imports[first] + more) if first in at.imports else None)
