"""Reads sources of Rattle: imports, the blocks of types and traits with their ghost members, and functions with their clauses."""
import collections
import functools
import itertools
import re
from dataclasses import dataclass

import files

TOKEN = re.compile(r"//[^\n]*|r#\".*?\"#|\"(?:\\.|[^\"\\])*\"|'(?:\\(?:u\{\w+\}|.)|[^'\\\n])'", re.S)
FUNCTION = re.compile(r"\bfn\s+(\w+)")
BLOCK = re.compile(r"\b(impl|trait)\b([^;{]*)\{")
GHOST = re.compile(r"^[ \t]*ghost +(?!use\b)(\w+)\s*[=:]\s*\{", re.M)
# What follows a signature or a clause: a clause, a body, or a `;`; and brackets, in which none of these counts.
NEXT = re.compile(r"\b(requires|ensures)\b\*?(?:\s+(\w+))?\s*\{|[{;()\[\]]")
# A block: where it begins and ends, in letters of the source, and the type and the trait that it is of, or None.
Block = collections.namedtuple("Block", "start end type trait")


@dataclass
class Function:
    """A function: where it begins, where its body does, and where it ends, in letters of the source."""

    name: str
    start: int
    body: int  # (where there is no body: the end)
    end: int
    module: list
    type: str  # The type that it is a method of, or None.
    trait: str  # And the trait.
    clauses: list  # Of each: `requires` or `ensures`, the label or None, and the clause.
    is_inner: bool = False  # Whether it is within another function.

    def path(self):
        """A path below its crate, or of a method the end of it: its type may be in another module, and a method of a
        trait stands below its type and the trait."""
        trait = self.trait if self.trait not in (None, self.type) else ""
        return "::".join([*([f"{self.type}{trait}"] if self.type else self.module), self.name])


class Source:
    """A source: its `code` without comments, and `plain`, without what stands in quotes too. In both each letter stands
    where it was."""

    def __init__(self, text, file=""):
        self.code = TOKEN.sub(lambda it: blank(it) if it[0].startswith("//") else it[0], text)
        self.plain = TOKEN.sub(blank, text)
        self.blocks = list(blocks_of(self.plain))
        self.functions = [self.function(found, module_of(file)) for found in FUNCTION.finditer(self.plain)]
        ends = itertools.accumulate((it.end for it in self.functions), max, initial=0)
        for function, end in zip(self.functions, ends):
            function.is_inner = function.start < end

    def function(self, found, module):
        clauses, after = [], next_part(self.plain, found.end())
        while after and after[1]:
            end = end_of_block(self.plain, after.end() - 1)
            clauses.append((after[1], after[2], self.code[after.end() : end - 1]))
            after = next_part(self.plain, end)
        has_body = after and after[0] == "{"
        extent = (after.start(), end_of_block(self.plain, after.start())) if has_body else (found.end(), found.end())
        block = next((it for it in self.blocks if it.start < found.start() < it.end), Block(0, 0, None, None))
        return Function(found[1], found.start(), *extent, module, block.type, block.trait, clauses)

    def ghost_members(self, block):
        """The ghost members of a block: the name, and what it is."""
        for member in GHOST.finditer(self.plain, block.start, block.end):
            yield member[1], self.code[member.end() : end_of_block(self.plain, member.end() - 1) - 1]


@functools.cache
def source(path):
    """A source of the repository."""
    return Source(files.read(path), path.split("/", 2)[2])


def blank(token):
    """Blanks in place of a token."""
    return re.sub(r"[^\n]", " ", token[0])


def module_of(file):
    """The module that a file is, as a list of names."""
    return [part for part in file.removesuffix(".rt").split("/")[1:] if part not in ("lib", "main")]


def next_part(plain, at):
    """The next clause, body or `;` outside of brackets, or None."""
    depth = 0
    for found in NEXT.finditer(plain, at):
        depth += (found[0] in "([") - (found[0] in ")]")
        if depth == 0 and found[0] not in ")]":
            return found
    return None


def end_of_block(plain, at):
    """Where the block ends that begins at a brace."""
    depth = 0
    for brace in re.compile(r"[{}]").finditer(plain, at):
        depth += 1 if brace[0] == "{" else -1
        if depth == 0:
            return brace.end()
    raise ValueError("a block has no end")


def blocks_of(plain):
    """The blocks of types and traits."""
    for block in BLOCK.finditer(plain):
        head = re.sub(r"\bwhere\b.*", "", block[2].replace("->", ""), flags=re.S)
        while re.search(r"<[^<>]*>", head):
            head = re.sub(r"<[^<>]*>", "", head)
        head = head.split(":")[0] if block[1] == "trait" else head
        words = [part.strip().split("::")[-1].strip() for part in re.split(r"\bfor\b", head)]
        trait = words[0] if len(words) > 1 or block[1] == "trait" else None
        yield Block(block.start(), end_of_block(plain, block.end() - 1), words[-1].lstrip("&").strip(), trait)


def function_at(file, text, place):
    """The innermost function around a place, or None."""
    around = [it for it in Source(text, file).functions if it.start <= place < it.end]
    return max(around, key=lambda it: it.start, default=None)


def path_of(text):
    """The names of a path such as `Rattle.a.b` or `a::b`."""
    path = [name for name in re.split(r"\s*(?:::|\.)\s*", text.strip()) if name]
    return path[1:] if path[:1] == ["Rattle"] else path


def paths_of_tree(tree):
    """The names that an import brings, each with the path of what it names: `a.{b, c as d}` brings b and d."""
    heads, found = [""], []
    for words, mark in re.findall(r"([^{},]*)([{},]|$)", tree):
        path, _, alias = words.partition(" as ")
        if mark == "{":
            heads.append(heads[-1] + words)
        elif words.strip():
            whole = path_of(heads[-1] + path)
            found.append((alias.strip() or whole[-1], whole))
        if mark == "}":
            heads.pop()
    return found


def end_of_import(text, at):
    """Where an import ends: at a `;`, or at the end of a line outside braces."""
    depth = 0
    for place in range(at, len(text)):
        depth += (text[place] == "{") - (text[place] == "}")
        if text[place] == ";" or text[place] == "\n" and depth == 0:
            return place
    return len(text)


def imported(text, start):
    """What the imports of a text bring that begin so."""
    starts = [it.end() for it in re.finditer(rf"^[ \t]*{start}\s+", text, re.M)]
    return [it for at in starts for it in paths_of_tree(text[at : end_of_import(text, at)])]
