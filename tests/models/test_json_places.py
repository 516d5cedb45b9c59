"""The places that json_places finds beside those of a reader in Python, on made JSON texts.

The texts have members of one name, names that are one only after their escapes are read, characters of one to four bytes, every
kind of white space, lists, lists in lists, and objects in lists. Each path of members and items of a text is asked for, and paths that
are not there.
"""
import json
import random
from json.decoder import scanstring

from support import answers, made

NAMES = ["a", "b", "aa", "", "ä", "x\U0001f40b", "node_modules/a", "\x00", "a\"b"]
SPACES = ["", "", " ", "\n", "\r\n", "\t", " \n  "]


def literal(maker, text):
    """A JSON string of this text, with some escapes that it need not have."""
    parts = []
    for letter in text:
        if letter in '"\\' or letter < " " or maker.random() < 0.1:
            units = letter.encode("utf-16-be")
            parts += [f"\\u{units[i]:02x}{units[i + 1]:02x}" for i in range(0, len(units), 2)]
        else:
            parts.append(letter)
    return '"' + "".join(parts) + '"'


def value(maker, depth):
    """A JSON text, nested no deeper."""
    space = lambda: maker.choice(SPACES)
    kind = maker.randrange(6) if depth else maker.randrange(4)
    if kind == 0:
        return literal(maker, maker.choice(NAMES) + maker.choice(['', '{"a": 1}', ":", "\\", "\n"]))
    if kind == 1:
        return maker.choice(["0", "-1.5e3", "true", "false", "null"])
    if kind == 2 or kind == 3 and depth < 3:
        return "[" + ",".join(space() + value(maker, depth - 1) + space()
                              for _ in range(maker.randrange(3) if depth else 0)) + "]"
    members = maker.randrange(5) if depth else 0
    return "{" + space() + ",".join(space() + literal(maker, maker.choice(NAMES)) + space() + ":" + space()
                                    + value(maker, depth - 1) + space() for _ in range(members)) + "}"


def skip(text, at):
    while at < len(text) and text[at] in " \t\r\n":
        at += 1
    return at


def places(text, at, path, found):
    """Reads the value at an index, and keeps the index of each member and of each item by its path. The end of the value."""
    at = skip(text, at)
    if text[at] == "{":
        members = {}
        at = skip(text, at + 1)
        while text[at] != "}":
            begin = at
            name, at = scanstring(text, at + 1)
            at = skip(text, at)
            inner = {}
            at = places(text, at + 1, path + [name], inner)
            members[name] = (begin, inner)
            at = skip(text, at)
            if text[at] == ",":
                at = skip(text, at + 1)
        for name, (begin, inner) in members.items():
            found[tuple(path + [name])] = begin
            found.update(inner)
        return at + 1
    if text[at] == "[":
        position = 0
        at = skip(text, at + 1)
        while text[at] != "]":
            found[tuple(path + [position])] = at
            at = skip(text, places(text, at, path + [position], found))
            position += 1
            if text[at] == ",":
                at = skip(text, at + 1)
        return at + 1
    _, at = json.decoder.JSONDecoder().raw_decode(text, at)
    return at


def order(path):
    """What paths are sorted by: members come before items."""
    return [(0, step.encode(), 0) if isinstance(step, str) else (1, b"", step) for step in path]


def line_of(text, index):
    """The line that is wanted for the member or the item at an index."""
    before = text[:index]
    return f"{len(before.encode())} {before.count(chr(10)) + 1} {index - (before.rfind(chr(10)) + 1) + 1}"


def test_finds_each_path_of_made_texts(record_property):
    count, maker = 2000 * made.TIMES, random.Random(20201127 + made.SEED)
    calls, wanted = [], []
    for _ in range(count):
        text = maker.choice(SPACES) + value(maker, 5) + maker.choice(SPACES)
        json.loads(text)
        found = {}
        places(text, 0, [], found)
        paths = set(found)
        for _ in range(4):
            paths.add(tuple(maker.choice(NAMES + [0, 1, 2, 7]) for _ in range(maker.randrange(1, 4))))
        paths = sorted(paths, key=order)
        calls.append(["json_places::places_of", json.dumps([list(path) for path in paths]), text])
        wanted.append("".join(f"{line_of(text, found[path]) if path in found else 'none'}\t" for path in paths))
    for call, got, line in zip(calls, answers.ask_all("npm_answers", calls), wanted, strict=True):
        assert got == line, call
    record_property("made", count)
