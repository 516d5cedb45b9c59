# SPDX-License-Identifier: Apache-2.0
"""The tables of docs/GRAMMAR.md and docs/DIFFERENCES.md: what they say of a text is what the library says of it."""

import os
import re
import unittest
from typing import Callable, List, Optional, Tuple

from node_semver import Range, SemverError, Version

DOCS = os.path.join(os.path.dirname(os.path.abspath(__file__)), "..", "..", "..", "docs")
QUOTED = re.compile(r"`([^`]+)`")
Read = Callable[[str], Range]


def page(name: str) -> str:
    with open(os.path.join(DOCS, name), encoding="utf-8") as file:
        return file.read()


def section(text: str, heading: str) -> str:
    """What stands below a heading, up to the next one of its level or above."""
    level = heading.split(" ")[0]
    return re.split(rf"^#{{1,{len(level)}}} ", text.split(f"\n{heading}\n", 1)[1], flags=re.M)[0]


def rows(text: str) -> List[List[str]]:
    """The rows of all tables, without their heads."""
    found = []
    for table in re.findall(r"(?:^\S.*\|.*\n)+", text + "\n", re.M):
        lines = table.splitlines()
        if len(lines) > 2 and set(lines[1]) == set("-|"):
            found += [[cell.replace("\\|", "|") for cell in re.split(r" (?<!\\)\| ", line)] for line in lines[2:]]
    return found


def text_of(cell: str) -> Optional[str]:
    """The text that a cell names: one in backquotes, so many times a character, or the empty text."""
    made = ""
    for part in re.split(r"(?:, | )and ", cell.strip()):
        many, one = re.fullmatch(r"(\d+) times `(.)`", part), re.fullmatch(r"`([^`]+)`", part)
        if part == "the empty text":
            continue
        if part == "a newline":
            made += "\n"
        elif many:
            made += int(many.group(1)) * many.group(2)
        elif one:
            made += one.group(1)
        else:
            return None
    return made


def is_as(read: Read, text: str, wanted: str) -> Optional[bool]:
    """Whether the range of a text is what a cell says, or None if the cell says no range."""
    try:
        found: Optional[Range] = read(text)
    except SemverError:
        found = None
    wanted = re.sub(r": .*", "", wanted.strip()) if wanted.strip().startswith("refused") else wanted.strip()
    if wanted in ("refused", "ignored", "no cut"):
        return found is None
    if wanted.startswith("every release"):
        return found is not None and all(it in found for it in ("0.0.0", "1.2.3")) and "1.2.3-a" not in found
    if wanted.startswith("no version"):
        return found is not None and found.min_version() is None
    named = re.fullmatch(r"`([<>=~^0-9*][^`]*)`", wanted)
    if named is None or ".." in named.group(1):
        return None
    # (a print with a number above the limit is read by nothing)
    return found is not None and (str(found) == named.group(1) or found == read(named.group(1)))


class Pages(unittest.TestCase):
    """Each row that says what a text is read as; how many there are, so that none is passed over in silence."""

    def check(self, read: Read, texts: str, results: str) -> int:
        """Compares the texts of one cell with the results of another, both divided at `;`. Returns how many were compared."""
        count, asked, said = 0, texts.split("; "), results.split("; ")
        for group, wanted in zip(asked, said * len(asked) if len(said) == 1 else said):
            listed = group.split(", ") if len(group.split(", ")) > 1 else [group]
            each = wanted.split(", ") if len(wanted.split(", ")) == len(listed) else [wanted] * len(listed)
            for cell, one in zip(listed, each):
                text = text_of(cell)
                held = None if text is None else is_as(read, text, one)
                if held is not None:
                    self.assertTrue(held, f"{text!r} is not {one}")
                    count += 1
        return count

    def test_faults_of_versions(self) -> None:
        count = 0
        for _, kind, _, examples in rows(section(page("GRAMMAR.md"), "## Versions")):
            for example in examples.split("; "):
                text, offset = example.rsplit(": ", 1)
                with self.assertRaises(SemverError) as caught:
                    Version(text_of(text) or "")
                self.assertEqual(caught.exception.offset, int(offset), example)
                self.assertEqual(caught.exception.kind, re.sub(r'[`]|\("version"\)', "", kind), example)
                count += 1
        self.assertEqual(count, 10)

    def test_examples_of_comparators(self) -> None:
        examples = re.findall(r"`([^`]+)`\s+is\s+(`[<>^~=][^`]*`)", page("GRAMMAR.md").split("\n## npm's own reading\n")[0])
        for range_text, result in examples:
            self.assertTrue(is_as(Range, range_text, result), f"{range_text} is not {result}")
        self.assertGreaterEqual(len(examples), 8)

    def test_readings_that_differ(self) -> None:
        table = section(page("GRAMMAR.md"), "## npm's own reading").split("Where the two readings differ:")[1]
        first = sum(self.check(Range, texts, results) for texts, results, _ in rows(table))
        second = sum(self.check(Range.parse_npm, texts, results) for texts, _, results in rows(table))
        self.assertGreaterEqual(min(first, second), 17)

    def test_offsets_of_refused_words(self) -> None:
        line = re.search(r"`1 \|\| 2 foo` at (\d+), `1 - 2 3`\s+at (\d+)", section(page("GRAMMAR.md"), "## npm's own reading"))
        assert line is not None
        for text, offset in zip(("1 || 2 foo", "1 - 2 3"), line.groups()):
            with self.assertRaises(SemverError) as caught:
                Range.parse_npm(text)
            self.assertEqual(caught.exception.offset, int(offset), text)

    def test_differences_from_npm(self) -> None:
        count = 0
        for _, texts, _, here in rows(section(page("DIFFERENCES.md"), "### `npm_semver::parse_range`")):
            loose, inside = "loose: " in texts, ", prereleases included" in texts

            def read(text: str, loose: bool = loose, inside: bool = inside) -> Range:
                return Range.parse_npm(text, loose=loose, include_prerelease=inside)

            count += self.check(read, texts.replace("loose: ", "").replace(", prereleases included", ""), here)
        self.assertGreaterEqual(count, 16)


if __name__ == "__main__":
    unittest.main()
