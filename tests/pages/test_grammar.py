"""The tables of docs/GRAMMAR.md: what each row says of a shape of partials, of an operator or of a word is what the library reads."""
import re

import pytest

import calls
import pages

PAGE = pages.page("docs/GRAMMAR.md")
PORT, NPM = PAGE.split("\n## npm's own reading\n")
NAMES = ("M", "m", "p")


class Partial:
    """The numbers of a partial, None for an absent one, its prerelease and build, and its shape as the page calls it."""

    def __init__(self, text):
        words = re.fullmatch(r"(\w|\*)(?:\.(\w+))?(?:\.(\w+))?(-[a-z0-9.]+)?(\+.*)?", text)
        self.numbers = {name: int(word) if word and word.isdigit() else None for name, word in zip(NAMES, words.groups())}
        self.prerelease, self.build = words[4] or "", words[5] or ""
        there = [name for name in NAMES if self.numbers[name] is not None]
        self.shape = "no M" if "M" not in there else "full" if len(there) == 3 else "M, p" if "p" in there else ".".join(there)

    def filled(self, template, version, build=True):
        """A row's comparator, with numbers in place of its letters, and a version in place of Z. A set that is one version is
        printed as that version."""
        number = lambda it: self.numbers[it] or 0
        text = re.sub(r"\((\w)\+1\)", lambda it: str(number(it[1]) + 1), template).replace("-pre", self.prerelease)
        text = re.sub(r"(?<![A-Za-z])[Mmp](?![A-Za-z])", lambda it: str(number(it[0])), text)
        text = text.replace("Z", version if build else version.split("+")[0])
        return re.sub(r"^>=(\S+) <=\1$", r"\1", text)


def shapes():
    """By text: its partial, and the version Z and the row `alone` of its shape."""
    found, alone = {}, {}
    for shape, texts, versions, template in pages.tables(pages.section(PAGE, "## X-Ranges"))[0]:
        given = pages.quoted(texts)
        alone[shape] = pages.quoted(template)[0] if pages.quoted(template) else alone[template.removeprefix("as ")]
        named = pages.quoted(versions) or given
        for text, version in zip(given, named if len(named) > 1 else named * len(given), strict=True):
            assert Partial(text).shape == shape, f"{text} is not {shape}"
            found[text] = (Partial(text), version, alone[shape])
    return found


SHAPES = shapes()


def texts_of(cell):
    """Of each part of a cell of shapes, the texts that it means."""
    for part in re.sub(r"^(a third number|no third number): ", "", cell).split("; "):
        shape = re.match(r"full|M, p|M\.m|M|no M|any|", part)[0]
        named = [text for text, (partial, *_) in SHAPES.items() if shape in ("any", partial.shape)] if shape else pages.quoted(part)
        yield [text for text in named if text != "*" or ", with a number" not in part]


def row_of(text, template, cell):
    """What a range is read as whose partial is this text, by the comparator of a row; None if nothing is left."""
    partial, version, alone = SHAPES[text]
    if template == "*nothing*":
        return None
    return partial.filled(alone if template == "as alone" else pages.quoted(template)[0], version, "without the build" not in cell + template)


def of_operators():
    """Pairs of a range and its reading, of the table of operators and of partials alone."""
    for text, (partial, version, alone) in SHAPES.items():
        yield text, partial.filled(alone, version)
    for operator, cell, templates in pages.tables(pages.section(PAGE, "## X-Ranges"))[1]:
        groups, rows = list(texts_of(cell)), templates.split("; ")
        for texts, template in zip(groups, rows if len(rows) == len(groups) else rows * len(groups), strict=True):
            for text in texts:
                yield pages.quoted(operator)[0] + text, row_of(text, template, templates)


def of_tildes():
    for cell, template in pages.tables(pages.section(PAGE, "## Tilde Ranges"))[0]:
        leads = pages.quoted(cell) or ["~", "~>"]
        for lead in leads:
            for texts in texts_of(cell):
                for text in texts:
                    yield lead + text, row_of(text, template, cell)


def of_carets():
    """Each text also with 0 in place of its major, and then of its minor."""
    for cell, templates in pages.tables(pages.section(PAGE, "## Caret Ranges"))[0]:
        rows = templates.split("; ")
        for texts in texts_of(cell):
            for text in texts:
                yield f"^{text}", row_of(text, rows[0], cell)
                for zeros, row in enumerate(rows[1:], 1):
                    zero = re.sub(r"^1\.2" if zeros == 2 else r"^1", "0.0" if zeros == 2 else "0", text)
                    reading = Partial(zero).filled(pages.quoted(row)[0], "")
                    lower = Partial(zero).filled(pages.quoted(rows[0])[0].split(" ")[0], "") + " " if cell.startswith("full") else ""
                    yield f"^{zero}", lower + reading


def of_hyphens():
    """The partials on the right, with `0` on the left and with nothing there."""
    for cell, template in pages.tables(pages.section(PAGE, "## Hyphen Ranges"))[0]:
        if cell == "no number at all":
            yield "1 - *", None
            continue
        for texts in texts_of(cell):
            for text in texts:
                yield f" - {text}", row_of(text, template, cell)
                yield f"0 - {text}", f">=0.0.0 {row_of(text, template, cell)}"


def of_easy_ones():
    """The table of texts that are easy to get wrong: what a text reads as, or None if it is refused."""
    for texts, results, _ in pages.tables(pages.section(PAGE, "### Texts that are easy to get wrong"))[0]:
        said = results.split("; ")
        for text, result in zip(pages.quoted(texts), said if len(said) > 1 else said * len(pages.quoted(texts)), strict=True):
            yield text, None if "refused" in result else calls.range_of(pages.quoted(result)[0])


TABLES = {"operators": of_operators, "tildes": of_tildes, "carets": of_carets, "hyphens": of_hyphens}
ROWS = [(name, text, reading) for name, made in TABLES.items() for text, reading in made()]


@pytest.mark.parametrize("name, text, reading", ROWS, ids=[f"{name}: {text}" for name, text, _ in ROWS])
def test_is_read_as_the_table_says(name, text, reading):
    assert calls.range_of(text) == reading


def test_texts_that_are_easy_to_get_wrong():
    rows = list(of_easy_ones())
    assert len(rows) >= 9 and [(text, calls.range_of(text)) for text, _ in rows] == rows


# ---- npm's own reading

COLUMNS = {"full": ["1.2.3", "1.2.3-pre"], "M.m": ["1.2"], "M": ["1"], "no M": ["*"]}
WHOLE = {"all": "*", "none": "<0.0.0-0"}


def of_words():
    """Each word with a partial of each shape: the range, whether prereleases are included, and what it is read as."""
    for word, *cells in pages.tables(NPM)[0]:
        for (shape, texts), cell in zip(COLUMNS.items(), cells, strict=True):
            for text in texts:
                text = text.replace("1", "0", 1) if "M = 0" in word else text
                for is_inside in (False, True):
                    for whole, reading in of_word(word, cell, text, is_inside):
                        yield whole, is_inside, reading


def of_word(word, cell, text, is_inside):
    """The ranges of one word, and their reading. The page says that `?` is `-0` if prereleases are included, and that a Z with a
    prerelease stands alone."""
    partial, version = Partial(text), text
    if cell in WHOLE:
        reading = WHOLE[cell]
    elif cell.startswith("no "):
        reading = ""
    else:
        rows = pages.quoted(cell)
        is_other = len(rows) > 1 and rows[1].startswith("<M.m.(p+1)-0") and is_inside and not partial.prerelease
        reading = rows[1 if is_other else 0]
        mark = "-0" if is_inside and not (partial.shape == "full" and partial.prerelease) else ""
        reading = partial.filled(reading.replace("?", mark), version)
    if word == "V on the left of a hyphen":
        yield f"{text} - 9", f"{reading} <10.0.0-0".strip()
    elif word == "V on the right":
        yield f"0.1.0-a - {text}", f">=0.1.0-a {reading}".strip()
    else:
        for lead in pages.quoted(word):
            yield lead.replace("V", text) if "V" in lead else text, reading
        if word.startswith("V, "):
            yield text, reading


WORDS = list(dict.fromkeys(of_words()))


@pytest.mark.parametrize("text, is_inside, reading", WORDS, ids=[f"{text}{', prereleases' * inside}" for text, inside, _ in WORDS])
def test_is_read_as_npms_table_says(text, is_inside, reading):
    assert calls.npm_range_of(text, *["prereleases"] * is_inside) == reading
