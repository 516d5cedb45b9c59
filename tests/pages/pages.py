"""The tables and the sentences of the pages."""
import os
import re

from support.programs import ROOT


def page(name):
    with open(os.path.join(ROOT, name), encoding="utf-8") as file:
        return file.read()


def section(text, heading):
    """What stands below a heading, up to the next one of its level or above."""
    level = heading.split(" ")[0]
    return re.split(rf"^#{{1,{len(level)}}} ", text.split(f"\n{heading}\n", 1)[1], flags=re.M)[0]


def tables(text):
    """The tables, each a list of rows without the head, and each row a list of cells."""
    found = []
    for table in re.findall(r"(?:^\S.*\|.*\n)+", text + "\n", re.M):
        lines = table.splitlines()
        if len(lines) > 2 and set(lines[1]) == set("-|"):
            found.append([[cell.strip().replace("\\|", "|") for cell in re.split(r" \|(?= |$)", line)] for line in lines[2:]])
    return found


def quoted(cell):
    """The texts between backquotes."""
    return re.findall(r"`([^`]+)`", cell)


def said(name, sentence):
    """The texts that a page has in the places of `{}` in a sentence, between backquotes. White space does not count."""
    words = [re.escape(part).replace(r"\ ", r"\s+") for part in sentence.split("{}")]
    found = re.search("`([^`]+)`".join(words), page(name))
    assert found, f"{name} does not say: {sentence}"
    return [re.sub(r"\s+", " ", text) for text in found.groups()]


def offsets(name, begin):
    """Each `TEXT` at OFFSET of the paragraph that begins so."""
    paragraph = page(name).split(f"\n{begin}", 1)[1].split("\n\n")[0]
    return [(text, int(offset)) for text, offset in re.findall(r"`([^`]+)`\s+at\s+(\d+)", paragraph)]
