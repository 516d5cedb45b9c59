"""The pages are as what they are about."""
import itertools
import os
import re

from support import programs
import files

FILES = sorted(files.below(""))
PAGES = [path for path in FILES if path.endswith(".md")]
FRONT = "crates/node_semver/src/lib.rt"
PROVED = re.compile(rf"crates/({'|'.join(programs.crates.listed())})/(src|proofs|specs)/")
CITATION = re.compile(r'^[/!# *-]+See docs/DECISIONS\.md, "([^"]*)"', re.M)


def fault_of_block(page, path, language, block):
    """What is wrong with a block, or None."""
    if language != "rust" and not path:
        return None
    if path not in FILES or not PROVED.match(path):
        return f"{page}: no file that is proved is named above the block: {path}"
    code = list(itertools.dropwhile(lambda line: line.startswith(("//!", "--")) or not line, files.lines(path)))
    # (`rt ci` would look for tests in a front page that has this line)
    code = [line for line in code if line != "#[test]" or page != FRONT]
    is_same = block and code[: len(block)] == block and not "".join(code[len(block) :][:1])
    return None if is_same else f"{page}: the block is not the text of {path}"


def faults_of_blocks():
    for page in [*PAGES, FRONT]:
        text = files.read(page) if page != FRONT else "".join(f"{line[4:]}\n" for line in files.lines(page) if line.startswith("//!"))
        for path, language, block in re.findall(r"(?:^<!-- (\S+) -->\n\n?)?^```(\w*)\n(.*?)^```$", text, re.M | re.S):
            yield fault_of_block(page, path, language, block.split("\n")[:-1])
        yield f"{page} has no block that is compared" if page in ("README.md", FRONT) and "```rust" not in text else None


def test_code_blocks_are_those_of_the_files_above_them():
    """A block is the lines of the file that `<!-- FILE -->` above it names, which the gate proves: those from the first line of code on, up to a blank
    one or the end. Blocks of other languages than `rust` need no file: the tests of their packages run them."""
    assert list(filter(None, faults_of_blocks())) == []


def test_each_decision_is_cited_and_each_that_is_cited_is_there():
    """As `See docs/DECISIONS.md, "HEADING".`."""
    headings = set(re.findall(r"^### (.*)$", files.read("docs/DECISIONS.md"), re.M))
    assert {heading for path in FILES for heading in CITATION.findall(files.read(path, "replace"))} == headings


def anchors_of(page):
    """The anchors of a page's headings, as hosts of repositories make them."""
    found = []
    for heading in re.findall(r"^#+ (.*)$", files.read(page), re.M):
        anchor = re.sub(r"[^\w\- ]", "", heading.lower()).replace(" ", "-")
        found.append(anchor if anchor not in found else f"{anchor}-{found.count(anchor)}")
    return found


def lost_links():
    for page in PAGES:
        for link in re.findall(r"\]\((?!https?://)([^()\s]+)\)", re.sub(r"^```.*?^```", "", files.read(page), flags=re.M | re.S)):
            path, _, anchor = link.partition("#")
            target = os.path.normpath(os.path.join(os.path.dirname(page), path)) if path else page
            if not any(it == target or it.startswith(f"{target}/") for it in FILES) and target != "." or anchor and anchor not in anchors_of(target):
                yield f"{page} links to {link}, which is not there"


def test_each_link_leads_to_a_file_or_a_heading():
    assert list(lost_links()) == []
