"""The file `memory/programs.tsv`: runs of programs, of which each request for memory is refused. A run then ends as with memory, or says that
memory is out and has written nothing, a beginning of its lines, or what says that the run failed."""
import json
import os
import re
import shlex
import xml.etree.ElementTree
from dataclasses import dataclass

import html5lib

from support import escapes, programs, refused
from support.rows import Malformed
import files

FILES = os.path.join(programs.TESTS, "memory", "files")


def is_failed(form, text, error):
    """Whether a text is what npm_lock_check may write in a format where it checks no lock file: for GitHub the annotation of the manifest or
    the advisories that standard error names, and else a log, a page or a report of refused files alone, which says that the run failed."""
    named = re.search(r'^npm_lock_check: --\w+ "(.*)": out of memory$', error, re.M)
    if form == "github":
        return named is not None and text == f"::error file={named[1]},line=1,col=1::out of memory\n"
    if form == "sarif":
        run, = json.loads(text)["runs"] if text.endswith("\n") else [{}]
        return run.get("invocations") == [{"executionSuccessful": False}] and all(it["ruleId"] == "refused" for it in run["results"])
    if form == "html":
        parser = html5lib.HTMLParser(namespaceHTMLElements=False)
        page = parser.parse(text)
        told = ["".join(it.itertext()) for it in page.findall("body/main/*")]
        is_told = told[0] == "The check failed" and "Not every lock file was checked." in told
        return is_told and not parser.errors and not any(it.tag in ("div", "h3", "h4", "small") for it in page.iter())
    return form == "junit" and all([it.tag for it in case] == ["error"] for case in xml.etree.ElementTree.fromstring(text).iter("testcase"))


@dataclass
class Case:
    """A row: the words of the run, its input, and what it gives with memory."""

    line: int
    name: str
    words: list
    given: str
    wanted: list  # the status, and what both outputs have

    @property
    def format(self):
        return self.words[self.words.index("--format") + 1] if "--format" in self.words else "text"

    def is_output(self, wanted, text):
        """Whether a text is what a cell says: nothing, a file of the repository, some text, so many lines, rows of a page or cases, or the text itself."""
        if wanted in ("", "some"):
            return wanted == "" or text != ""
        if wanted.startswith("crates/"):
            return text == files.read(wanted)
        lines = text.count({"html": '<p class="row', "junit": "<testcase "}.get(self.format, "\n"))
        return lines == int(wanted) if wanted.isdigit() else text == wanted

    def is_out(self, ran, whole):
        """Whether a run says on standard error that memory is out, as its program may. Some programs name the file that they read."""
        program = self.words[0]
        out = rf'{program}: (?:(?:--\w+ "[^"]*": )?out of memory{"|read failed" * (program == "semver_pairs")})\n'
        if program == "npm_lock_check":
            return ran.returncode == 2 and self.is_unchecked(ran, whole, out)
        before, said = re.fullmatch(rf"(.*?)({out})?", ran.stderr, re.S).groups()
        is_beginning = whole.stdout.startswith(ran.stdout) and whole.stderr.startswith(before)
        if program in ("semver", "semver_pairs"):
            return said is not None and is_beginning and ran.returncode == (2 if program == "semver" else 1)
        return ran.returncode == 2 and said == ran.stderr and ran.stdout == ""

    def is_unchecked(self, ran, whole, out):
        """The same of npm_lock_check. Of two lock files the other one may be checked."""
        lines, written = ran.stderr.splitlines(keepends=True), ran.stdout.splitlines()
        if "checked_old.json" in self.words:
            is_part = len(written) <= 1 if self.format == "sarif" else set(written) <= set(whole.stdout.splitlines())
            return is_part and any(re.fullmatch(out, line) for line in lines)
        return (ran.stdout == "" or is_failed(self.format, ran.stdout, ran.stderr)) and re.fullmatch(out, "".join(lines[-1:])) is not None

    def faults(self):
        """What is wrong, in lines."""
        runs = refused.each([programs.built(self.words[0]), *self.words[1:]], self.given, FILES)
        _, whole = next(runs)
        status, output, error = self.wanted
        if not (whole.returncode == int(status) and self.is_output(output, whole.stdout) and self.is_output(error, whole.stderr)):
            yield f"    with memory: {told(whole)}"
        total = out = 0
        for what, ran in runs:
            is_out = self.is_out(ran, whole)
            total, out = total + 1, out + is_out
            if not is_out and told(ran) != told(whole):
                yield f"    {what} refused: {told(ran)}"
        if out < max(1, total // 2):
            yield f"    of {total} runs {out} say that memory is out"


def told(ran):
    return f"status {ran.returncode}, {ran.stderr}{ran.stdout}"


def read(path):
    """The cases of the file."""
    for number, line in enumerate(files.lines(path), 1):
        if line and not line.startswith("#"):
            cells = line.split("\t")
            if len(cells) != 4:
                raise Malformed(f"{path}:{number}: this row has {len(cells)} cells, and not 4")
            words, *wanted = map(escapes.read, cells)
            words, _, source = words.partition(" < ")
            given = files.read(source if source.startswith("crates/") else os.path.join(FILES, source)) if source else ""
            yield Case(number, cells[0], shlex.split(words), given, wanted)
