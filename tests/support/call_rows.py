"""The files `rows/*.tsv`, with a call a line, and `rows/*.calls`, with a call a paragraph. CONTRIBUTING.md says how the first are written.
In the others arguments have several lines. A paragraph with a call and no result has what the cases below share; an argument that a case
lacks is the one above:

    $ npm_lock::check_any, its problems
    @ lock                         the name of an argument, and below it its lines; or `@ NAME = PATH`, a file of `rows`
    | {"lockfileVersion": 1, "dependencies": {…}}
    @ manifest

    # the name of the case; without it the call and its arguments are the name
    | "a": {"version": "1.0.0"}    lines of the first argument, here in the place of `…`
    @ manifest
    | {"dependencies": {"a": "^2"}}
    > invalid a                    a line of the result, or an item of a list

A paragraph of lines that begin with `#` is about the cases below it. The first line of both names the program."""
import itertools
import os
import re
from dataclasses import dataclass

from support import answers, escapes, programs, rows
from support.rows import Malformed
import files

LONGEST = 300  # More of an answer is not shown.
SHOWN = 80  # So much of a call without a name is its name.
NAMED = re.compile(r"@([\w/]+\.json)")
GAP = "\u2026"  # Where a part stands in the text around it.


@dataclass
class Case:
    """A row: a call with its arguments, and the answers that are wanted. A row with `yes` and `no` has an argument more for each."""

    line: int
    name: str
    program: str
    call: str
    arguments: list
    wanted: list  # pairs of a list of further arguments, and the answer
    has_lines: bool = False  # Whether the answer is written in lines: those of the text, or the items of a list.

    def read_answer(self, text):
        """An answer as it is compared with the wanted one."""
        return text.removesuffix("\t").replace("\t", "\n") if self.has_lines else text

    def faults(self):
        """What is wrong with the answers, in lines."""
        for more, wanted in self.wanted:
            got = self.read_answer(answers.ask(self.program, self.call, *self.arguments, *more))
            if got != wanted:
                yield from (f"    {what}: {shown(text)}" for what, text in (*(("of", it) for it in more), ("wanted", wanted), ("got", got)))
                yield f"    the call alone:\n        {cut(answers.alone(self.program, self.call, *self.arguments, *more), 2000)}"


def shown(text):
    return cut(escapes.written(text), LONGEST)


def cut(text, longest):
    return text if len(text) <= longest else f"{text[:longest]}.. ({len(text)} characters)"


def text_of(name):
    """The text of a file beside the rows."""
    return files.read(os.path.join(programs.TESTS, "rows", name))


def around(text, part):
    """A text with a part in its gap. Without a gap the part stands alone, and without a part the text."""
    return text if part is None else text.replace(GAP, part) if GAP in text else part


def read(path):
    """The cases of a file."""
    return list(read_calls(path)) if str(path).endswith(".calls") else [case_of(*row) for row in rows_of(path)]


# ---- a call a line

def rows_of(path):
    """The rows of a file, with what `case_of` needs. The first line names the program, and a line `# call` the columns of the rows below it."""
    program, columns = "", []
    for number, line in enumerate(files.lines(path), 1):
        if line.startswith("# call\t"):
            columns = line.split("\t")
        elif line.startswith("#"):
            program = program or line[2:].partition(":")[0]
        elif line:
            yield f"{os.path.relpath(path)}:{number}", number, program, columns, line.split("\t")


def case_of(place, number, program, columns, cells):
    if not columns or len(cells) < 2 or len(cells) != len(columns) and columns[-2] != "..":
        raise Malformed(f"{place}: this row has {len(cells)} cells, and the head above it {len(columns)} columns")
    # Of a column `WORD = TEXT` a cell stands in the gap of the text, and its name has the word.
    heads = [column.partition(" = ") for column in itertools.islice(itertools.chain(columns, itertools.repeat("")), len(cells))]
    try:
        given = [text_of(found[1]) if (found := NAMED.fullmatch(text)) else text for text in map(escapes.read, cells)]
    except (Malformed, FileNotFoundError) as error:
        raise Malformed(f"{place}: {error}") from error
    call, *arguments, answer = (around(text, cell) for (_, _, text), cell in zip(heads, given))
    wanted, count = [([], answer)], 1
    if columns[-2:] == ["yes", "no"]:
        yes, count = arguments.pop(), 2
        wanted = [([word], said) for words, said in ((yes, "true"), (answer, "false")) for word in words.split(" ") if word]
    if not wanted:
        raise Malformed(f"{place}: this row wants nothing")
    names = [f"{word} {cell}" if is_around else cell for (word, is_around, _), cell in zip(heads, cells)]
    return Case(number, " ".join(names[:-count]).replace("::", "."), program, call, arguments, wanted)


# ---- a call a paragraph

def read_calls(path):
    lines = files.lines(path)
    program, head = lines[0][2:].partition(":")[0], rows.Case(0)
    for at, paragraph in rows.paragraphs(lines):
        given = rows.read_case(path, at, paragraph)
        if given.error or given.status or len(given.commands) > 1 or given.files and not given.output and not given.commands:
            raise Malformed(f"{path}:{at}: a case has a call or one above, and a result, and no more")
        if given.output:
            yield call_of(f"{path}:{at}", program, rows.Case(0) if given.commands else head, given)
        elif given.commands:
            head = given


def arguments_of(given):
    return {name: text_of(content) if isinstance(content, str) else "\n".join(content) for name, content in given.files}


def call_of(place, program, head, given):
    """The case of a paragraph below one that has the call and what the arguments share."""
    shared, own = arguments_of(head), arguments_of(given)
    names, calls = list(shared or own), given.commands or head.commands
    own = {names[0] if name is None else name: text for name, text in own.items()}
    if not calls or not set(own) <= set(names):
        raise Malformed(f"{place}: this case has no call, or an argument that the call above it has not")
    texts = [around(shared.get(name, ""), own.get(name)) for name in names]
    name = (given.name or " ".join([calls[0], *own.values()])).replace("::", ".").replace("\n", " ")
    short = name if len(name) <= SHOWN else f"{name[:SHOWN]}.. (line {given.line})"
    return Case(given.line, short, program, calls[0], texts, [([], given.output.removesuffix("\n"))], True)
