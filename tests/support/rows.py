"""The files `programs/PROGRAM/*.rows`: a run of a program a paragraph. CONTRIBUTING.md says how they are written."""
import os
import re
import shutil
import subprocess
import tempfile
from dataclasses import dataclass, field

from support import programs
import files

SECONDS = 120


class Malformed(Exception):
    """A line that a file of rows cannot have."""


@dataclass
class Case:
    """A paragraph: the lines of each mark, and what they mean."""

    line: int
    name: str = ""
    files: list = field(default_factory=list)  # pairs of a name and a list of lines, or the path of a file of the repository
    commands: list = field(default_factory=list)
    output: str = ""
    error: str = ""
    status: int = 0
    program: str = ""

    def faults(self):
        """What is wrong with the run, in lines. The folder of a run that is wrong stays."""
        folder, script = tempfile.mkdtemp(prefix="denimscree-row-"), "\n".join(self.commands)
        put_files(self, folder)
        others = [name for name in programs.crates.programs() if re.search(rf"(?:^|[|&;]\s*){re.escape(name)} ", script, re.M)]
        environment = programs.environment(self.program, *others)
        try:
            ran = subprocess.run(["bash", "-c", script], cwd=folder, env=environment, stdin=subprocess.DEVNULL, capture_output=True, timeout=SECONDS)
            status, output, error = ran.returncode, *(it.decode(errors="backslashreplace") for it in (ran.stdout, ran.stderr))
        except subprocess.TimeoutExpired:
            status, output, error = "none", "", f"it has not ended after {SECONDS} seconds"
        told = beside("standard output", self.output, output) + beside("standard error", self.error, error)
        told += beside("status", str(self.status), str(status))
        if not told:
            shutil.rmtree(folder)
            return []
        os.symlink(programs.built(self.program), os.path.join(folder, self.program))
        alone = [f"cd {folder}; PATH=$PWD:{programs.COMMANDS}:$PATH", *self.commands]
        return [*told, "    the program alone:", *(f"        {line}" for line in alone)]


def words(folder):
    """The words of sentences by their names, as the file `words` has them in the folder of a program or in another one, if it is there."""
    path = os.path.join(programs.TESTS, "programs", folder, "words")
    lines = files.lines(path) if os.path.isfile(path) else []
    return dict(line.split(" = ", 1) for line in lines if line and not line.startswith("#"))


def said(text, known):
    """A text with words in the places of their names, if there are any."""
    return re.sub(r"\{([a-z][a-z -]*)\}", lambda it: known[it[1]], text) if known else text


def read(path):
    """The cases of a file. Those that have files alone are none of them: their files are there in each case below."""
    cases, shared, known = [], [], words(os.path.dirname(path))
    for case in (read_case(path, *one) for at, paragraph in paragraphs(files.lines(path)) for one in of_each_value(path, at, paragraph)):
        if any(name is None for name, _ in case.files):
            raise Malformed(f"{path}:{case.line}: these lines are of no file")
        if case.commands:
            case.files, case.name = shared + case.files, case.name or case.commands[-1]
            case.program = os.path.basename(os.path.dirname(path))
            try:
                case.output, case.error = said(case.output, known), said(case.error, known)
            except KeyError as name:
                raise Malformed(f"{path}:{case.line}: the words have no name {name}") from None
            cases.append(case)
        else:
            shared = shared + case.files
    return cases


def paragraphs(lines):
    """The paragraphs, each with the number of its first line."""
    begin = 0
    for at, line in enumerate([*lines, ""]):
        if not line:
            if begin < at:
                yield begin + 1, lines[begin:at]
            begin = at + 1


def of_each_value(path, at, paragraph):
    """The paragraph, or one for each of its lines `*`: its values are in the places of `{0}`, `{1}` and so on in the lines above."""
    first = next((i for i, line in enumerate(paragraph) if line.startswith("* ")), None)
    if first is None:
        return [(at, paragraph)]
    cases = []
    for number, line in enumerate(paragraph[first:], at + first):
        mark, _, value = line.partition(" ")
        if mark not in ("*", "+"):
            raise Malformed(f"{path}:{number}: below a line with * are others with * and +: {line}")
        cases += [(number, [])] if mark == "*" else []
        cases[-1][1].append(value)
    try:
        return [(number, [re.sub(r"\{(\d+)\}", lambda it: values[int(it[1])], line) for line in paragraph[:first]]) for number, values in cases]
    except IndexError:
        raise Malformed(f"{path}:{at}: a line with * has fewer values than the lines above name") from None


def read_case(path, at, paragraph):
    """The case of a paragraph. Lines of a file that has no name are of the name None."""
    case = Case(at)
    for number, line in enumerate(paragraph, at):
        mark, _, rest = line.partition(" ")
        if mark == "#":
            case.name = f"{case.name} {rest}".strip()
        elif mark == "@" and not case.output:
            name, _, source = rest.partition(" = ")
            case.files.append((name, source or []))
        elif mark == "|" and not case.output:
            case.files += [] if case.files else [(None, [])]
            case.files[-1][1].append(rest)
        elif mark == "$":
            case.commands.append(rest)
        elif mark == ">":
            case.output += f"{rest}\n"
        elif mark == "!":
            case.error += f"{rest}\n"
        elif mark == "?" and re.fullmatch(r"\d+", rest):
            case.status = int(rest)
        else:
            raise Malformed(f"{path}:{number}: no mark begins this line, or it stands where it cannot: {line}")
    return case


def put_files(case, folder):
    for name, content in case.files:
        path = os.path.join(folder, name)
        os.makedirs(os.path.dirname(path), exist_ok=True)
        if isinstance(content, str):
            shutil.copyfile(os.path.join(programs.ROOT, content), path)
        else:
            with open(path, "w", encoding="utf-8") as file:
                file.write("".join(f"{line}\n" for line in content))


def beside(what, wanted, got):
    """What is wanted beside what there is, or nothing if they are the same."""
    indented = lambda text: [f"        {line}" for line in text.removesuffix("\n").split("\n")[:40]]
    return [] if wanted == got else [f"    {what}: wanted", *indented(wanted), f"    {what}: got", *indented(got)]
