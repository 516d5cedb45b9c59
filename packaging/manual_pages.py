"""Man pages and completions of a program, made from what its `--help` writes, so that they say no other thing."""
import re
import time

# The head of an option, with fewer blanks before it than its text has; `clap` writes six where there is no short one.
OPTION = re.compile(r"^(?: {0,4}(?=-)| {6}(?=--))(-\S.*?)(?:  +(\S.*))?$")


class Help:
    """What `--help` writes, in parts: `title` is its first line; `usage` the command's form; `options` are pairs of a head, as
    `-h, --help`, and its lines; `paragraphs` are what stands before the options, and `last` what stands after them."""

    def __init__(self, text):
        self.usage, self.options, self.paragraphs, self.last = [], [], [], []
        blocks = [block.split("\n") for block in re.split(r"\n\s*\n", text.strip("\n"))]
        self.title = blocks[0][0]
        for block in blocks:
            for line in block:
                self.add(line)
            self.end_paragraph()
        self.paragraphs = [lines for lines in self.paragraphs if lines and lines[0] != self.title]

    def add(self, line):
        option = OPTION.match(line)
        if line.startswith("Usage:"):
            self.usage.append(line[6:].strip())
        elif option and not line.startswith("- "):
            self.options.append((option.group(1), [option.group(2)] if option.group(2) else []))
        elif self.options and line[:1] == " ":
            self.options[-1][1].append(line.strip())
        elif line.startswith("Options"):
            pass
        else:
            where = self.last if self.options else self.paragraphs
            if not where or self.is_new:
                where.append([])
            where[-1].append(line.strip())
            self.is_new = False

    is_new = True

    def end_paragraph(self):
        self.is_new = True

    def words(self):
        """The names of the options, `-h` and `--help`, each with its head and text."""
        for head, lines in self.options:
            names = re.findall(r"(?<![\w-])--?[A-Za-z][\w-]*", head)
            takes = bool(re.sub(r"(?<![\w-])--?[A-Za-z][\w-]*|[,\s|]", "", head))
            for name in names:
                yield name, takes, " ".join(lines)


def day_of(date):
    """The day of a time in seconds since 1970."""
    return time.strftime("%Y-%m-%d", time.gmtime(date))


def roff(text):
    """A text as troff reads it."""
    text = text.replace("\\", "\\e").replace("-", "\\-")
    return "\\&" + text if text[:1] in (".", "'") else text


def man_page(name, help_text, version, date):
    """The page of section 1."""
    said = Help(help_text)
    title = said.title.rstrip(".")
    out = [f'.TH {name.upper()} 1 "{day_of(date)}" "denimscree {version}" "User Commands"', ".SH NAME"]
    out += [f"{roff(name)} \\- {roff(title[:1].lower() + title[1:])}", ".SH SYNOPSIS"]
    for usage in said.usage or [name]:
        out += [f".B {roff(usage)}", ".br"]
    out.append(".SH DESCRIPTION")
    for lines in [[said.title], *said.paragraphs]:
        out += [".PP", *map(roff, lines)]
    if said.options:
        out.append(".SH OPTIONS")
        for head, lines in said.options:
            out += [".TP", f".B {roff(head)}", *map(roff, lines)]
    status = [lines for lines in said.last if "exit status" in " ".join(lines).lower() or "exits" in " ".join(lines).lower()]
    for lines in [lines for lines in said.last if lines not in status]:
        out += [".PP", *map(roff, lines)]
    if status:
        out.append(".SH EXIT STATUS")
        for lines in status:
            out += [".PP", *map(roff, lines)]
    return "\n".join(out) + "\n"


def bash_completion(name, help_text):
    words = sorted({word for word, _, _ in Help(help_text).words()})
    return f"""# Completion of {name} for bash.
_{name}() {{
    if [[ $2 == -* ]]; then
        COMPREPLY=($(compgen -W '{" ".join(words)}' -- "$2"))
    else
        COMPREPLY=($(compgen -f -- "$2"))
    fi
}}
complete -o filenames -F _{name} {name}
"""


def zsh_completion(name, help_text):
    lines = []
    for word, takes, text in Help(help_text).words():
        short = re.sub(r"(?<=[.:]) .*", "", text)
        short = re.sub(r"[\[\]':\\]", " ", short).strip()
        lines.append(f"    '{word}[{short}]{':value:_files' if takes else ''}' \\")
    return f"#compdef {name}\n# Completion of {name} for zsh.\n_arguments \\\n" + "\n".join(lines) + "\n    '*:file:_files'\n"
