r"""The cells of `.tsv` files. A backslash begins what a cell cannot have as it is: `\t \n \r \\ \u{e9}`, and `\{3*ab}`, which is short
for `ababab`. In what is repeated `\#` is 0 at first, then 1 and so on, `\@` is one more than that, and `\$` is the number of times,
then one less each time; a `\+` after one of them adds one. What follows a `\,` stands only between: `\{3*a\,, }` is `a, a, a`."""
import re

from support.rows import Malformed

PLAIN = {"t": "\t", "n": "\n", "r": "\r", "\\": "\\"}
LETTER = r"u\{([0-9a-fA-F]+)\}"
TOKEN = re.compile(rf"\\(?:([tnr\\])|{LETTER}|\{{(\d+)\*((?:[^\\}}]|\\{LETTER}|\\.)*)\}}|([#@$])((?:\\\+)*)|(.?))", re.S)


def read(cell, step=None, times=0):
    """The text that a cell is short for, or at a step of so many what is repeated."""
    def text_of(found):
        plain, letter, number, piece, _, mark, more, other = found.groups()
        if plain or letter:
            return PLAIN[plain] if plain else chr(int(letter, 16))
        if number and step is None:
            return repeated(piece, int(number))
        if mark and step is not None:
            return str({"#": step, "@": step + 1, "$": times - step}[mark] + len(more) // 2)
        raise Malformed(f"no escape begins at character {found.start()}: {cell}")

    return TOKEN.sub(text_of, cell)


def repeated(piece, times):
    """What is repeated so many times, with what follows `\\,` between."""
    between = next((it for it in TOKEN.finditer(piece) if it[8] == ","), None)
    last = piece[: between.start()] if between else piece
    whole = last + piece[between.end() :] if between else piece
    if not any(it[6] for it in TOKEN.finditer(piece)):
        return read(whole, 0) * (times - 1) + read(last, 0) * (times > 0)
    return "".join(read(whole if step < times - 1 else last, step, times) for step in range(times))


def written(text):
    """A cell of a text, without repetitions."""
    marks = {value: f"\\{name}" for name, value in PLAIN.items()}
    return "".join(marks.get(it) or (it if it.isprintable() and it.isascii() or it.isalpha() else f"\\u{{{ord(it):x}}}") for it in text)
