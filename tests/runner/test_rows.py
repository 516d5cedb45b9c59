"""Rows: a run or an answer that is not as its row says is found, and a row that says nothing is refused. And a fault of a SARIF log is found."""
import copy
import json

import pytest

from support import answers, call_rows, escapes, programs, rows, sarif

ROW = "# a {0}\n@ f\n| x\n$ cat f; echo {1} >&2; exit {2}\n> x\n! {1}\n? {2}\n* one\n+ a\n+ 3\n* other\n+ b\n+ 0\n"


def told(tmp_path, monkeypatch, text):
    """What is said of the runs of rows, which run no program that has to be built."""
    monkeypatch.setattr(programs, "built", lambda name: "/bin/true")
    monkeypatch.setattr(rows.tempfile, "tempdir", str(tmp_path))
    (tmp_path / "made.rows").write_text(text)
    (tmp_path / "words").write_text("# words of this test\n\nletter = x\n")
    return "\n".join(line for case in rows.read(tmp_path / "made.rows") for line in case.faults())


@pytest.mark.parametrize("old, new, what", [("", "", ""), ("> x", "> {letter}", ""), ("> x", "> z", "standard output"), ("> x\n", "", "standard output"), ("! {1}", "! z", "standard error"),
                                            ("! {1}\n", "", "standard error"), ("? {2}\n", "? 7\n", "status"), ("| x", "| z", "standard output")])
def test_a_wrong_row_is_found(tmp_path, monkeypatch, old, new, what):
    said = told(tmp_path, monkeypatch, ROW.replace(old, new) if old else ROW)
    assert f"    {what}: wanted\n" in said if what else said == ""


@pytest.mark.parametrize("old, new", [("? {2}\n", "? none\n"), ("? {2}\n", "1.2.3\n"), ("> x", ">x"), ("> x", "> {word}"), ("+ b\n+ 0\n", "+ b\n"), ("* other", "$ other"), ("@ f\n", "")])
def test_a_row_that_says_nothing_is_refused(tmp_path, monkeypatch, old, new):
    with pytest.raises(rows.Malformed):
        told(tmp_path, monkeypatch, ROW.replace(old, new))


TEXTS = {"tsv": "# made: rows for this test\n# call\ttext\tanswer\nf\ta\tb\n# call\ttext\tyes\tno\ng\t\\{2*a\\#}\t1 2\t3\n",
         "calls": "# made: cases\n\n$ f\n@ one\n| {…}\n@ two\n| two\n\n| a\n| b\n> c\n\n# a name\n@ two\n| b\n> c\n\n$ g\n@ three\n| b\n> c\n> d\n"}
KNOWN = {("f", "a"): "b", ("g", "a0a1", "1"): "true", ("g", "a0a1", "2"): "true", ("g", "a0a1", "3"): "false",
         ("f", "{a\nb}", "two"): "c", ("f", "{…}", "b"): "c", ("g", "b"): "c\td\t"}


@pytest.mark.parametrize("name, old, new, line", [
    ("tsv", "", "", None), ("calls", "", "", None), ("tsv", "f\ta\tb", "f\ta\tc", "    wanted: c"), ("tsv", "1 2\t3", "1\t3 2", "    of: 2"),
    ("tsv", "\\{2*", "\\{3*", "    got: e"), ("calls", "> c\n\n#", "> d\n\n#", "    wanted: d"), ("calls", "| two", "| three", "    got: e"),
    ("calls", "> d\n", "", "    wanted: c"), *((*it, rows.Malformed) for it in [
        ("tsv", "f\ta\tb", "f\tb"), ("tsv", "f\ta\tb", "f\ta\tb\tc"), ("tsv", "1 2\t3", "\t"), ("tsv", "# call\ttext\tanswer\n", ""),
        ("calls", "> c\n\n#", "\n#"), ("calls", "$ f", "# f"), ("calls", "> c\n> d", "> c\n| d"), ("calls", "$ g", "$ g\n$ h")])])
def test_a_wrong_call_is_found(tmp_path, monkeypatch, name, old, new, line):
    """For a program that gives the answers above, and else `e`."""
    (tmp_path / f"made.{name}").write_text(TEXTS[name].replace(old, new) if old else TEXTS[name])
    monkeypatch.setattr(answers, "ask", lambda _, *words: KNOWN.get(words, "e"))
    monkeypatch.setattr(answers, "alone", lambda *words: " ".join(words))
    said = lambda: [found for case in call_rows.read(tmp_path / f"made.{name}") for found in case.faults()]
    if isinstance(line, type):
        with pytest.raises(line):
            said()
    else:
        assert line in said() if line else said() == []


@pytest.mark.parametrize("cell, text", [(r"\t\n\r\\", "\t\n\r\\"), (r"\u{161}\u{0}", "\u0161\0"), (r"{\{3*ab}}", "{ababab}"), (r"\{2*\#.\@.\$ }1", "0.1.2 1.2.1 1"),
                                        (r"\{0*a}", ""), (r"\{3*a\,, }", "a, a, a"), (r"\{2*\@\+-\$\+\+\,;}", "2-4;3-3"), *((cell, None) for cell in
                                        ("\\", r"\x", r"\#", r"\u{}", r"\{a}", r"\{2*a", r"\{2*\{2*a}}"))])
def test_cells_are_read(cell, text):
    if text is None:
        with pytest.raises(rows.Malformed):
            escapes.read(cell)
    else:
        assert escapes.read(cell) == text and escapes.read(escapes.written(text)) == text


RESULT = {"ruleId": "invalid", "ruleIndex": 0, "level": "error", "message": {"text": "b 1.0.0 is outside: a{{0}}, [0], \\\\x, \\[b\\](1)"},
          "locations": [{"physicalLocation": {"artifactLocation": {"uri": "a%20b/c.json"}, "region": {"startLine": 3, "startColumn": 7}}}]}
RUN = {"tool": {"driver": {"name": "checker", "version": "1.0.0", "rules": [{"id": "invalid", "shortDescription": {"text": "outside"}}]}},
       "invocations": [{"executionSuccessful": False}], "columnKind": "unicodeCodePoints", "results": [RESULT]}
# Changes of a log: where, and the new value there, or None if there is none.
CHANGES = [(["version"], "2.1"), (["runs"], None), (["run"], []), (["runs", 0, "tool"], None), (["runs", 0, "invocations"], {}),
           (["runs", 0, "results", 0, "message", "text"], "a{0} is outside"), (["runs", 0, "results", 0, "message", "text"], "see [the fix](https://a.example)"),
           (["runs", 0, "results", 0, "ruleId"], "missing"), (["runs", 0, "results", 0, "level"], "fatal"), (["runs", 0, "results", 0, "place"], {}),
           (["runs", 0, "results", 0, "locations", 0, "physicalLocation", "region", "startLine"], 0),
           (["runs", 0, "results", 0, "locations", 0, "physicalLocation", "artifactLocation", "uri"], "a b")]


@pytest.mark.parametrize("where, what", CHANGES)
def test_a_fault_of_a_log_is_found(where, what):
    log = at = copy.deepcopy({"$schema": "https://json.schemastore.org/sarif-2.1.0.json", "version": "2.1.0", "runs": [RUN]})
    assert sarif.faults(json.dumps(log)) == []
    for step in where[:-1]:
        at = at[step]
    at[where[-1]] = what
    if what is None:
        del at[where[-1]]
    assert sarif.faults(json.dumps(log)) != []
