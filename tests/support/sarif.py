"""Whether a text is a log in SARIF 2.1.0, the Static Analysis Results Interchange Format (OASIS), with the members that our programs write."""
import json
import re

URI = re.compile(r"(?:[A-Za-z0-9._~:/?#@!$&'()*+,;=\[\]-]|%[0-9A-Fa-f]{2})+")
TEXT = lambda it: isinstance(it, str) and it != ""
NUMBER = lambda least: lambda it: type(it) is int and it >= least
ONE_OF = lambda *words: lambda it: isinstance(it, str) and it in words
LEVEL = ONE_OF("none", "note", "warning", "error")
# The members that an object may have, by the standard; with `!` those that it must have. A list has one object for all of its items.
ADDRESS = lambda it: TEXT(it) and URI.fullmatch(it)
SECURITY = {"security-severity": lambda it: TEXT(it) and 0 < float(it) <= 10, "tags": [ONE_OF("security")]}  # (which GitHub reads)
RULE = {"id!": TEXT, "shortDescription": {"text!": TEXT}, "helpUri": ADDRESS, "defaultConfiguration": {"level": LEVEL}, "properties": SECURITY}
PLACE = {"artifactLocation": {"uri": ADDRESS}, "region": {"startLine": NUMBER(1), "startColumn": NUMBER(1)}}
RESULT = {"ruleId": TEXT, "ruleIndex": NUMBER(-1), "level": LEVEL, "message!": {"text!": TEXT}, "locations": [{"physicalLocation": PLACE}],
          "suppressions": [{"kind!": ONE_OF("inSource", "external"), "justification": TEXT}]}
LOG = {"$schema": TEXT, "version!": ONE_OF("2.1.0"), "runs!": [{
    "tool!": {"driver!": {"name!": TEXT, "version": TEXT, "rules": [RULE]}}, "invocations": [{"executionSuccessful!": lambda it: type(it) is bool}],
    "columnKind": ONE_OF("utf16CodeUnits", "unicodeCodePoints"), "results": [RESULT]}]}
# A message string by the standard, sections 3.11.5 and 3.11.6: a brace written twice, a bracket or a backslash after a backslash, a
# placeholder, a link, or another character.
PIECES = re.compile(r"(\{\{|\}\}|\\[][\\])|(\{\d+\}|\[(?:[^][\\]|\\.)+\]\([^)]*\))|([^{}])", re.S)


def member_faults(value, shape=LOG, path="$"):
    """What is wrong with a value and with what is inside it."""
    if isinstance(shape, list) and isinstance(value, list):
        for at, it in enumerate(value):
            yield from member_faults(it, shape[0], f"{path}[{at}]")
    elif isinstance(shape, dict) and isinstance(value, dict):
        known = {name.rstrip("!"): inner for name, inner in shape.items()}
        yield from (f"{path} has a member {it}" for it in set(value) - set(known))
        yield from (f"{path} lacks {it}" for it in shape if it.endswith("!") and it[:-1] not in value)
        for name in set(value) & set(known):
            yield from member_faults(value[name], known[name], f"{path}.{name}")
    elif isinstance(shape, (list, dict)) or not shape(value):
        yield f"{path} is {value!r}"


def plain(text):
    """The text that a message string writes, which has neither a placeholder nor a link."""
    at, read = 0, ""
    while at < len(text):
        piece = PIECES.match(text, at)
        if piece is None or piece[2]:
            raise ValueError(f"a placeholder, a link or a lone brace at {at} of {text!r}")
        read += piece[1][1] if piece[1] else piece[3]
        at = piece.end()
    return read


def run_faults(run):
    """Results whose rule is not the one at its index, and messages in which a text is read as a placeholder or as a link."""
    rules, results = run["tool"]["driver"].get("rules", []), run.get("results", [])
    ids = [it["id"] for it in rules]
    yield from ["two rules have one id"] * (len(set(ids)) != len(ids))
    yield from (f"{it.get('ruleId')} has the index of another rule" for it in results if ids[it.get("ruleIndex", -1):][:1] != [it.get("ruleId")])
    # (section 3.27.23: all of them, or none)
    yield from ["some results have suppressions, and some have none"] * (len({"suppressions" in it for it in results}) > 1)
    for text in [it["message"]["text"] for it in results] + [it["shortDescription"]["text"] for it in rules if "shortDescription" in it]:
        try:
            plain(text)
        except ValueError as error:
            yield str(error)


def faults(text):
    """What is wrong with a text that is to be a log."""
    try:
        log = json.loads(text)
    except ValueError as error:
        return [f"it is no JSON text: {error}"]
    return list(member_faults(log)) or [fault for run in log["runs"] for fault in run_faults(run)]
