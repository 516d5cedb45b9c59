"""The page and the JUnit report of npm_lock_check, as standard parsers read them: both say what it writes as JSON and for GitHub. And the
page as Chromium reads it: no script runs, and names are texts."""
import html
import json
import os
import subprocess

import pytest

import report_pages
from support import programs

# Names that look like markup, or that a reader must not take for another text: tags, references, quotation marks, the end of a comment
# and of CDATA, control characters, a text from right to left, a line separator, and letters that are no ASCII.
NAMES = ["<script>window.ran=1</script>", "<img src=x onerror=window.ran=1>", "</p></section><h3>Problems</h3>", "&lt;b&gt;&amp;&#60;", "a\"b'c",
         "--><!--", "]]><![CDATA[x", "javascript:window.ran=1", "\u0001\u001b[2J\u0007\u0085", "\u202egnp.exe\u202c", "a\u2028b\nc\td\r", "\u00e4\u4e2d\U0001f600",
         "</title><style>*{display:none}</style>", "</textarea><base href=//x>", "%0A::error::x", " b ", "", "'", "&", "<!DOCTYPE x [<!ENTITY e SYSTEM 'file:///etc/passwd'>]>"]
FOUND = NAMES[:12]
SEVERITIES = ["critical", "high", "moderate", "low", "info", "severe"]
MANY = [f"n{number:04}" for number in range(2500)]


def lock(packages):
    return {"lockfileVersion": 3, "packages": packages}


def hostile():
    root = {"dependencies": {name: f">=2 {name}" if number % 3 else "^2" for number, name in enumerate(NAMES)},
            "optionalDependencies": {"<i>": "latest"}, "engines": {"node": "<i>22</i>"}}
    package = {"version": "1.0.0", "dependencies": {"<i>": "git+https://a.example/<i>"}}
    return lock({"": root, "node_modules/<i>": {"version": "<u>1</u>"},
                 **{f"node_modules/{name}": package for name in FOUND if "/" not in name and "\\" not in name}})


def hostile_advisories():
    return {name: [{"id": name if number % 2 else number, "severity": SEVERITIES[(number + step) % 6], "title": name, "vulnerable_versions": "<2",
                    "url": ("https://a.example/?", "javascript:window.ran=1//", "HTTPS://a.example/", "http://a.example/")[number % 4] + name}
                   for step in range(number % 3 + 1)] for number, name in enumerate(FOUND)}


FILES = {
    "clean.json": lock({"": {}}),
    "bad.json": [],
    "hostile.json": hostile(),
    "<i>/\"&'.json": hostile(),
    "advisories.json": hostile_advisories(),
    "package.json": {"dependencies": {name: "^1" for name in NAMES[:10]}, "workspaces": ["w<b>"]},
    "many.json": lock({"": {"dependencies": {name: "latest" for name in MANY}},
                       "node_modules/z": {"version": "1.0.0", "dependencies": {name: "^2" for name in MANY}},
                       **{f"node_modules/{name}": {"version": "1.0.0"} for name in MANY}}),
    "many_advisories.json": {name: [{"id": 1, "severity": "low", "vulnerable_versions": "<2"}] for name in MANY},
    "needed.json": lock({"": {"dependencies": {name: "1" for name in NAMES}},
                         **{f"node_modules/{name}": {"version": "1.0.0", "dev": True} for name in FOUND if "/" not in name}}),
    "many_package.json": {"dependencies": {name: "next" for name in MANY}},
}

COMPARED = [
    ("the example", ["--node", "20", "--advisories", "example/advisories.json", "example/package-lock.json"]),
    ("nothing is found", ["clean.json"]),
    ("hostile names", ["--node", "20", "hostile.json"]),
    ("hostile advisories", ["--advisories", "advisories.json", "hostile.json"]),
    ("advisories that are less severe", ["--advisories", "advisories.json", "--severity", "high", "hostile.json"]),
    ("a manifest with hostile names", ["--manifest", "package.json", "--advisories", "advisories.json", "hostile.json"]),
    ("mismatches that count", ["--manifest", "package.json", "--exact", "--ignore", "missing", "hostile.json"]),
    ("a file with a hostile name", ["<i>/\"&'.json"]),
    ("several files of which two are refused", ["bad.json", "hostile.json", "<nothing>", "clean.json"]),
    ("advisories that are refused", ["--advisories", "bad.json", "clean.json"]),
    ("a manifest that is no file", ["--manifest", "<b>.json", "clean.json"]),
    ("packages that are needed, but left out", ["--omit", "dev", "--ignore", "missing", "needed.json"]),
    ("2,500 of each finding", ["--advisories", "many_advisories.json", "--manifest", "many_package.json", "many.json"]),
]


@pytest.fixture
def room(tmp_path, monkeypatch):
    """The folder that a test runs in, with the files above."""
    monkeypatch.chdir(tmp_path)
    os.mkdir("<i>")
    os.symlink(os.path.join(programs.ROOT, "examples", "lock"), "example")
    for name, value in FILES.items():
        with open(name, "w", encoding="utf-8") as file:
            json.dump(value, file, indent=None if name.startswith("many") else 1)


def wrong(checks):
    return [f"{name}: {got}, and not {wanted}" for name, got, wanted in checks if got != wanted]


@pytest.mark.parametrize("words", [words for _, words in COMPARED], ids=[name for name, _ in COMPARED])
def test_page_and_report_say_the_same(room, words):
    checks = list(report_pages.compare(programs.built("npm_lock_check"), ["--unchecked", *words]))
    assert len(checks) == 13 and wrong(checks) == []


def hostile_page():
    words = ["--format", "html", "--advisories", "advisories.json", "hostile.json", "bad.json"]
    return subprocess.run([programs.built("npm_lock_check"), *words], stdin=subprocess.DEVNULL, capture_output=True, encoding="utf-8").stdout


def browsed(page):
    """What is wrong with a page in Chromium, and how many checks there were."""
    with open("page.html", "w", encoding="utf-8") as file:
        file.write(page)
    checks = list(report_pages.browse("page.html"))
    return wrong(checks), len(checks)


def test_page_in_a_browser(room):
    assert browsed(hostile_page()) == ([], 5)


@pytest.mark.parametrize("name", ["<script>window.ran=1</script>", "<img src=x onerror=window.ran=1>"])
def test_markup_of_a_name_is_found(room, name):
    """A page with the markup of a name in it is found out by the readers."""
    page = hostile_page()
    assert html.escape(name) in page
    faults, _ = browsed(page.replace(html.escape(name), name, 1))
    assert any(fault.startswith("each tag") for fault in faults)


def test_picture_is_a_small_png():
    with open(os.path.join(programs.ROOT, "docs", "page.png"), "rb") as file:
        picture = file.read()
    assert picture.startswith(b"\x89PNG\r\n\x1a\n") and len(picture) <= 150000
