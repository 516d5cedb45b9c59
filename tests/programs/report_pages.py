"""Reads the page and the JUnit report of npm_lock_check by standard parsers. `compare` compares both with what it writes as JSON and for
GitHub, on the same lock files: of its arguments one is --unchecked, and none is --format. `browse` opens a page in Chromium, 360 pixels
wide: light and dark, and without a script that ran. Each gives checks: a name, what there is, and what is wanted."""
import html
import itertools
import json
import os
import re
import subprocess
import tempfile
import xml.etree.ElementTree

import html5lib

TOOL = "npm_lock_check"
PARTS = ["Advisories: critical", "Advisories: high", "Advisories: moderate", "Advisories: low", "Advisories: info", "Advisories: severity not known",
         "Problems", "Mismatches with a manifest", "Not checked"]
SEVERITIES = ["critical", "high", "moderate", "low", "info", "unknown"]
# What is counted in a line on standard error, and on the page.
COUNTS = {"packages": "packages", "dependencies": "dependencies", "hit": "hit by advisories", "excepted": "excepted", "problems": "problems",
          "mismatches": "mismatches", "not checked": "not checked"}
TAGS = {"html", "head", "meta", "title", "style", "body", "main", "h1", "p", "nav", "ul", "li", "a", "section", "h2", "div", "h3", "h4", "small", "b"}
ATTRIBUTES = {"class", "lang", "charset", "name", "content", "http-equiv", "id", "href", "rel"}
# Control characters, and characters that are not seen or change how others are seen.
HIDDEN = re.compile("[\0-\x1f\x7f-\x9f\xad\u061c\u180e\u200b-\u200f\u2028-\u202e\u2060-\u206f\ufeff\ufff9-\ufffb\ufffe\uffff]")
ANNOTATION = re.compile(r"::(error|warning|notice) file=([^,]*),line=(\d+),col=(\d+)::(.*)")


def shown(text):
    """The text with the bytes of each hidden character by their numbers."""
    return HIDDEN.sub(lambda it: "".join(f"\\x{byte:02x}" for byte in it[0].encode()), text)


def note_of(line):
    """An annotation: its level, file, place and message, without GitHub's escapes."""
    level, file, at, column, message = ANNOTATION.fullmatch(line).groups()
    plain = lambda text: re.sub("%0D|%0A|%3A|%2C|%25", lambda it: chr(int(it[0][1:], 16)), text)
    return level, plain(file), f"line {at}, column {column}", int(at), int(column), plain(message)


# ---- what is wanted

def subject(it):
    """The part and the name that a JSON object stands under, and its rule."""
    if "advisories" in it:
        return min(SEVERITIES.index(one["severity"]) for one in it["advisories"]), it["name"], "advisory"
    if "unchecked" in it:
        return 8, {"manifest": it["from"], "workspaces": "workspaces", "root": "the root"}.get(it["unchecked"], it.get("name")), "unchecked"
    if it["problem"] == "group":
        return 7, it["name"], "mismatch"
    return 6, it["folder"].rpartition("node_modules/")[2] if it["problem"] == "source" else it["name"], it["problem"]


def addresses(it):
    """The addresses of the advisories of a JSON object that are of the web."""
    return [shown(one["url"]) for one in it.get("advisories", []) if one.get("url", "").startswith(("http://", "https://"))]


class Wanted:
    """What the formats json and github say: the files that were refused, and each lock file with its counts and findings."""

    def __init__(self, run, names):
        self.status, objects, self.errors = run("json")
        objects = [json.loads(line) for line in objects.decode().split("\n")[:-1]]
        notes = [note_of(line) for line in run("github")[1].decode().split("\n")[:-1]]
        self.refused = [(file, message) for _, file, *_, message in notes[len(objects):]]
        counts = [re.fullmatch(r'(?:"(.*)": )?(\d+ packages, .*)', line) for line in self.errors.decode().split("\n")]
        counts = {it[1] or shown(names[0]): it[2] for it in filter(None, counts)}
        self.files = [(file, list(self.counted(counts[shown(file)], file, objects)), [(*subject(it), it.get("folder", it.get("from")), addresses(it), note)
                                                                               for it, note in zip(objects, notes) if it.get("file", file) == file])
                      for file in names if shown(file) in counts]

    def counted(self, line, file, objects):
        """The counts of a file; None is what was not looked for."""
        for what, on_page in COUNTS.items():
            found = re.search(rf"(\d+) {what}\b", line)
            yield on_page, int(found[1]) if found else 0 if what == "excepted" and re.search(r"\d hit\b", line) else None
        yield "not read", sum(it.get("unchecked") in ("manifest", "workspaces", "root") for it in objects if it.get("file", file) == file)

    def page(self):
        """The page: its files that were refused, and its sections with their counts and rows."""
        sections = []
        for file, counts, findings in self.files:
            rows = sorted((part, name.encode(), line, column, at, rule, message, level == "error", place, urls)
                          for at, (part, name, rule, _, urls, (level, _, place, line, column, message)) in enumerate(findings))
            sections.append((shown(file), counts, [(PARTS[part], shown(name.decode()), message, f"{rule} \u00b7 {shown(file)}, {place}", is_counted, urls)
                                                   for part, name, _, _, _, rule, message, is_counted, place, urls in rows]))
        return [(shown(file), message) for file, message in self.refused], sections

    def report(self):
        """The suites of the JUnit report: the attributes of each, and its cases with what they hold."""
        for file, message in self.refused:
            case = {"classname": TOOL, "name": "the file is checked", "file": shown(file)}
            yield shown(file), "1 0 1 0", [(case, "error", {"type": "refused"}, message)]
        for file, _, findings in self.files:
            failed, cases = sum(note[0] == "error" for *_, note in findings), []
            for _, name, rule, folder, _, (level, _, _, line, _, message) in findings:
                case = {"classname": f"{TOOL}.{rule}", "name": f"{rule}: {shown(name)} in {shown(folder) or 'the root'}", "file": shown(file), "line": str(line)}
                cases.append((case, "failure", {"type": rule}, message) if level == "error" else (case, "skipped", {}, message))
            cases = cases or [({"classname": TOOL, "name": "nothing is found", "file": shown(file)}, None, None, None)]
            yield shown(file), f"{max(len(findings), 1)} {failed} 0 {len(findings) - failed}", cases


# ---- what is read

class Page:
    """A page, as a browser reads it: its first line, its paragraphs before the sections, the files that were refused, the sections of the
    others with whether each passed, and what is wrong with it."""

    def __init__(self, text):
        parser = html5lib.HTMLParser(namespaceHTMLElements=False)
        root = parser.parse(text)
        self.faults = [f"{code} at {place}" for place, code, _ in parser.errors]
        self.faults += [f"a tag that is no page's: {it.tag} {it.attrib}" for it in root.iter() if it.tag not in TAGS or set(it.attrib) - ATTRIBUTES]
        main = root.find("body/main")
        self.first, self.head = "".join(main[0].itertext()), [it.text for it in main.findall("p") if it.get("class") != "soft"]
        self.refused, self.sections, self.passed = [], [], []
        for section in main.findall("section"):
            self.read(section.findtext("h2"), section)
        self.contents = ["".join(it.itertext()) for it in main.findall("nav/ul/li")]
        # A link inside the page leads to a section or to a part, and there is one to each.
        self.links = {it.get("href")[1:] for it in root.iter("a") if it.get("href").startswith("#")}
        self.marks = {it.get("id") for it in root.iter() if it.get("id")}

    def read(self, name, section):
        """A section: its counts, and its rows with the headings above them; or why the file was refused."""
        counts, rows, heads, refused = [], [], {"h3": None, "h4": None}, []
        for it in section:
            said, kind = "".join(it.itertext()), it.get("class")
            if it.tag == "div":
                counts += map(count_in, it)
            elif it.tag in heads:
                heads[it.tag] = said
            elif it.find("small") is not None:
                urls = [link.get("href") for link in it.iter("a") if link.text == link.get("href")]
                rows.append((*heads.values(), it.text or "", it.findtext("small"), kind == "row", urls))
            elif kind == "row":
                refused.append((name, said))
            elif said in ("Passed", "Failed"):
                self.passed.append((name, said == "Passed" and kind == "fine"))
            elif it.tag not in ("h2", "nav") and (kind, said) not in (("fine", "Nothing was found."), ("bad", "Not checked")):
                self.faults.append(f"a paragraph: {said}")
        self.refused += refused
        self.sections += [] if refused else [(name, counts, rows)]


def count_in(paragraph):
    """What is counted, and how many; None is what was not looked for."""
    number, what = paragraph.findtext("b"), paragraph.find("b").tail
    return (what.removesuffix(": not looked for"), None) if number == "\u2013" and what.endswith(": not looked for") else (what, int(number))


def suites_of(text):
    """The suites of a JUnit report."""
    root = xml.etree.ElementTree.fromstring(text)
    assert (root.tag, root.attrib) == ("testsuites", {"name": TOOL}), root.attrib
    for suite in root:
        assert suite.tag == "testsuite" and list(suite.attrib) == ["name", "tests", "failures", "errors", "skipped"], suite.attrib
        assert all(case.tag == "testcase" and len(case) <= 1 for case in suite)
        name, *numbers = suite.attrib.values()
        yield name, " ".join(numbers), [(case.attrib, *([(it.tag, it.attrib, it.text) for it in case] or [(None, None, None)])[0]) for case in suite]


# ---- both together

def compare(program, arguments):
    """Compares the formats."""
    def run(form):
        done = subprocess.run([program, *arguments, "--format", form], stdin=subprocess.DEVNULL, capture_output=True, check=False)
        return done.returncode, done.stdout, done.stderr

    values = {"--manifest", "--advisories", "--severity", "--node", "--ignore", "--omit"}
    wanted = Wanted(run, [it for before, it in zip(["", *arguments], arguments) if not it.startswith("--") and before not in values])
    (status, text, errors), (report_status, report, report_errors) = run("html"), run("junit")
    for name, it in (("page", (status, errors)), ("report", (report_status, report_errors))):
        yield f"{name}: its status and standard error", it, (wanted.status, wanted.errors)
    for name, it in (("page", text), ("report", report)):
        yield f"{name}: it has no hidden character", HIDDEN.findall(it.decode().replace("\n", "")), []
    page, (refused, sections) = Page(text.decode()), wanted.page()
    passed = [(file, not any(row[4] for row in rows)) for file, _, rows in sections]
    yield "page: each tag is one of a page, and ends", page.faults, []
    yield "page: its first line", page.first, f"The check {'failed' if wanted.status else 'passed'}"
    yield "page: whether every file was checked", page.head, ["Not every lock file was checked." if wanted.status == 2 else "Every lock file was checked."]
    yield "page: the files that were refused", page.refused, refused
    yield "page: the sections", page.sections, sections
    yield "page: the files that passed", page.passed, passed
    yield "page: its links", page.links, page.marks
    yield "page: its contents", page.contents, [f"{file}: refused" for file, _ in refused] + [f"{file}: {'passed' if it else 'failed'}" for file, it in passed]
    yield "report: the suites", list(suites_of(report)), list(wanted.report())


FRAMES = """<!DOCTYPE html><meta charset="utf-8"><body><script>
const read = (scheme) => new Promise((done) => {
    const frame = document.createElement("iframe");
    frame.style = `width:360px;height:600px;border:0;color-scheme:${scheme}`;
    frame.onload = () => setTimeout(() => {
        const page = frame.contentDocument, view = frame.contentWindow;
        done({
            title: page.title, width: page.documentElement.scrollWidth, dark: view.matchMedia("(prefers-color-scheme: dark)").matches,
            ground: view.getComputedStyle(page.body).backgroundColor, tags: [...new Set([...page.querySelectorAll("*")].map((it) => it.localName))],
            groups: [...page.querySelectorAll("h4")].map((it) => it.textContent), ran: String(view.ran),
        });
    }, 200);
    frame.src = PAGE;
    document.body.append(frame);
});
Promise.all(["light", "dark"].map(read)).then((said) => document.body.textContent = "SAID" + JSON.stringify(said) + "END");
</script>"""


def browse(path):
    """Opens a page in Chromium, in frames of another page."""
    with tempfile.TemporaryDirectory() as room:
        with open(f"{room}/frames.html", "w", encoding="utf-8") as file:
            file.write(FRAMES.replace("PAGE", json.dumps("file://" + os.path.abspath(path))))
        words = ["chromium", "--headless", "--no-sandbox", "--disable-gpu", "--hide-scrollbars", "--allow-file-access-from-files", f"--user-data-dir={room}/profile",
                 "--virtual-time-budget=10000", "--dump-dom", f"file://{room}/frames.html"]
        done = subprocess.run(words, stdin=subprocess.DEVNULL, capture_output=True, check=False, timeout=120)
    found = re.search(r"SAID(.*)END</body>", done.stdout.decode(), re.S)
    assert found, done.stderr[-400:]
    light, dark = json.loads(html.unescape(found[1]))
    with open(path, encoding="utf-8") as file:
        page = Page(file.read())
    yield "no script ran", (light["ran"], light["title"]), ("undefined", f"{page.first}: lock files")
    yield "each tag is one of a page", sorted(set(light["tags"]) - TAGS), []
    yield "the names are texts", light["groups"], [group for _, _, rows in page.sections for (_, group), _ in itertools.groupby(rows, lambda row: row[:2])]
    yield "nothing is wider than 360 pixels", (light["width"], dark["width"]), (360, 360)
    yield "it is light or dark", (light["dark"], dark["dark"], light["ground"] != dark["ground"]), (False, True, True)
