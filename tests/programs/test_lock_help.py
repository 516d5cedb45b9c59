"""Each sentence of `npm_lock_check --help`, in its order, with runs that show that it holds."""
import json
import os
import re
import shlex
import subprocess

import pytest

from support import programs, rows

WORDS = rows.words("npm_lock_check")
OSV = {"type": "SEMVER", "events": [{"introduced": "0"}, {"fixed": "2.0.1"}]}
LEVELS = ["info", "low", "moderate", "high", "critical"]
EXCEPTIONS = {"low": ("low", ""), "over": ("low", "until = 2020-01-01"), "until": ("low", "until = 2999-12-31"), "high": ("high", "")}
FILES = {
    "lock.json": {"lockfileVersion": 3, "packages": {
        "": {"dependencies": {"a": "^1", "t": "latest", "gone": "1"}, "workspaces": ["w"]},
        "node_modules/a": {"version": "2.0.0", "engines": {"node": ">=21"}, "peerDependencies": {"p": "1"}},
        "node_modules/t": {"version": "1.0.0"}, "node_modules/a/node_modules/p": {"version": "1.0.0"},
        "node_modules/w": {"link": True, "resolved": "w"}, "w": {}, "node_modules/x": {"link": True, "resolved": "../outer"}, "../outer": {}}},
    "package.json": {"dependencies": {"a": "^2", "t": "latest", "gone": "1"}, "workspaces": ["w"]},
    "w/package.json": {"dependencies": {"t": "1"}},
    "../outer/package.json": {"dependencies": {"t": "2"}},
    "clean.json": {"lockfileVersion": 3, "packages": {"": {}}},
    "osv.json": [{"id": "O", "affected": [{"package": {"ecosystem": "npm", "name": "a"}, "ranges": [OSV]}]}],
    **{f"{level}.json": {"a": [{"id": level, "severity": level, "vulnerable_versions": "<2.0.1"}]} for level in LEVELS},
    "groups.json": {"lockfileVersion": 3, "packages": {
        "": {"devDependencies": {"d": "1"}, "optionalDependencies": {"o": "1"}}, "node_modules/d": {"version": "2.0.0", "dev": True},
        "node_modules/o": {"version": "2.0.0", "optional": True}, "node_modules/b": {"version": "2.0.0", "devOptional": True}}},
    "needed.json": {"lockfileVersion": 3, "packages": {"": {"dependencies": {"d": "1"}}, "node_modules/d": {"version": "1.0.0", "dev": True}}},
    "none.json": [],
    "sources.json": {"lockfileVersion": 3, "packages": {
        "": {"dependencies": {name: "1" for name in "vphrn"}},
        **{f"node_modules/{name}": {"version": "1.0.0", "resolved": address, "integrity": "sha512-AA=="} for name, address in (
            ("v", "https://r/v/-/v-1.0.1.tgz"), ("p", "https://r/q/-/q-1.0.0.tgz"), ("h", "http://r/h/-/h-1.0.0.tgz"),
            ("r", "https://s/r/-/r-1.0.0.tgz"))},
        "node_modules/n": {"version": "1.0.0", "resolved": "https://r/n/-/n-1.0.0.tgz"}}},
    **{f"{name}.json": {"lockfileVersion": 3, "packages": {
        "": {"devDependencies": {"x": "file:l"}, **more}, "l": {"dev": True, "dependencies": {"d": "2"}}, "l/node_modules/d": {"version": "2.0.0", "dev": True},
        "node_modules/x": {"link": True, "resolved": "l"}}} for name, more in (("linked", {}), ("below", {"workspaces": ["l"]}))},
    "all.json": {name: [{"id": number, "vulnerable_versions": "*"}] for number, name in enumerate("dob", 1)},
}
OTHERS = "--ignore missing --ignore invalid --ignore peer-local --ignore engine"


def run(words):
    """The status of a run with lock.json as standard input, and all that it writes."""
    with open("lock.json", encoding="utf-8") as given:
        ran = subprocess.run([programs.built("npm_lock_check"), *shlex.split(words)], stdin=given, stdout=subprocess.PIPE, stderr=subprocess.STDOUT,
                             encoding="utf-8")
    return ran.returncode, ran.stdout


def gives(status, text, words=""):
    """A run ends so, and writes a line with this text, in which words stand by their names."""
    def check():
        found = run(words)
        assert found[0] == status and rows.said(text, WORDS) in found[1], f"{words}: wanted {status} {text}, got {found}"
    return check


def lacks(text, words=""):
    """A run writes no line with this text."""
    def check():
        assert rows.said(text, WORDS) not in run(words)[1], f"{words}: {text}"
    return check


def alike(one, other):
    """Both runs end and write the same."""
    def check():
        assert run(one) == run(other), f"{one} and {other}"
    return check


def has(count, text, words):
    """A run writes so many texts like this one."""
    def check():
        assert run(words)[1].count(text) == count, f"{words}: {count} times {text}"
    return check


SENTENCES = [
    ("Checks the packages of a package-lock.json against what they depend on.", gives(1, "a 2.0.0 {invalid} ^1", "--format text lock.json")),
    ("Usage: npm_lock_check [OPTIONS] [FILE]...", gives(1, "lock.json: a 2.0.0 {invalid} ^1", "--format text lock.json clean.json")),
    ("[FILE]... A package-lock.json.", gives(2, "the input is no lock file that is read here", "package.json")),
    ("With no FILE, and if FILE is -, standard input is read.", alike("", "-"), alike("", "lock.json")),
    ("With several each line of the formats text and json names its FILE.",
     gives(1, "lock.json: gone {missing}", "--format text lock.json clean.json"), gives(1, '"file":"lock.json"', "--format json lock.json clean.json"),
     lacks("lock.json:", "--format text lock.json"), lacks('"file"', "--format json lock.json")),
    ("--node <VERSION> Also check engines.node of each package against this version of Node.",
     gives(1, "node 20.1.0 {invalid} >=21", "--node 20.1.0 --format text"), lacks("node 21.0.0", "--node 21.0.0"), lacks(">=21")),
    ("20 means 20.0.0, and v20.11 means 20.11.0.", gives(1, "node 20.0.0 {invalid}", "--node 20 --format text"),
     gives(1, "node 20.11.0 {invalid}", "--node v20.11 --format text")),
    ("--manifest <FILE> The package.json of the root: write where it and the lock file do not ask for the same, and check the lock file for what "
     "the package.json asks for.",
     gives(1, 'a {in} dependencies {is} "^2" {in} package.json{but} "^1" {locked}', "--manifest package.json --format text"),
     gives(1, "{invalid} ^1", "--format text"), lacks("{invalid} ^1", "--manifest package.json --format text")),
    ("The package.json of each workspace, below the folder of FILE, is checked alike if it is there.",
     gives(1, 't {in} dependencies {is} "1" {in} w/package.json{but} {absent} {locked}', "--manifest package.json --format text")),
    ("Goes with one lock file.", gives(2, "--manifest goes with one FILE", "--manifest package.json lock.json clean.json")),
    ("--exact The exit status is also 1 if FILE and the lock file do not ask for the same.",
     gives(1, "a {in} dependencies {is}", f"--manifest package.json --exact {OTHERS} --format text")),
    ("npm ci installs such a lock file, if it has what FILE asks for.", gives(0, "a {in} dependencies {is}", f"--manifest package.json {OTHERS} --format text")),
    ("--outside Also read a package.json that is not below the folder of FILE, or is no regular file.",
     gives(1, "{in} ../outer/package.json", "--manifest package.json --outside --format text"),
     lacks("{in} ../outer/package.json", "--manifest package.json --format text")),
    ("--unchecked Also list what is not checked, and why: dependencies, manifests and workspaces.",
     gives(1, "t 1.0.0 {unchecked} latest{by the root}{tag}", "--unchecked --format text"),
     lacks("{unchecked} latest", "--format text"), gives(1, "../outer/package.json {manifest}", "--manifest package.json --unchecked --format text")),
    ("--strict The exit status is also 1 if something is not checked, which is listed then.",
     gives(1, "t 1.0.0 {unchecked} latest", f"--strict {OTHERS} --format text"), gives(0, "1 not checked", OTHERS)),
    ("Also --sources.", gives(1, "n 1.0.0 {no-integrity}", "--strict --format text sources.json")),
    ("--ignore <KIND> Leave out problems of this kind: group (package.json and the lock file do not ask for the same), missing, invalid, peer-local or engine.",
     lacks("a {in} dependencies", "--manifest package.json --ignore group --format text"), lacks("gone {missing}", "--ignore missing --format text"),
     lacks("{invalid} ^1", "--ignore invalid --format text"), lacks("{peer-local}", "--ignore peer-local --format text"),
     lacks(">=21", "--node 20 --ignore engine --format text"), gives(1, "{peer-local}", "--ignore engine --format text")),
    ("May be given several times.", gives(0, "0 problems", OTHERS)),
    ("--omit <GROUP> Leave out the packages that npm ci --omit GROUP does not install, and what is in that group of dependencies: dev or optional.",
     gives(1, "2 problems, 0 not checked, 3 hit", "groups.json --advisories all.json"), lacks('"name":"d"', "groups.json --advisories all.json --omit dev"),
     gives(1, "1 problems, 0 not checked, 2 hit, 3 advisories read, 1 packages omitted", "groups.json --advisories all.json --omit dev"),
     lacks('"name":"o"', "groups.json --advisories all.json --omit optional"),
     gives(1, "1 problems, 0 not checked, 2 hit, 3 advisories read, 1 packages omitted", "groups.json --advisories all.json --omit optional")),
    ("What npm installs below a linked folder that is no workspace counts, whatever its group.",
     gives(0, "0 hit, 3 advisories read, 2 packages omitted", "below.json --advisories all.json --omit dev --ignore missing"),
     gives(1, "1 hit, 3 advisories read, 0 packages omitted", "linked.json --advisories all.json --omit dev --ignore missing")),
    ("Also write each package that is left out, though it is needed.", gives(1, "d 1.0.0 {left out} {the root} {by} 1", "needed.json --omit dev --format text"),
     lacks("{left out}", "needed.json --format text")),
    ("May be given several times.", gives(0, "0 problems, 0 not checked, 0 hit, 3 advisories read, 3 packages omitted", "groups.json --advisories all.json --omit dev --omit=optional")),
    ("--sources Also write each package whose address is that of another package or is not encrypted, and each that npm downloads without "
     "integrity.",
     *[gives(1, text, "--sources --format text sources.json") for text in (
         "{address} p 1.0.0 {other-package}", "{address} h 1.0.0 {insecure}", "n 1.0.0 {no-integrity}")],
     *[lacks(text, "--format text sources.json") for text in ("{other-package}", "{insecure}", "{no-integrity}")]),
    ("An address of another version is always written.",
     gives(1, "{address} v 1.0.0 {other-version}", "--format text sources.json"),
     gives(1, "{address} v 1.0.0 {other-version}", "--sources --format text sources.json")),
    ("--registry <URL> Also --sources, and write each package whose address is below no URL that is given here.",
     gives(1, "n 1.0.0 {no-integrity}", "--registry https://r --format text sources.json"),
     gives(1, "{address} r 1.0.0 {other-host}", "--registry https://r --format text sources.json"),
     lacks("{other-host}", "--sources --format text sources.json")),
    ("May be given several times.", lacks("{address} r 1.0.0", "--registry https://r --registry=https://s/ --format text sources.json")),
    ("--advisories <FILE> Also write each installed package that a security advisory of this file hits, and a version that none hits.",
     gives(1, "a 2.0.0 {hit} low (low); 2.0.1 ", "--advisories low.json --format text")),
    ("The file is in OSV's form, or in that of npm's bulk endpoint.", gives(1, "{hit} O", "--advisories osv.json --format text"),
     gives(1, "{hit} high", "--advisories high.json --format text")),
    ("--allow-no-advisories The file of advisories may have none.", gives(1, "0 hit, 0 advisories read", "--advisories none.json --allow-no-advisories")),
    ("Without this option such a file is an error.", gives(2, "the file has no advisory", "--advisories none.json")),
    ("--severity <LEVEL> Leave out advisories that are less severe: info, low, moderate, high or critical.",
     *[lacks(f"{{hit}} {level}", f"--advisories {level}.json --severity {above} --format text") for level, above in zip(LEVELS, LEVELS[1:])],
     *[gives(1, f"{{hit}} {level}", f"--advisories {level}.json --severity {level} --format text") for level in LEVELS[1:]]),
    ("The default is info, which leaves none out.", gives(1, "{hit} info", "--advisories info.json --format text"),
     alike("--advisories info.json", "--advisories info.json --severity info")),
    ("--exceptions <FILE> Leave out each advisory that FILE excepts for a package, and write the package and the reason on standard error.",
     lacks("a 2.0.0 {hit} low (low)", "--advisories low.json --exceptions low.toml --format text"),
     gives(1, "excepted: a 2.0.0 {hit} low: why (node_modules/a)", "--advisories low.json --exceptions low.toml --format text"),
     gives(1, "a 2.0.0 {hit} low (low)", "--advisories low.json --exceptions high.toml --format text")),
    ("FILE is in TOML: it has a table [[exceptions]] with id, package and reason for each.",
     gives(1, "1 excepted", "--advisories low.json --exceptions low.toml"), gives(2, "the exceptions are no TOML", "--exceptions low.json")),
    ("A day, as until = 2027-03-01, is the last one, in UTC, on which the exception applies.",
     gives(1, "{hit} low{until} 2999-12-31: why", "--advisories low.json --exceptions until.toml --format text"),
     gives(1, "a 2.0.0 {hit} low (low)", "--advisories low.json --exceptions over.toml --format text")),
    ("An exception that is used up, or that applies to nothing, is written there too.",
     gives(1, "exception: low of a {used up} 2020-01-01: why", "--advisories low.json --exceptions over.toml"),
     gives(1, "exception: high of a {idle}: why", "--advisories low.json --exceptions high.toml")),
    ("--format <FORMAT> text: write each problem as a sentence.", gives(1, "gone {missing}", "--format text")),
    ("json: write it as a JSON object.", gives(1, '"name":"gone","optional":false,"peer":false,"problem":"missing"', "--format json")),
    ("github: write it as an annotation of GitHub Actions.",
     gives(1, "::error file=lock.json,line=1,col=85::gone {missing}", "--format github lock.json")),
    ("sarif: write all of them as one SARIF 2.1.0 log, of all lock files.", gives(1, '"version":"2.1.0"', "--format sarif lock.json clean.json"),
     has(1, "$schema", "--format sarif lock.json lock.json")),
    ("html: write one page for a browser, which also lists what is not checked.", gives(1, ">Not checked</h3>", "--format html lock.json"),
     has(1, "<html", "--format html lock.json lock.json")),
    ("junit: write one JUnit report, for Jenkins and GitLab.",
     gives(1, '<testcase classname="npm_lock_check.missing" name="missing: gone in the root"', "--format junit lock.json"), has(1, "<testsuites", "--format junit lock.json lock.json")),
    ("These four have the line in FILE, and all but junit the column.", gives(1, "lock.json, line 1, column 85<", "--format html lock.json"),
     gives(1, 'in the root" file="lock.json" line="1">', "--format junit lock.json"), gives(1, "line=1,col=85::gone", "--format github"),
     gives(1, '"startLine":1,"startColumn":85', "--format sarif")),
    ("The default is text if standard output is a terminal, and json if not.", alike("", "--format json")),
    ("-h, --help Print help", alike("-h", "--help"), gives(0, "-h, --help", "-h")),
    ("-V, --version Print version", gives(0, f"npm_lock_check {open(os.path.join(programs.ROOT, 'VERSION')).read()}", "-V"), alike("-V", "--version")),
    ("The value of an option may also be in the same word, as in --node=20.", alike("--node 20", "--node=20")),
    ("If an option is given twice, its last value counts.", alike("--node 1 --node 20.1.0", "--node 20.1.0")),
    ("--manifest, --advisories and --exceptions name a file that is read, and are given once.",
     gives(2, "--manifest", "--manifest package.json --manifest package.json"), gives(2, "--advisories", "--advisories osv.json --advisories osv.json"),
     gives(2, "--exceptions", "--exceptions low.toml --exceptions low.toml")),
    ("The exit status is 0 if nothing was found, 1 if something was, and 2 if the file was not checked.",
     gives(0, "0 problems", "clean.json"), gives(1, "3 problems", "lock.json"), gives(2, "no such file", "nothing.json")),
    ("With several it is the worst of all: each of the others is checked nevertheless.",
     gives(2, "lock.json: gone {missing}", "nothing.json lock.json clean.json --format text"), gives(1, "0 problems", "lock.json clean.json")),
    ("Standard error says how many advisories were read.", gives(1, "1 advisory read", "--advisories low.json")),
]


@pytest.fixture
def room(tmp_path, monkeypatch):
    """The folder that a test runs in, with the files above, of which lock.json is written on one line."""
    for folder in ("stated/w", "outer"):
        os.makedirs(tmp_path / folder)
    monkeypatch.chdir(tmp_path / "stated")
    for name, value in FILES.items():
        with open(name, "w", encoding="utf-8") as file:
            json.dump(value, file)
    for name, (advisory, more) in EXCEPTIONS.items():
        with open(f"{name}.toml", "w", encoding="utf-8") as file:
            file.write(f'[[exceptions]]\nid = "{advisory}"\npackage = "a"\nreason = "why"\n{more}\n')


@pytest.mark.parametrize("at", range(len(SENTENCES)), ids=[f"{at} {sentence}" for at, (sentence, *_) in enumerate(SENTENCES)])
def test_sentence_holds(room, at):
    for check in SENTENCES[at][1:]:
        check()


def shown():
    return subprocess.run([programs.built("npm_lock_check"), "--help"], capture_output=True, encoding="utf-8", check=True)


def test_says_this_and_no_more():
    text = re.sub(r"^ *Example: .*\n", "", shown().stdout, flags=re.M)
    assert re.sub(r"\s+", " ", re.sub(r"^(Arguments|Options):$", "", text, flags=re.M)).strip() == " ".join(sentence for sentence, *_ in SENTENCES)


def test_writes_nothing_on_standard_error():
    assert shown().stderr == ""


def test_has_an_example_for_each_option():
    """Below the lines of each option is an example with it."""
    options = re.split(r"^  (?:    )?(?=-)", shown().stdout, flags=re.M)[1:-2]
    assert len(options) == 15
    for text in options:
        (example,) = re.findall(r"^ *Example: npm_lock_check(.*)$", text, re.M)
        assert re.search(rf" {re.search('--[a-z-]+', text)[0]}\b", example), text
