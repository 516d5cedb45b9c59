"""Makes a test of each row of `programs/`, `rows/` and `memory/`, and counts the tests of each kind, a kind being a folder."""
import collections
import hashlib
import os
import shlex

import pytest

from support import call_rows, programs, refused_calls, refused_programs, rows
import gate


class Wrong(Exception):
    """A row whose run is not as it says."""


class Row(pytest.Item):
    """A row of any kind of file."""

    def __init__(self, *, case, **more):
        super().__init__(**more)
        self.case = case

    def runtest(self):
        if told := list(self.case.faults()):
            raise Wrong("\n".join(told))

    def repr_failure(self, excinfo, style=None):
        if not isinstance(excinfo.value, Wrong):
            return super().repr_failure(excinfo, style)
        place = os.path.relpath(self.path, programs.ROOT)
        return f"{place}:{self.case.line}: {self.name}\n{excinfo.value}\n    the row alone:\n        ./check {shlex.quote(f'{place}::{self.name}')}"

    def reportinfo(self):
        return self.path, self.case.line - 1, self.name


class Rows(pytest.File):
    """A file of rows, by its ending and its folder."""

    def collect(self):
        names, reader = set(), rows if self.path.suffix == ".rows" else READERS[self.path.parent.name]
        for case in (refused_programs if self.path.name == "programs.tsv" else reader).read(self.path):
            if case.name in names:
                raise rows.Malformed(f"{self.path}:{case.line}: there are two rows of the name {case.name}")
            names.add(case.name)
            yield Row.from_parent(self, name=case.name, case=case)


READERS = {"rows": call_rows, "memory": refused_calls}


def pytest_collect_file(parent, file_path):
    return Rows.from_parent(parent, path=file_path) if file_path.suffix in (".rows", ".calls", ".tsv") else None


def pytest_collection_modifyitems(config, items):
    """Side by side tests run in an order of no meaning: those that take a minute stand together, and one process would get them all."""
    if words := config.option.word:
        above = {f"[{name}]" for name, (uses, _) in programs.crates.listed().items() for word in words if word in (name, *uses)}
        items[:] = [it for it in items if any(word in it.nodeid for word in words)
                    or it.nodeid.startswith("crates/") and any(name in it.nodeid for name in above)]
    if hasattr(config, "workerinput"):
        items.sort(key=lambda it: hashlib.md5(it.nodeid.encode()).digest())


@pytest.hookimpl(tryfirst=True)
def pytest_runtest_makereport(call):
    """Skips a test whose program is not built. Of such tests there may be 2,000, and to print where one of them ended takes long."""
    if call.excinfo and call.excinfo.errisinstance(programs.NotBuilt):
        skipped = pytest.skip.Exception(str(call.excinfo.value))
        call.excinfo = pytest.ExceptionInfo.from_exc_info((type(skipped), skipped, call.excinfo.tb))


# ---- what ran

def pytest_addoption(parser):
    parser.addoption("--word", action="append", default=[], help="runs only tests whose name has it, or of a crate that uses the one of this name")
    parser.addoption("--whole", default="", help="no test may be left out, and of these kinds there are as many as tests/least says")


def summary(stats, whole):
    """The last lines of a run, and how many tests failed. `whole`: the kinds of which no test may be left out."""
    kinds, skipped = collections.Counter(), collections.defaultdict(list)
    for report in stats.get("passed", []):
        counted = dict(report.user_properties)
        kinds[report.nodeid.split("/")[0]] += counted.get("checks", 1)
        kinds["made"] += counted.get("made", 0)
    for report in stats.get("skipped", []):
        skipped[report.longrepr[2].removeprefix("Skipped: ")].append(report.nodeid)
    failed, left = sum(len(stats.get(it, [])) for it in ("failed", "error")), sum(map(len, skipped.values()))
    passed = sum(kinds.values()) - kinds["made"]
    lines = [", ".join(f"{kind} {'ok' if kind == 'lints' and not failed else f'{count:,}'}" for kind, count in sorted(kinds.items())
                       if kind != "made")]
    unbuilt = sorted(name.removeprefix("not built: ") for name in skipped if name.startswith("not built: "))
    if unbuilt:
        count = sum(len(skipped.pop(f"not built: {name}")) for name in unbuilt)
        lines.append(f"{count:,} of {passed + failed + left:,} need proved programs: ./check --prove {' '.join(unbuilt)}")
    lines += [f"not run: {', '.join(names) if len(names) < 5 else f'{len(names)} tests'}: {why}" for why, names in skipped.items()]
    if whole:
        least = gate.least()
        few = [f"WRONG: {kind}: wanted: {least[kind]} at least, as tests/least says, got: {kinds[kind]}"
               for kind in whole if kinds[kind] < least[kind]]
        lines, failed = lines + few, failed + left + len(few)
    return [*lines, f"{passed} passed, {failed} failed{f', {left} skipped' if left and not whole else ''}"], failed


SUMMARY = pytest.StashKey()


def pytest_sessionfinish(session, exitstatus):
    shown = session.config.pluginmanager.get_plugin("terminalreporter")
    if not hasattr(session.config, "workerinput") and exitstatus in (0, 1) and not session.config.option.collectonly:
        session.config.stash[SUMMARY], failed = summary(shown.stats, session.config.option.whole.split())
        session.exitstatus = int(failed > 0)


def pytest_unconfigure(config):
    for line in filter(None, config.stash.get(SUMMARY, [])):
        print(line, flush=True)
