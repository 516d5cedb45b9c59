"""What was proved, as JSON: the commit, the toolchain, the functions and clauses of each crate, and the last line of the gate."""
import json
import os
import re
import subprocess
import sys

from versions import ROOT, version

sys.path.insert(0, os.path.join(ROOT, "tools", "shared"))
import crates
import files
import rattle


def gate_of(path):
    """The last line of a log of the gate. It must say that nothing failed, and that each crate was proved or kept."""
    with open(path, encoding="utf-8", errors="replace") as file:
        lines = [line.rstrip() for line in file if line.strip()]
    last = next((line for line in reversed(lines) if re.match(r"\d+ passed, \d+ failed", line)), "no last line")
    if not re.match(r"[1-9]\d* passed, 0 failed", last):
        sys.exit(f"release: {path}: {last}: the gate did not pass")
    text = "\n".join(lines)
    lacking = [name for name in crates.listed() if not re.search(rf"^(rt: )?{name} (proved|is kept|built)\b", text, re.M)]
    if lacking:
        sys.exit(f"release: {path} does not say that these were proved: {', '.join(lacking)}")
    return last


def counts(name):
    """How many functions and clauses the sources of a crate have. What `derive` writes is not counted."""
    functions = [it for path in files.sources(name) for it in rattle.source(path).functions]
    clauses = sum(kind == "ensures" for it in functions for kind, _, _ in it.clauses)
    return {"functions": len(functions), "clauses": clauses}


def statement(gate):
    said = subprocess.run(["rt", "version"], capture_output=True, text=True, check=True).stdout.split("\n")[0]
    commit = subprocess.run(["git", "rev-parse", "HEAD"], cwd=ROOT, capture_output=True, text=True).stdout.strip()
    changed = subprocess.run(["git", "status", "--porcelain"], cwd=ROOT, capture_output=True, text=True).stdout.strip()
    found = {name: counts(name) for name in crates.listed()}
    total = {kind: sum(it[kind] for it in found.values()) for kind in ("functions", "clauses")}
    return json.dumps(
        {
            "name": "denimscree",
            "version": version(),
            "commit": commit + ("" if not changed else " with changes"),
            "toolchain": said,
            "proved": {**total, "crates": found},
            "gate": gate,
            "not proved": "the toolchain, the C library, and the code in C, Python and JavaScript; docs/PROOFS.md says what is tested",
        },
        indent=2,
    ) + "\n"
