"""Proves some crates and those below them in a copy that has no others, and leaves in this clone what that built."""
import os
import re
import shutil
import subprocess
import sys
import tempfile

import crates
import files
import gate


def take(name, room):
    """Moves a program, or a library for the crates above it, into this clone. What `rt check` keeps here stays."""
    there, here = (os.path.join(top, "crates", name, "out") for top in (room, files.ROOT))
    os.makedirs(here, exist_ok=True)
    for file in (name, f"{name}.o") if crates.is_program(name) else ():
        if os.path.isfile(os.path.join(there, file)):
            os.replace(shutil.copy(os.path.join(there, file), os.path.join(here, f"{file}.new")), os.path.join(here, file))
    if os.path.isdir(os.path.join(there, "rlib")) and not os.path.exists(os.path.join(here, "rlib", "stamp")):
        shutil.rmtree(os.path.join(here, "rlib"), ignore_errors=True)
        shutil.move(os.path.join(there, "rlib"), here)


def run(names):
    """Proves crates, or all, and builds the programs and the libraries for other languages among them: the status. Of crates that are not
    named no wrong edit is tried."""
    names = names or list(crates.listed())
    below = crates.below(*names)
    if lacking := [name for name in names if name not in below]:
        print(f"{lacking[0]} is no crate of crates.txt", file=sys.stderr)
        return 2
    sums = {name: crates.sum_of_sources(name) for name in below}
    with tempfile.TemporaryDirectory() as room:
        for path in files.below(*(f"crates/{name}" for name in below)):
            if "/must-fail/" not in path or path.split("/")[1] in names:
                os.makedirs(os.path.dirname(os.path.join(room, path)), exist_ok=True)
                shutil.copy(os.path.join(files.ROOT, path), os.path.join(room, path))
        files.write(os.path.join(room, "crates.txt"), "".join(f"{line}\n" for line in files.lines("crates.txt") if re.match(r"\w*", line)[0] in below))
        shutil.copy(os.path.join(files.ROOT, "HANDLES"), room)
        settings = {"RT_JOBS": str(gate.jobs()), **{it: value for it, value in os.environ.items() if it != "CI"}}
        status = subprocess.run(["rt", "ci"], cwd=room, env=settings, stdin=subprocess.DEVNULL).returncode
        if status == 0:
            for name in below:
                take(name, room)
            gate.note_built(below, sums)
    exports = [name for name in names if name in crates.exports()]
    return status or (subprocess.run([os.path.join(crates.TOOLS, "library"), *exports]).returncode if exports else 0)
