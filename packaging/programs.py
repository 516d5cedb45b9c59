"""The programs of a release: linked from the object files that the gate has proved and built, so that they need no library."""
import os
import subprocess
import sys

from versions import ROOT

sys.path.insert(0, os.path.join(ROOT, "tools", "shared"))
import crates


def kit():
    """The folder of the toolchain."""
    said = subprocess.run(["rt", "doc"], capture_output=True, text=True, check=True).stdout
    return os.path.dirname(said.split("\n")[0])


KIT = kit()
sys.path.insert(0, os.path.join(KIT, "bin"))
import rtlib

def listed():
    """Pairs of a crate and the name of its program."""
    return [(crate, name) for name, crate in crates.programs().items()]


def object_of(crate):
    """The object file of a program. The gate leaves it, but for a crate that an earlier run on this machine has proved: that
    is proved and compiled once more, over the libraries that the gate has proved."""
    folder = os.path.join(ROOT, "crates", crate)
    made = os.path.join(folder, "out", f"{crate}.o")
    if not crates.is_built(crate, made):
        sources = crates.sum_of_sources(crate)
        known = {it.name: it for it in rtlib.crates_below(ROOT)}
        words = [*known[crate].words(["--jobs", "1"], False), "--toolchain", os.path.join(KIT, "toolchain"), "--backend", "llvm"]
        words = [rtlib.RATTLE, "build", *words, "-o", f"out/{crate}.o"]
        ran = subprocess.run(words, cwd=folder, capture_output=True, text=True)
        if ran.returncode:
            sys.exit(f"{ran.stdout[-2000:]}{ran.stderr[-2000:]}\nrelease: {crate} was not compiled")
        crates.note(sources, crate, made)
    return made


def link(crate, path):
    """Links the program of a crate, if it was built of the sources as they stand: it can be loaded at any address, what is
    relocated cannot be written later, and the stack cannot be run."""
    made = object_of(crate)
    parts = [os.path.join(KIT, "c", name) for name in ("libos_c.a", "liblibc_c.a")]
    hardened = "-Wl,-z,relro,-z,now,-z,noexecstack"
    subprocess.run(["cc", "-static-pie", hardened, "-s", "-Wl,--build-id=none", "-o", path, made, *parts], check=True)


def help_of(path):
    """What `--help` writes, or None where a program takes no arguments."""
    ran = subprocess.run([path, "--help"], stdin=subprocess.DEVNULL, capture_output=True, text=True)
    return ran.stdout if ran.returncode == 0 and ran.stdout else None
