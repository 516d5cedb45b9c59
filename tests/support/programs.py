"""The built programs, and the surroundings in which the tests run them."""
import atexit
import fcntl
import functools
import os
import re
import shutil
import subprocess
import sys
import tempfile

TESTS = os.path.dirname(os.path.dirname(os.path.abspath(__file__)))
ROOT = os.path.dirname(TESTS)
COMMANDS = os.path.join(TESTS, "support", "commands")  # What rows may run beside the programs.
sys.path.insert(0, os.path.join(ROOT, "tools", "shared"))
import crates


class NotBuilt(Exception):
    """A program is not there, and why."""


@functools.cache
def sought(name):
    """The path of a program or of a library for other languages, and why there is none."""
    crate, built = crates.programs().get(name, name), os.environ.get("DENIMSCREE_PROGRAMS")
    if built and crates.is_program(crate):
        paths = [os.path.join(os.path.abspath(built), path) for path in (name, crate, f"{crate}/out/{crate}")]
        return next(filter(os.path.isfile, paths), None), f"DENIMSCREE_PROGRAMS={built} has neither {name} nor {crate}"
    with open(os.path.join(ROOT, "crates.txt")) as held:  # (two processes do not build at once)
        fcntl.flock(held, fcntl.LOCK_EX)
        if not crates.is_built(crate):
            if os.environ.get("DENIMSCREE_PROVES") == "no":
                return None, f"not built: {crate}"
            try:
                crates.build(crate)
            except (Exception, SystemExit) as error:
                return None, str(error)
    return crates.built_file(crate), None


def built(name):
    """The path of a program or of a library, which is proved and built here if it was not built of the sources as they stand. If
    DENIMSCREE_PROGRAMS is set, a program is one in that folder."""
    path, why = sought(name)
    if path is None:
        raise NotBuilt(why)
    return path


def tried(crate, words, given=b""):
    """Runs `rt try` in the folder of a crate, niced: the status, standard output and standard error. It has 600 seconds of a clock."""
    ran = subprocess.run(["nice", "rt", "try", "--seconds", "600", *words], cwd=os.path.join(crates.CRATES, crate), input=given, capture_output=True)
    return ran.returncode, ran.stdout.decode(errors="replace"), ran.stderr.decode(errors="replace")


@functools.cache
def room():
    """A folder of this process, that is removed when it ends."""
    made = tempfile.mkdtemp(prefix="denimscree-tests-")
    atexit.register(shutil.rmtree, made, ignore_errors=True)
    os.mkdir(os.path.join(made, "bin"))
    os.mkdir(os.path.join(made, "home"))
    return made


def environment(*names):
    """Variables with which these programs are found by their names, with a fixed locale and time zone, and an empty home folder."""
    for name in names:
        link = os.path.join(room(), "bin", name)
        if not os.path.islink(link):
            os.symlink(built(name), link)
    kept = {name: value for name, value in os.environ.items() if not re.match("npm_|lc_|node_", name.lower())}
    return {**kept, "PATH": f"{room()}/bin:{COMMANDS}:{os.environ['PATH']}", "HOME": f"{room()}/home", "LC_ALL": "C.UTF-8", "TZ": "UTC"}
