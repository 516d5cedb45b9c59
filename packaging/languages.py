"""The libraries of a release: for C, for Node and browsers, and for Python as a wheel and as sources; and the page to try ranges."""
import glob
import json
import os
import re
import shutil
import subprocess
import sys
import tarfile

import archives
import licences
import manylinux
from versions import ROOT

BINDINGS = os.path.join(ROOT, "bindings")
PYTHON = "/usr/bin/python3"


def run(*words, at=ROOT, **env):
    ran = subprocess.run(words, cwd=at, env={**os.environ, **env}, stdin=subprocess.DEVNULL, capture_output=True, text=True)
    if ran.returncode:
        sys.exit(f"release: {' '.join(words)}: status {ran.returncode}\n{ran.stdout[-2000:]}{ran.stderr[-2000:]}")
    return ran.stdout


def copied(name, room):
    """A copy of the tracked files of a folder of `bindings`."""
    names = run("git", "ls-files", "-z", f"bindings/{name}").split("\0")[:-1]
    for one in names:
        path = os.path.join(room, os.path.relpath(one, "bindings"))
        os.makedirs(os.path.dirname(path), exist_ok=True)
        shutil.copy(os.path.join(ROOT, one), path)
    return os.path.join(room, name)


def check_native(path):
    """Stops if a native part needs a newer C library than a release may, a library beside it, or a stack that can be run."""
    reasons = manylinux.refusals(path, manylinux.NEWEST)
    if reasons:
        sys.exit("release: " + "\nrelease: ".join(f"{path}: {reason}" for reason in reasons))


# The libraries for C, each with its header, and the crates of their exports.
LIBRARIES = {"node_semver": "node_semver_c", "npm_calls": "npm_c"}


def libraries():
    """Builds the libraries for C over the exports that the gate has proved."""
    run(os.path.join(ROOT, "tools", "library"), *LIBRARIES.values())
    run("make", "-C", os.path.join(BINDINGS, "c"), "all", "calls")


def install_c(folder):
    """The libraries for C below a folder that can be moved: pkg-config and CMake find them from where they are."""
    stage = folder + ".stage"
    targets = ("install", "install-calls")
    run("make", "-C", os.path.join(BINDINGS, "c"), *targets, "PREFIX=/usr/local", f"DESTDIR={stage}")
    shutil.copytree(os.path.join(stage, "usr/local"), folder, symlinks=True, dirs_exist_ok=True)
    shutil.rmtree(stage)
    for name in LIBRARIES:
        move_pkg_config(os.path.join(folder, f"lib/pkgconfig/{name}.pc"))
        check_native(os.path.join(folder, f"lib/lib{name}.so"))


def move_pkg_config(path):
    """Makes the folders of a file of pkg-config relative to its own."""
    with open(path, encoding="utf-8") as file:
        lines = file.read().split("\n")
    moved = {"prefix": "${pcfiledir}/../..", "libdir": "${prefix}/lib", "includedir": "${prefix}/include"}
    lines = [re.sub(r"^(prefix|libdir|includedir)=.*", lambda it: f"{it[1]}={moved[it[1]]}", line) for line in lines]
    with open(path, "w", encoding="utf-8") as file:
        file.write("\n".join(lines))


def node_package(room, out):
    """The package for Node, for each machine: its native code is WebAssembly."""
    run("node", os.path.join(BINDINGS, "node", "build.js"))
    at = copied("node", room)
    for name in ("wasm", "internal/modules/inline"):
        shutil.copytree(os.path.join(BINDINGS, "node", name), os.path.join(at, name))
    shutil.copy(os.path.join(BINDINGS, "node", "LICENSE"), at)
    path = os.path.join(at, "package.json")
    with open(path, encoding="utf-8") as file:
        package = json.load(file)
    archives.write(os.path.join(at, "NOTICES"), licences.notices(*LIBRARIES.values()))
    package["files"] = sorted([*package["files"], "NOTICES"])
    archives.write(path, json.dumps(package, indent=2) + "\n")
    run("npm", "pack", "--ignore-scripts", "--pack-destination", out, at=at)


def page(out, version):
    """The page to try ranges, over the module of the proved library."""
    at = os.path.join(BINDINGS, "wasm")
    run("make", "-s", "-C", at, "MODULES=node_semver")
    run("node", os.path.join(at, "page/build.mjs"), os.path.join(at, "build/node_semver.wasm"), os.path.join(out, f"denimscree-{version}-range.html"))


def replace(path, old, new):
    with open(path, encoding="utf-8") as file:
        text = file.read()
    if text.count(old) != 1:
        sys.exit(f"release: {path} has not once {old}")
    archives.write(path, text.replace(old, new))


def python_packages(room, out, date):
    """The sources, and the wheel that is built from them: one for each Python from 3.10 on, with the tag that its parts allow."""
    at = copied("python", room)
    archives.write(os.path.join(at, "NOTICES"), licences.notices(*LIBRARIES.values()))
    replace(os.path.join(at, "pyproject.toml"), 'license-files = ["LICENSE"]', 'license-files = ["LICENSE", "NOTICES"]')
    built = os.path.join(room, "built")
    stamp = {"SOURCE_DATE_EPOCH": str(date), "CFLAGS": "-g0", "NODE_SEMVER_LIBRARY": os.path.join(BINDINGS, "c/build/libnode_semver.a")}
    run(PYTHON, "-m", "build", "--no-isolation", "--outdir", built, at=at, **stamp)
    [sources], [wheel] = (glob.glob(os.path.join(built, f"*.{kind}")) for kind in ("tar.gz", "whl"))
    with tarfile.open(sources) as archive:
        archive.extractall(os.path.join(room, "unpacked"))
    name = os.path.basename(sources)[: -len(".tar.gz")]
    packed = archives.tar_of(os.path.join(room, "unpacked", name), date, name + "/")
    archives.write(os.path.join(out, os.path.basename(sources)), archives.gzipped(packed, date))
    run(PYTHON, os.path.join(ROOT, "packaging/manylinux.py"), "tag", wheel, out, **stamp)
