"""npm over the package for Node: in a copy of the installed npm each `semver` is this package, and each `npm-pick-manifest` is its `pick`.
This npm and npm's own run the same commands in the same projects, over a registry on this machine. After each command the output, the
status and the files are the same.

`npm_itself.projects` has the projects, in the form of the rows of programs: files, then commands, the status of the first one, and the
modules of the package that they load at least. Each command begins with what those before it have left."""
import difflib
import fcntl
import hashlib
import os
import re
import shutil
import subprocess

import pytest

from support import programs, registry, rows

HERE = os.path.dirname(os.path.abspath(__file__))
PROJECTS = rows.read(os.path.join(HERE, "npm_itself.projects"))
LIBRARIES = ["node_semver_c", "npm_c"]
# Packs the package for Node, in a folder, of a copy: other tests may build in its own. Then installs it.
INSTALL = """
mkdir -p "$1/bindings/wasm" "$1/install"
make -s -C bindings/wasm BUILD="$1/bindings/wasm/build"
cp -R bindings/node "$1/bindings/node"
cp LICENSE "$1"
cd "$1/bindings/node"
node build.js --copy
npm pack --ignore-scripts --pack-destination "$1"
cd "$1/install"
npm install --ignore-scripts --offline --no-audit --no-fund "$1"/*.tgz
"""
PICK = {"package.json": '{"name": "npm-pick-manifest", "version": "9.1.0", "main": "index.js"}',
        "index.js": "module.exports = require('semver/pick')"}
GIT = {f"GIT_{who}_{what}": value for who in ("AUTHOR", "COMMITTER")
       for what, value in (("NAME", "a"), ("EMAIL", "a@example.com"), ("DATE", "2020-01-01T00:00:00Z"))}


def installed():
    """The folder of the npm that is installed."""
    return os.path.dirname(os.path.dirname(os.path.realpath(shutil.which("npm"))))


def package(room):
    """The folder of the package for Node, packed and installed."""
    for crate in LIBRARIES:
        programs.built(crate)
    done = subprocess.run(["bash", "-e", "-c", INSTALL, "bash", room], cwd=programs.ROOT, capture_output=True, encoding="utf-8")
    assert done.returncode == 0, done.stdout[-2000:] + done.stderr[-2000:]
    return os.path.join(room, "install", "node_modules", "denimscree-semver")


def replace(npm, name, put):
    """Puts something in the place of each copy of a package in an npm."""
    found = [at for at, _, _ in os.walk(npm) if at.endswith(f"/node_modules/{name}")]
    assert found, f"npm has no {name}"
    for folder in found:
        shutil.rmtree(folder)
        put(folder)


def put_pick(folder):
    os.mkdir(folder)
    for name, text in PICK.items():
        with open(os.path.join(folder, name), "w", encoding="utf-8") as out:
            out.write(text)


def make(room):
    """Makes two copies of npm, and replaces what is this package in one of them."""
    made = package(room)
    for name in ("own", "other"):
        shutil.copytree(installed(), os.path.join(room, name), symlinks=True)
        # (the script `bin/npm` would run the npm that is installed)
        os.mkdir(os.path.join(room, name, "command"))
        os.symlink("../bin/npm-cli.js", os.path.join(room, name, "command", "npm"))
    replace(os.path.join(room, "other"), "semver", lambda folder: shutil.copytree(made, folder, symlinks=True))
    replace(os.path.join(room, "other"), "npm-pick-manifest", put_pick)


@pytest.fixture(scope="session")
def npms(tmp_path_factory):
    """The folder of both npms. The first process of pytest makes it, and the others wait."""
    top = tmp_path_factory.getbasetemp()
    room = str((top.parent if os.environ.get("PYTEST_XDIST_WORKER") else top) / "npms")
    with open(f"{room}.lock", "w", encoding="utf-8") as lock:
        fcntl.flock(lock, fcntl.LOCK_EX)
        if not os.path.isdir(room):
            shutil.rmtree(f"{room}.new", ignore_errors=True)
            os.mkdir(f"{room}.new")
            make(f"{room}.new")
            os.rename(f"{room}.new", room)
    return room


def environment(npm, room):
    home = os.path.join(room, "home")
    own = programs.environment()
    return {**own, **GIT, "HOME": home, "PATH": f"{npm}/command:{own['PATH']}", "NPM": installed(), "LOADED": os.path.join(room, "loaded"),
            "NODE_OPTIONS": f"--require {HERE}/loaded.js", "npm_config_cache": f"{home}/cache", "npm_config_prefix": f"{home}/global",
            "npm_config_update_notifier": "false", "npm_config_audit": "false", "npm_config_fund": "false"}


def lines(text, npm):
    """What is said, without times and names of logs, in an order of its own: npm reads folders and asks for packages side by side, so
    the order of some lists differs from run to run."""
    plain = re.sub(r"\d+m?s$", "TIME", text.replace(npm, "NPM"), flags=re.M)
    plain = re.sub(r"[\dT_-]*Z-(debug-\d*|eresolve-report)", r"\1", plain)
    return sorted(line.removesuffix(",") for line in plain.splitlines())


def sum_of(path):
    if os.path.islink(path):
        return os.readlink(path)
    with open(path, "rb") as file:
        return hashlib.sha256(file.read()).hexdigest()


def files(folder):
    """A line for each file and each link below a folder, but for those of git."""
    found = []
    for at, folders, names in os.walk(folder):
        folders[:] = [name for name in folders if name != ".git"]
        links = [name for name in folders if os.path.islink(os.path.join(at, name))]
        found += [f"{os.path.relpath(path, folder)} {sum_of(path)}" for path in (os.path.join(at, name) for name in names + links)]
    return sorted(found)


def outcome(npm, project, room, address):
    """What each command says and leaves, and the modules of the package that are loaded. Both npms work at the same place, one after the other."""
    home, folder, loaded = (os.path.join(room, name) for name in ("home", "home/project", "loaded"))
    shutil.rmtree(home, ignore_errors=True)
    os.makedirs(folder)
    rows.put_files(project, folder)
    with open(os.path.join(home, ".npmrc"), "w", encoding="utf-8") as out:
        out.write(f"registry={address}\n{address.removeprefix('http:')}/:_authToken=x\n")
    open(loaded, "w", encoding="utf-8").close()
    steps = []
    for command in project.commands:
        ran = subprocess.run(["bash", "-c", command], cwd=folder, env=environment(npm, room), stdin=subprocess.DEVNULL,
                             stdout=subprocess.PIPE, stderr=subprocess.STDOUT, encoding="utf-8", errors="replace")
        steps.append([f"status {ran.returncode}", *lines(ran.stdout, npm), *files(folder)])
    with open(loaded, encoding="utf-8") as file:
        return steps, set(file.read().split())


def faults(project, own, other):
    """What is wrong, by the outcomes of both npms."""
    for command, one, two in zip(project.commands, own[0], other[0]):
        if one != two:
            yield "\n".join([command, *list(difflib.unified_diff(one, two, "npm", "npm over this package", lineterm="", n=0))[:20]])
    if own[0][0][0] != f"status {project.status}":
        yield f"{project.commands[0]}: wanted: status {project.status}, got: {own[0][0][:20]}"
    if own[1] or not set(project.output.split()) <= other[1]:
        yield f"npm loads {sorted(own[1])} of this package, and npm over this package {sorted(other[1])}"


@pytest.mark.parametrize("project", PROJECTS, ids=[project.name for project in PROJECTS])
def test_is_as_npm_itself(project, npms, record_property, tmp_path):
    room = str(tmp_path)
    with registry.served(room) as address:
        own, other = (outcome(os.path.join(npms, name), project, room, address) for name in ("own", "other"))
    wrong = list(faults(project, own, other))
    assert not wrong, "\n".join(wrong)
    record_property("made", len(project.commands))
