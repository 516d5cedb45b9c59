"""The package of each language, made of the proved exports and installed into an empty folder: its own tests run on what is installed
there, and count themselves. They are built in the same folders, and so one after another; then come their C with sanitizers, and a
release of them all."""
import os
import re
import shutil
import subprocess

import pytest

from support import programs
import files
import gate

crates = programs.crates


def run(command, at=crates.ROOT, **settings):
    """Runs lines of bash: what they write."""
    ran = subprocess.run(["bash", "-euo", "pipefail", "-c", command], cwd=at, env={**os.environ, **settings}, stdin=subprocess.DEVNULL,
                         stdout=subprocess.PIPE, stderr=subprocess.STDOUT, text=True)
    assert ran.returncode == 0, ran.stdout[-3000:]
    return ran.stdout


@pytest.fixture(scope="session", autouse=True)
def exports():
    if subprocess.run([f"{crates.TOOLS}/needs"], stdout=subprocess.DEVNULL).returncode:
        pytest.skip("packages of Debian are missing: tools/needs says which")
    for name in crates.exports():
        os.utime(programs.built(name))  # (`make` goes by time stamps, and builds it no second time)


@pytest.fixture
def counts(record_property):
    """Runs lines of bash that write 'N passed, M failed' last: none may fail. These are counted, in place of the one test."""
    def counted(command, at=crates.ROOT, **settings):
        ran = gate.run(command, ["bash", "-uc", command], at=at, **settings)
        assert not ran.failed, f"{command} failed"
        record_property("checks", ran.passed)
        return ran.text

    return counted


@pytest.mark.parametrize("target", ["check", "check-calls"])
def test_c(counts, target):
    counts(f"make -s -C bindings/c {target}")


# ---- Python

PYTHON = "/usr/bin/python3"
SETTINGS = {"PYTHONDONTWRITEBYTECODE": "1", "NODE_SEMVER_LIBRARY": f"{crates.ROOT}/bindings/c/build/libnode_semver.a"}
# Makes the source distribution, and the wheel of it with the tag that its parts allow; and then the same where each allocation can be refused.
BUILD = f"""
copy() {{ rm -rf source; cp -RL "$TOP/bindings/python" source; rm -rf source/build; }}
install() {{ {PYTHON} -m pip install --no-index --no-deps --target "$@"; }}
make -C "$TOP/bindings/c" all calls
export CFLAGS=-Werror
copy
{PYTHON} -m build --no-isolation --outdir built source
{PYTHON} "$TOP/packaging/manylinux.py" tag built/*-abi3-*.whl dist
cp built/*.tar.gz dist
install package dist/*.whl
copy
NODE_SEMVER_REFUSE=1 {PYTHON} -m pip wheel --no-build-isolation --no-index --no-deps -w refusing ./source
install refused refusing/*-abi3-*.whl
"""
# One wheel serves other Pythons too; mypy is asked once.
MODULES = """test_rows test_sets test_long test_types test_errors test_threads test_docs test_pick test_resolve test_check
    test_collector test_hashes test_arguments test_attacks test_native test_objects"""
OTHER = shutil.which("python3")
RUNS = [(PYTHON, "package", "", ""), *[(OTHER, "package", "", " ".join(MODULES.split()))] * (OTHER != PYTHON),
        (PYTHON, "package", "distributions", ""), (PYTHON, "package", "setup", ""), (PYTHON, "refused", "refused", "")]


@pytest.fixture(scope="session")
def python(exports, tmp_path_factory):
    """The folder with `dist`, `package` and `refused`."""
    room = tmp_path_factory.mktemp("python")
    run(BUILD, at=room, TOP=crates.ROOT, **SETTINGS)
    return room


@pytest.mark.parametrize("command, installed, folder, modules", RUNS)
def test_python(counts, python, command, installed, folder, modules):
    said = counts(f"{command} bindings/python/tests/run.py bindings/python/tests/{folder} {modules}",
                  PYTHONPATH=f"{python}/{installed}", DISTRIBUTIONS=f"{python}/dist", **SETTINGS)
    assert re.findall(r"^left out.*", said, re.M) == []


def test_the_speed_of_python_is_measured(python):
    run(f"{PYTHON} bindings/python/speed.py", PYTHONPATH=f"{python}/package", **SETTINGS)


def test_the_commands_of_the_python_page(python, tmp_path):
    """But for those of apt-get and of a release, in a copy that has nothing but the package."""
    shutil.copytree(f"{crates.ROOT}/bindings/python", tmp_path / "bindings/python", symlinks=True)
    shutil.copy(f"{crates.ROOT}/LICENSE", tmp_path)
    shutil.rmtree(tmp_path / "bindings/python/build", ignore_errors=True)
    lines = re.findall(r"^    ((?:env/|/usr/bin/).*)$", files.read("bindings/python/README.md"), re.M)
    assert len(lines) == 4
    assert re.fullmatch(r"[1-9]\d* checked, 0 not satisfied, 0 not checked", run("\n".join(lines), at=tmp_path, **SETTINGS).splitlines()[-1])
    run("ls dist/denimscree_semver-*-cp310-abi3-linux_x86_64.whl dist/denimscree_semver-*.tar.gz", at=tmp_path)


# ---- WebAssembly, the page, and Node

def test_wasm(counts):
    counts("make -s -C bindings/wasm check")


def test_page(counts):
    counts("""make -s -C bindings/wasm MODULES=node_semver
        bindings/wasm/page/test/run bindings/wasm/build/node_semver.wasm bindings/wasm/build/range.html""")


@pytest.fixture(scope="session")
def node(exports, tmp_path_factory):
    """The folder of the package for Node, which is packed, and installed without install scripts into a folder with a blank in its name."""
    app = tmp_path_factory.mktemp("node") / "an app"
    app.mkdir()
    settings = {"npm_config_cache": f"{app.parent}/cache", "npm_config_update_notifier": "false"}
    run(f"npm pack --pack-destination {app.parent}", at=f"{crates.ROOT}/bindings/node", **settings)
    run("npm install --ignore-scripts --offline --no-audit --no-fund ../*.tgz", at=app, **settings)
    return app / "node_modules" / "denimscree-semver"


# Whether the package has each file that its package.json names, and runs nothing when it is installed.
IS_WHOLE = """
const { files, scripts, os, cpu, libc, gypfile } = require("./package.json");
const absent = files.filter((file) => !fs.existsSync(file));
const runs = ["preinstall", "install", "postinstall"].filter((it) => scripts[it]);
if (absent.length > 0 || runs.length > 0) throw new Error(`it lacks ${absent}, or runs ${runs}`);
if (os || cpu || libc || gypfile) throw new Error("it is for one machine");
"""


def test_the_package_for_node_is_whole(node):
    run(f"node -e '{IS_WHOLE}'; cmp LICENSE {crates.ROOT}/LICENSE", at=node)
    said = run(f"node node_modules/{node.name}/examples/installed.js node_modules", at=node.parent.parent)
    assert said == "1 packages, 0 dependencies, 0 not satisfied, 0 without a range\n"


def test_node(counts, node):
    """The command is compared with the proved program, if that is built of the sources as they stand."""
    program = {"SEMVER_COMMAND": crates.built_file("semver_command")} if crates.is_built("semver_command") else {}
    counts("""npm test 2>&1 | tee ../../../said
        echo "$(sed -n 's/^# pass //p' ../../../said) passed, $(sed -n 's/^# fail //p' ../../../said) failed" """, at=node,
           DENIMSCREE_TESTED_WASM=f"{crates.ROOT}/bindings/wasm/build/tested", npm_config_update_notifier="false", **program)


# ---- databases, sanitizers, and a release

def test_sql(counts):
    """In SQLite and in a server of PostgreSQL of its own."""
    run("make -s -C bindings/sql")
    counts("bindings/sql/tests/run bindings/sql/build")


def test_clusters(counts, python):
    counts(f"{PYTHON} bindings/clusters/tests/run.py", PYTHONPATH=f"{python}/package", **SETTINGS)


def test_sanitized(counts):
    counts("bindings/sanitized")


def test_release(counts):
    """Of the log of the gate."""
    if not os.environ.get("DENIMSCREE_LOG"):
        pytest.skip("it needs DENIMSCREE_LOG, a log of the gate")
    counts('packaging/tests/run "$DENIMSCREE_LOG"')
