"""The commands of the README and of the pages of crates write what stands below them, and each option that these give to a program is one of
its `--help`. A line `$ COMMAND` of an indented block runs at the top of the repository; it writes, standard error last, what stands below it
up to the next one or the end of the block."""
import os
import re
import shutil
import subprocess

import pytest

from support import programs
import files

crates = programs.crates
NAME = "|".join(crates.programs())
BLOCKS = [re.sub("^    ", "", block, flags=re.M) for page in files.matching("README.md", "crates/*/README.md")
          for block in re.findall(r"(?<=\n\n)((?:    .*\n)+)(?=\n|\Z)", files.read(page))]
COMMANDS = [shown for block in BLOCKS for shown in re.findall(r"^\$ (.*)\n((?:(?!\$ ).*\n)*)", block, re.M)]
OPTIONS = sorted({(name, option) for block in BLOCKS for name, words in re.findall(rf"(?:^|^\$ |\| )({NAME}) (.*)", block, re.M)
                  for option in re.findall(r"(?<!\S)--[a-z-]+", words)})


def run(command, at=crates.ROOT, **settings):
    named = re.findall(rf"\b(?:{NAME})\b", command)
    return subprocess.run(["bash", "-uc", command], cwd=at, capture_output=True, text=True, env={**programs.environment(*named), **settings})


@pytest.mark.parametrize("command, wanted", COMMANDS, ids=[command for command, _ in COMMANDS])
def test_a_command(command, wanted):
    ran = run(command)
    assert ran.stdout + ran.stderr == wanted


@pytest.mark.parametrize("name, option", OPTIONS)
def test_an_option(name, option):
    assert re.search(rf"{option}(?![a-z-])", run(f"{name} --help").stdout)


# ---- the README's section "Install", in a copy that has nothing built but the proved exports, with an empty home

# How what is installed is used, from C, Python and Node. Without the toolchain in PATH what is built is installed too, and else make says
# what is missing.
USED = [
    "cc -o satisfies bindings/c/examples/satisfies.c $(PKG_CONFIG_PATH=$HOME/.local/lib/pkgconfig pkg-config --cflags --libs node_semver) "
    "-Wl,-rpath,$HOME/.local/lib && test \"$(./satisfies '^1.2.3' 1.3.0)\" = yes",
    "cd / && \"$OLDPWD/env/bin/python\" -c 'from node_semver import Range; raise SystemExit(\"1.9.0\" not in Range(\"^1.2 || 3\"))'",
    "cd $HOME/project && node -e 'process.exit(require(\"denimscree-semver\").satisfies(\"1.9.0\", \"^1.2 || 3\") ? 0 : 1)'",
    "PATH=/usr/bin:/bin; ! command -v rt && make -C bindings/c install PREFIX=$HOME/other",
    "PATH=/usr/bin:/bin; touch crates/node_semver_c/src/lib.rt; "
    "make -C bindings/c 2>&1 | grep '^rt, the command of the Rattle toolchain, is not in PATH$'",
]


def test_what_is_installed_is_used(tmp_path):
    copy, home = tmp_path / "clone", tmp_path / "home"
    exports = [programs.built(name) for name in crates.exports()]
    built = [os.path.relpath(it, crates.ROOT) for path in exports for it in (path, f"{path}.sources", re.sub(r"lib(\w+)\.a$", r"\1.bc", path))]
    for path in [*files.below(""), *built]:
        (copy / path).parent.mkdir(parents=True, exist_ok=True)
        shutil.copy2(os.path.join(crates.ROOT, path), copy / path, follow_symlinks=False)
    (home / "project").mkdir(parents=True)
    lines = re.findall(r"^    (.*)$", files.read("README.md").split("\n## Install\n")[1].split("\n## ")[0], re.M)
    assert len(lines) > 3
    for line in [*lines, *USED]:
        ran = run(line, copy, HOME=str(home), npm_config_cache=f"{tmp_path}/cache", npm_config_offline="true")
        assert ran.returncode == 0, f"{line}\n{ran.stdout[-1500:]}{ran.stderr[-1500:]}"
