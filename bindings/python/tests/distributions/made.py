# SPDX-License-Identifier: Apache-2.0
"""The wheel and the source distribution that are tested, in the folder that DISTRIBUTIONS names, and how commands are run."""

import os
import re
import subprocess
import sys
from email.message import Message
from email.parser import Parser
from glob import glob
from typing import List, Tuple

PACKAGE = os.path.dirname(os.path.dirname(os.path.dirname(os.path.abspath(__file__))))
ROOT = os.path.dirname(os.path.dirname(PACKAGE))
PYTHON = sys.executable

# A program that uses each of the three extension modules, with what it prints.
PROGRAM = """
from importlib.metadata import PackageNotFoundError, version
from node_semver import Range, pick, resolve
print("1.9.0" in Range("^1.2 || 3"), pick({"versions": {"1.9.0": {}}}, "^1").version, resolve({}, {})["outcome"],
    version("denimscree-semver"))
for other in ("node_semver", "node-semver"):
    try:
        print(version(other))
    except PackageNotFoundError:
        print(f"no {other}")
"""


def content(*names: str) -> str:
    with open(os.path.join(*names), encoding="utf-8") as file:
        return file.read()


VERSION = content(ROOT, "VERSION").strip()
PRINTED = f"True 1.9.0 selected {VERSION}\nno node_semver\nno node-semver\n"
[WHEEL] = glob(os.path.join(os.environ["DISTRIBUTIONS"], "*.whl"))
[SOURCES] = glob(os.path.join(os.environ["DISTRIBUTIONS"], "*.tar.gz"))


def run(folder: str, *words: str, **named: str) -> Tuple[int, str]:
    """Runs a command in a folder, with no other variables for builds than these: its status, and what it writes."""
    given = {key: value for key, value in os.environ.items() if not re.match("CFLAGS$|PYTHONPATH$|NODE_SEMVER_", key)}
    done = subprocess.run(
        words, cwd=folder, env={**given, **named}, stdout=subprocess.PIPE, stderr=subprocess.STDOUT, text=True
    )
    return done.returncode, done.stdout


def fields(text: str) -> List[Tuple[str, str]]:
    """The fields of core metadata."""
    message: Message = Parser().parsestr(text)
    return message.items()
