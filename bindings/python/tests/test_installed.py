# SPDX-License-Identifier: Apache-2.0
"""examples/installed.py: on a made-up folder, and on npm's own node_modules, where npm's semver gives the same."""

import contextlib
import importlib.util
import io
import itertools
import json
import os
import shutil
import subprocess
import tempfile
import unittest
from typing import Any, Dict, List, Optional, Tuple

from node_semver import Range

EXAMPLES = os.path.join(os.path.dirname(os.path.dirname(os.path.abspath(__file__))), "examples")
SPEC = importlib.util.spec_from_file_location("installed", os.path.join(EXAMPLES, "installed.py"))
assert SPEC is not None and SPEC.loader is not None
installed: Any = importlib.util.module_from_spec(SPEC)
SPEC.loader.exec_module(installed)

# A folder in the project, and its package.json. `late` has its own copy of `tool`, and `tool` depends on an absent package.
MADE_UP: Dict[str, Dict[str, object]] = {
    "": {
        "name": "app",
        "version": "0.1.0",
        "dependencies": {"tool": "^1.2.0", "@s/kit": "~2.1", "alias": "npm:tool@1"},
    },
    "node_modules/tool": {"name": "tool", "version": "1.3.0-rc.1", "dependencies": {"absent": "^1"}},
    "node_modules/alias": {"name": "tool", "version": "1.9.0"},
    "node_modules/@s/kit": {
        "name": "@s/kit",
        "version": "2.1.7",
        "peerDependencies": {"tool": ">=1.3.0-a", "late": ""},
    },
    "node_modules/late": {
        "name": "late",
        "version": "3.0.0",
        "optionalDependencies": {"tool": "2.x || 3", "@s/kit": "3"},
    },
    "node_modules/late/node_modules/tool": {
        "name": "tool",
        "version": "3.9.9",
        "dependencies": {"late": "file:../.."},
    },
    "node_modules/late/node_modules/odd": {
        "name": "odd",
        "version": "not one",
        "dependencies": {"odd": "*", "late": "next"},
    },
}

WRONG = [
    ("app@0.1.0", "tool", "^1.2.0", "1.3.0-rc.1"),
    ("late@3.0.0", "@s/kit", "3", "2.1.7"),
    ("odd@not one", "odd", "*", "not one"),
]
NO_RANGES = [("odd@not one", "late", "next"), ("tool@3.9.9", "late", "file:../..")]

# Prints, for each pair of a range and a version, what the semver inside npm returns.
NODE_PROGRAM = """
const semver = require(process.argv[1] + '/node_modules/semver');
const pairs = JSON.parse(require('fs').readFileSync(0, 'utf8'));
process.stdout.write(JSON.stringify(pairs.map(([range, version]) => semver.satisfies(version, range, true))));
"""


def npm_folder() -> Optional[str]:
    """The folder of the npm that Node ships with."""
    program = shutil.which("npm")
    if program is None or shutil.which("node") is None:
        return None
    folder = os.path.dirname(os.path.dirname(os.path.realpath(program)))
    return folder if os.path.exists(os.path.join(folder, "node_modules", "semver")) else None


# The same with two of npm's options, which the third part of a triple has.
NODE_PROGRAM_WITH_OPTIONS = """
const semver = require(process.argv[1] + '/node_modules/semver');
const rows = JSON.parse(require('fs').readFileSync(0, 'utf8'));
const answers = rows.map(([range, version, options]) => semver.satisfies(version, range, options));
process.stdout.write(JSON.stringify(answers));
"""

# Ranges of `engines`, and versions of Node that end a range or are a prerelease.
ENGINES = ["", "*", ">=18", "<=20", "^18.17.0 || >=20.5.0", "14 || >=16.10", ">= 0.8", "^1 ||", "18.x.3", ">20 <18"]
NODES = ["16.0.0-rc.1", "16.10.0", "18.0.0-rc.1", "18.17.0", "20.0.0", "20.5.0", "20.5.1-a", "21.0.0-0", "22.1.0"]


class Installed(unittest.TestCase):
    def test_a_made_up_folder(self) -> None:
        with tempfile.TemporaryDirectory() as room:
            for folder, manifest in MADE_UP.items():
                os.makedirs(os.path.join(room, folder), exist_ok=True)
                with open(os.path.join(room, folder, "package.json"), "w", encoding="utf-8") as file:
                    json.dump(manifest, file)
            os.makedirs(os.path.join(room, "node_modules", ".bin"))
            for place in (room, os.path.join(room, "node_modules")):
                report = installed.check(place)
                self.assertEqual(sorted(map(tuple, report.faults)), WRONG)
                self.assertEqual(sorted(report.others), NO_RANGES)
                self.assertEqual(report.checked, 8)
            with contextlib.redirect_stdout(io.StringIO()) as shown:
                self.assertEqual(installed.main([room]), 1)
            lines = shown.getvalue().splitlines()
            self.assertIn("app@0.1.0 asks for tool '^1.2.0', and 1.3.0-rc.1 is installed", lines)
            self.assertEqual(lines[-1], "8 checked, 3 not satisfied, 2 not checked")

    def test_a_folder_without_packages(self) -> None:
        with tempfile.TemporaryDirectory() as room:
            self.assertEqual(installed.check(room), (0, [], []))

    def pairs_of(self, folder: str) -> List[Tuple[str, str]]:
        """Each range that a package of npm asks for, with each version that is installed there."""
        manifests = [installed.manifest_of(p) for p in installed.packages_in(os.path.join(folder, "node_modules"))]
        ranges = {asked for manifest in manifests for _, asked in installed.asked_by(manifest) if ":" not in asked}
        versions = {manifest["version"] for manifest in manifests}
        return [(asked, version) for asked in sorted(ranges) for version in sorted(versions)]

    def test_npms_own_packages(self) -> None:
        folder = npm_folder()
        if folder is None:
            self.skipTest("there is no npm beside Node")
        report = installed.check(folder)
        self.assertGreater(report.checked, 100)
        self.assertEqual(report.faults, [])
        pairs = self.pairs_of(folder)
        self.assertGreater(len(pairs), 1000)
        done = subprocess.run(
            ["node", "-e", NODE_PROGRAM, folder], input=json.dumps(pairs), capture_output=True, text=True, check=True
        )
        ours = [installed.is_satisfied(installed.range_of(asked), version) for asked, version in pairs]
        differing = [pair for pair, one, other in zip(pairs, ours, json.loads(done.stdout)) if one != other]
        self.assertEqual(differing, [])
        self.assertTrue(0 < sum(ours) < len(ours))

    def test_npms_own_reading(self) -> None:
        folder = npm_folder()
        if folder is None:
            self.skipTest("there is no npm beside Node")
        pairs = self.pairs_of(folder) + [(asked, version) for asked in ENGINES for version in NODES]
        rows = [
            (asked, version, {"loose": loose, "includePrerelease": included})
            for loose, included in itertools.product([False, True], repeat=2)
            for asked, version in pairs
        ]
        done = subprocess.run(
            ["node", "-e", NODE_PROGRAM_WITH_OPTIONS, folder],
            input=json.dumps(rows), capture_output=True, text=True, check=True,
        )  # fmt: skip
        ours = []
        for asked, version, options in rows:
            included = options["includePrerelease"]
            wanted = Range.parse_npm(asked, loose=options["loose"], include_prerelease=included)
            ours.append(wanted.contains(version) if included else version in wanted)
        differing = [row for row, one, other in zip(rows, ours, json.loads(done.stdout)) if one != other]
        self.assertEqual(differing, [])
        self.assertTrue(0 < sum(ours) < len(ours))


if __name__ == "__main__":
    unittest.main()
