# SPDX-License-Identifier: Apache-2.0
"""Each allocation of a call by name fails in turn: it raises MemoryError, and keeps no memory.

It runs from the build that NODE_SEMVER_REFUSE=1 makes.
"""

import ctypes
import json
import unittest
from typing import Any, List, Tuple

from node_semver import _calls

NATIVE = ctypes.PyDLL(_calls.__file__)
NATIVE.refuse_at.argtypes = [ctypes.c_long]
NATIVE.blocks_kept.restype = ctypes.c_long

LONG = "x" * 9000
DOCUMENT = {
    "dist-tags": {"latest": "1.0.0", "next": LONG},
    "versions": {"1.0.0": {"engines": {"node": ">=18 || ^16.1.2-rc.1.a"}, "deprecated": True}, "1.1.0": {}, LONG: {}},
    "time": {"1.1.0": "2021-01-01T00:00:00.000Z"},
}  # fmt: skip
DOCUMENTS = {
    "hot": {"versions": {"4.0.0": {"peerDependencies": {"react": "^17"}}, "5.0.0": {"peerDependencies": {"react": "^18"}}}},
    "react": {"dist-tags": {"latest": "18.2.0"}, "versions": {"17.0.2": {"deprecated": True}, "18.2.0": {}}},
}  # fmt: skip
LOCK = {"lockfileVersion": 3, "packages": {"": {"dependencies": {"react": "18"}}, "node_modules/react": {"version": "17.0.2"}}}
ADVISORIES = {"react": [{"id": 7, "severity": "high", "title": "t", "url": "u", "vulnerable_versions": "<18"}]}
FLAT = {"flat": True, "lockfile": True}


def picks(**members: Any) -> Tuple[str, str]:
    return "pick", json.dumps({"packument": DOCUMENT, "before": "2024-01-01T00:00:00Z", "node": "20.0.0", **members})


def resolves(dependencies: Any, **members: Any) -> Tuple[str, str]:
    return "resolve", json.dumps({"manifest": {"dependencies": dependencies}, "packuments": DOCUMENTS, "steps": 1000, **members})


CALLS: List[Tuple[str, str]] = [
    picks(wanted="^1"), picks(wanted="^1", avoid="1.1.0 || ^3.0.0-rc.1"), picks(wanted="next"), picks(wanted="1.0.0"),
    picks(wanted="^9"), picks(wanted="gone"), picks(packument="[1, 2"), picks(wanted=7),
    resolves({"hot": "*", "react": "^18"}), resolves({"hot": "^4", "react": "^18"}), resolves({"gone": "*"}),
    resolves({"gone": "file:a"}), resolves(7), resolves({}, packuments=[]), resolves({"hot": "*"}, lock=LOCK),
    resolves({"hot": "*"}, **FLAT), resolves({}, lock={"lockfileVersion": 3, "packages": {"": 7}}),
    ("check", json.dumps({"lock": LOCK, "manifest": {"dependencies": {"react": "17"}}})),
    ("audit", json.dumps({"lock": LOCK, "advisories": ADVISORIES})),
    ("check", "{"), ("none", "{}"),
]  # fmt: skip


class Refused(unittest.TestCase):
    def count_of(self, name: str, text: str) -> int:
        """How many allocations of a call were refused."""
        expected, kept, place = _calls.call(name, text), NATIVE.blocks_kept(), 0
        while True:
            NATIVE.refuse_at(place)
            try:
                answer = _calls.call(name, text)
            except MemoryError:
                answer = expected
            has_refused = NATIVE.has_refused()
            NATIVE.refuse_at(-1)
            self.assertEqual(answer, expected, (name, text[:200], place))
            self.assertEqual(NATIVE.blocks_kept(), kept, (name, text[:200], place))
            if not has_refused:
                return place
            place += 1

    def test_each_allocation(self) -> None:
        self.assertGreater(sum(self.count_of(*call) for call in CALLS), 1000)


if __name__ == "__main__":
    unittest.main()
