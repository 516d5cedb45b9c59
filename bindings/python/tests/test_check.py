# SPDX-License-Identifier: Apache-2.0
"""`check` and `audit`: lock files, manifests beside them and advisories, as dicts and as JSON; and arguments of other types."""

import datetime
import json
import pickle
import unittest
from typing import Any, Dict, List, Tuple

from node_semver import CheckError, audit, check

LOCK: Dict[str, Any] = {
    "lockfileVersion": 3,
    "packages": {
        "": {"dependencies": {"a": "^1", "b": "^2"}},
        "node_modules/a": {"version": "1.2.0"},
        "node_modules/b": {"version": "1.0.0", "dev": True, "engines": {"node": ">=20"}},
    },
}
OLD = {"lockfileVersion": 1, "dependencies": {"a": {"version": "1.2.0", "requires": {"b": "1"}}}}
ADVISORIES = {"a": [{"id": 7, "severity": "high", "title": "t", "url": "u", "vulnerable_versions": "<1.3"}]}
EXCEPTION: Dict[str, Any] = {"id": "7", "package": "a", "reason": "it is not called"}

# The lock file, the options, and the kinds and names of the problems.
ROWS: List[Tuple[Any, Dict[str, Any], List[Tuple[str, str]]]] = [
    (LOCK, {}, [("invalid", "b")]),
    (json.dumps(LOCK), {}, [("invalid", "b")]),
    (json.dumps(LOCK).encode(), {}, [("invalid", "b")]),
    (LOCK, {"ignore": ["invalid"]}, []),
    (LOCK, {"omit": ("dev",), "ignore": ["invalid"]}, [("left-out", "b")]),
    (LOCK, {"node": "18.0.0", "ignore": ["invalid"]}, [("engine", "node")]),
    (LOCK, {"manifest": {"dependencies": {"a": "^2"}}}, [("group", "a"), ("group", "b"), ("invalid", "a")]),
    (OLD, {}, [("missing", "b")]),
]

# The arguments, the name of what is wrong, and the path to it.
WRONG: List[Tuple[List[Any], Dict[str, Any], str, List[Any]]] = [
    (["{"], {}, "no_json", ["lock"]),
    ([{}], {}, "invalid_lock", ["lock"]),
    ([{"lockfileVersion": 3, "packages": {"a": 7}}], {}, "invalid_lock", ["lock", "packages", "a"]),
    ([LOCK], {"manifest": {"dependencies": {"a": 7}}}, "invalid_manifest", ["manifest", "dependencies", "a"]),
    ([LOCK], {"workspaces": {"w": 7}, "manifest": {}}, "invalid_manifest", ["workspaces", "w"]),
    ([LOCK], {"node": "20"}, "no_version", ["node"]),
    ([LOCK], {"ignore": ["all"]}, "no_word", ["ignore", 0]),
    ([LOCK], {"omit": ["dev", 7]}, "no_string", ["omit", 1]),
    ([LOCK], {"strict": 1}, "no_boolean", ["strict"]),
]


class Check(unittest.TestCase):
    def test_rows(self) -> None:
        for lock, options, expected in ROWS:
            with self.subTest(options=options):
                found = check(lock, **options)
                told = [(one["problem"], one.get("name", "node")) for one in found["problems"] if "problem" in one]
                self.assertEqual(told, expected)
                self.assertEqual(found["clean"], not expected)

    def test_what_cannot_be_read(self) -> None:
        for words, options, name, member in WRONG:
            with self.subTest(member=member), self.assertRaises(CheckError) as caught:
                check(*words, **options)
            self.assertEqual((caught.exception.name, caught.exception.member), (name, member))
            again = pickle.loads(pickle.dumps(caught.exception))
            self.assertEqual((str(again), again.member, again.line), (str(caught.exception), member, caught.exception.line))
        with self.assertRaises(CheckError) as caught:
            check('{\n"lockfileVersion": 3,\n  "packages": 7}')
        self.assertEqual((caught.exception.line, caught.exception.column), (3, 3))
        self.assertEqual(str(CheckError("it is bad", "no_json", ["a\x1b[2J"], 1, 1)), "a\\x1b[2J: it is bad")

    def test_arguments_of_other_types(self) -> None:
        for lock in (None, 7, object(), bytearray(b"{}")):
            with self.subTest(lock=lock), self.assertRaises(TypeError):
                check(lock)  # type: ignore[arg-type]
        for name, value in [("node", 20), ("manifest", 7), ("ignore", 7)]:
            options: Dict[str, Any] = {name: value}
            with self.subTest(name=name), self.assertRaises(TypeError):
                check(LOCK, **options)
        with self.assertRaises(ValueError):
            check(LOCK, node="\ud800")


class Audit(unittest.TestCase):
    def test_hits(self) -> None:
        forms: Dict[str, Any] = {"value": ADVISORIES, "text": json.dumps(ADVISORIES)}
        for advisories in forms.values():
            found = audit(LOCK, advisories)
            self.assertEqual([(hit["name"], hit["version"], hit["least"]) for hit in found["hits"]], [("a", "1.2.0", "1.3.0")])
            self.assertEqual((found["clean"], found["advisories"], found["excepted"]), (False, 1, []))
        self.assertEqual(audit(LOCK, ADVISORIES, severity="critical")["hits"], [])
        self.assertTrue(audit(LOCK, {})["clean"])
        self.assertTrue(audit(LOCK, [])["clean"])

    def test_exceptions(self) -> None:
        found = audit(LOCK, ADVISORIES, exceptions=[EXCEPTION])
        self.assertEqual([(one["id"], one["reason"]) for one in found["excepted"]], [("7", "it is not called")])
        self.assertTrue(found["clean"])
        until: Dict[str, Any] = {**EXCEPTION, "until": "2026-11-30"}
        for day, clean in [(datetime.date(2026, 11, 30), True), (datetime.date(2026, 12, 1), False)]:
            self.assertEqual(audit(LOCK, ADVISORIES, exceptions=[until], today=day)["clean"], clean)
        with self.assertRaises(CheckError) as caught:
            audit(LOCK, ADVISORIES, exceptions=[{"id": "7"}])
        self.assertEqual((caught.exception.name, caught.exception.member), ("missing_member", ["exceptions", 0, "package"]))

    def test_advisories_that_cannot_be_read(self) -> None:
        with self.assertRaises(CheckError) as caught:
            audit(LOCK, {"a": [{"id": 7, "severity": 7}]})
        self.assertEqual((caught.exception.name, caught.exception.member), ("invalid_advisories", ["advisories", "a", 0, "severity"]))


if __name__ == "__main__":
    unittest.main()
