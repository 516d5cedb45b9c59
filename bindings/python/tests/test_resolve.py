# SPDX-License-Identifier: Apache-2.0
"""`resolve`: the rows of the package for Node, as dicts and as JSON, and arguments of every kind."""

import json
import os
import subprocess
import sys
import threading
import unittest
from datetime import datetime, timedelta, timezone
from types import MappingProxyType
from typing import Any, Dict, List, Union

from node_semver import LockResolution, Resolution, resolve

HERE = os.path.dirname(os.path.abspath(__file__))

with open(os.path.join(HERE, "..", "..", "node", "test", "resolve-rows.json"), encoding="utf-8") as file:
    SHARED = json.load(file)
REACT: Dict[str, Any] = SHARED["react"]
TREE: Dict[str, Any] = SHARED["tree"]
ASKS = {"dependencies": {"react": "*"}}

# How the message of an error begins, where it is not the name of what is wrong.
BEGINS = {
    "manifest": "the manifest ", "documents": "the documents ", "node": "before must be a time, and node ",
    "lock cannot be read": "the lock file is no JSON",
}  # fmt: skip


def told(answer: Union[Resolution, LockResolution]) -> Dict[str, Any]:
    """An answer as a row has it."""
    members: Dict[str, Any] = {**answer}
    if "lockfile" in members:
        return {"lockfile": members["lockfile"]}
    if "packages" in members:
        return {"packages": [[one["name"], one["package"], one["version"]] for one in members["packages"]]}
    if "culprits" in members:
        culprits = members["culprits"] or []
        parts = ["name", "spec", "needed", "document", "would_fit"]
        return {"culprits": [[one[part] for part in parts] for one in culprits]}
    return {members["outcome"]: members.get("overrides", True)}


def asked(row: Dict[str, Any]) -> List[Any]:
    documents = row["documents"]
    return [row["manifest"], SHARED[documents] if isinstance(documents, str) else documents]


def beginning(error: str) -> str:
    """How the message of the error of a row begins. That of a lock file says where the fault is."""
    name = error.replace(" type", " must be ")
    return BEGINS.get(name, f"the lock file: {name[6:]}" if name.startswith("lock: ") else name)


def options_of(row: Dict[str, Any]) -> Dict[str, Any]:
    names = {"tag": "default_tag"}
    return {names.get(name, name): value for name, value in row.get("options", {}).items()}


def version_of(**options: Any) -> str:
    answer: Resolution = resolve(ASKS, REACT, **options)
    assert answer["outcome"] == "selected"
    return answer["packages"][0]["version"]


class Resolve(unittest.TestCase):
    def check(self, row: Dict[str, Any], *given: Any) -> None:
        expected = {name: row[name] for name in ("packages", "lockfile", "culprits", "undecided", "unread") if name in row}
        if "lockfile" in expected:
            expected["lockfile"] = json.dumps(expected["lockfile"], indent=2, ensure_ascii=False) + "\n"
        if "error" not in row:
            self.assertEqual(told(resolve(*given, **options_of(row))), expected)
            return
        with self.assertRaises((TypeError, ValueError)) as caught:
            resolve(*given, **options_of(row))
        self.assertTrue(str(caught.exception).startswith(beginning(row["error"])), caught.exception)

    def test_rows(self) -> None:
        self.assertGreater(len(SHARED["rows"]), 100)
        for row in SHARED["rows"]:
            with self.subTest(row["name"]):
                texts = [json.dumps(it) for it in asked(row)]
                self.check(row, *texts)
                self.check(row, *[text.encode() for text in texts])
                # What is no dict is given as JSON alone.
                self.check(row, *[it if isinstance(it, dict) else text for it, text in zip(asked(row), texts)])

    def test_a_thousand_packages(self) -> None:
        count = 1000
        documents = {}
        for i in range(count):
            peers = {f"p{(i + 1) % count}": "^1"}
            versions = {"1.0.0": {"peerDependencies": peers}, "1.1.0": {"peerDependencies": {**peers, "p0": "1.0.0"}}}
            documents[f"p{i}"] = {"versions": versions}
        text = json.dumps(documents)
        found: List[Any] = []
        threads = [threading.Thread(target=lambda: found.append(resolve({"dependencies": {"p0": "1"}}, text))) for _ in range(4)]
        for thread in threads:
            thread.start()
        for thread in threads:
            thread.join()
        self.assertEqual(len(found), 4)
        for answer in found:
            self.assertEqual([one["name"] for one in answer["packages"]], list(documents))
            self.assertEqual(answer["packages"][0]["version"], "1.0.0")

    def test_an_answer_that_is_longer_than_most(self) -> None:
        name = "n" * 600_000
        answer = resolve({"dependencies": {name: "*"}}, {name: {"versions": {"1.0.0": {}}}})
        self.assertEqual(told(answer), {"packages": [[name, name, "1.0.0"]]})

    def test_options(self) -> None:
        right: List[Dict[str, Any]] = [
            {}, {"before": None}, {"default_tag": ""}, {"omit": []}, {"steps": 2**64 - 1}, {"omit": "dev"},
        ]  # fmt: skip
        for options in right:
            self.assertEqual(version_of(**options), "18.3.0")
        zone = timezone(timedelta(hours=2))
        for before in ["2022-03-01T00:00:00Z", datetime(2022, 3, 1, tzinfo=timezone.utc), datetime(2022, 3, 1, 2, tzinfo=zone)]:
            self.assertEqual(version_of(before=before), "18.0.0")
        self.assertEqual(version_of(omit=("peer", "optional")), "18.3.0")
        wrong: List[Dict[str, Any]] = [
            {"before": "yesterday"}, {"before": "2022-03-01"}, {"before": datetime(2022, 3, 1)}, {"default_tag": "\ud800"},
            {"before": "\udfff"}, {"omit": "all"}, {"omit": ["dev", "all"]}, {"steps": -1}, {"steps": 2**64},
        ]  # fmt: skip
        for given in wrong:
            with self.subTest(**given), self.assertRaises(ValueError):
                version_of(**given)
        for name, value in [("before", 7), ("before", b"*"), ("default_tag", b"*"), ("omit", 7), ("steps", "7"), ("steps", 1.5)]:
            with self.subTest(name=name, value=value), self.assertRaises(TypeError):
                version_of(**{name: value})

    def test_marks_a_version_of_node_and_a_lock_file(self) -> None:
        absent: List[Dict[str, Any]] = [
            {"flat": False, "lowest": False, "lockfile": False}, {"node": None, "lock": None}, {"node": "", "lock": b""},
        ]  # fmt: skip
        for options in absent:
            self.assertEqual(version_of(**options), "18.3.0")
        values: List[Any] = [None, 0, 1, "true", [], {}, object()]
        for name in ["flat", "lowest", "lockfile"]:
            for value in values:
                with self.subTest(name=name, value=value), self.assertRaisesRegex(TypeError, f"^{name} must be True or False$"):
                    version_of(**{name: value})
        for value in [20, 20.1, b"20.0.0", ["20.0.0"], object()]:
            with self.subTest(node=value), self.assertRaisesRegex(TypeError, "^node must be a str$"):
                version_of(node=value)
        for node in ["20", "^20", "\ud800", "20.0.0\0", "1" * 300, "x" * (1 << 20)]:
            with self.subTest(node=node[:10]), self.assertRaises(ValueError):
                version_of(node=node)
        for value in [7, True, [], (), object(), bytearray(b"{}"), {1}]:
            with self.subTest(lock=value), self.assertRaisesRegex(TypeError, "^a lock file must be a dict, a str or bytes$"):
                version_of(lock=value)
        for text in ["{", " ", "[" * 300, "\ufeff{}", '"\\ud800"']:
            with self.subTest(lock=text[:10]), self.assertRaisesRegex(ValueError, "^the lock file is no JSON"):
                version_of(lock=text)
        others: List[Any] = ["7", "[]", "null", b"{}", '{"lockfileVersion":"3"}', {}, MappingProxyType({})]
        for value in others:
            with self.subTest(lock=value), self.assertRaisesRegex(ValueError, "^the lock file: `lockfileVersion` is not 2 or 3$"):
                version_of(lock=value)
        for lock in [b"\xff", "\ud800"]:
            with self.subTest(lock=lock), self.assertRaises(ValueError):
                version_of(lock=lock)
        with self.assertRaises(TypeError):
            version_of(lock={"lockfileVersion": object()})

    def test_a_lock_file_as_the_answer_is_a_lock_file_as_an_option(self) -> None:
        answer = resolve({"dependencies": {"a": "1.0.0"}}, TREE, flat=True, lockfile=True)
        assert answer["outcome"] == "selected"
        text = answer["lockfile"]
        frozen = MappingProxyType({name: MappingProxyType(it) if isinstance(it, dict) else it for name, it in json.loads(text).items()})
        for lock in [text, text.encode(), json.loads(text), frozen]:
            answered = resolve({"dependencies": {"a": "*"}}, TREE, lock=lock)
            self.assertEqual(told(answered), {"packages": [["a", "a", "1.0.0"]]})

    def test_what_is_not_read_of_a_lock_file_does_not_count(self) -> None:
        package = {"version": "17.0.2", "license": "\ud800", "engines": object()}
        lock = {"lockfileVersion": 3, "packages": {"node_modules/react": package}, "dependencies": object()}
        self.assertEqual(version_of(lock=lock), "17.0.2")

    def test_values_of_other_types(self) -> None:
        values: List[Any] = [None, 7, [], object(), bytearray(b"{}")]
        for value in values:
            for given in [(value, {}), ({}, value)]:
                with self.subTest(value=value), self.assertRaises(TypeError):
                    resolve(*given)
        with self.assertRaises(TypeError):
            resolve({"dependencies": {"a": object()}}, {})
        with self.assertRaises(TypeError):
            resolve({}, {"a": {"versions": {"1.0.0": {"engines": object()}}}})
        cycle: Dict[str, Any] = {"dependencies": {}}
        cycle["dependencies"]["a"] = cycle
        with self.assertRaises(ValueError):
            resolve(cycle, {})
        texts: List[Any] = ["", "[", "{} x", "[" * 1000, b"\xff", b'"\xff"', '"\\ud800"']
        for text in texts:
            for given in [(text, {}), ({}, text)]:
                with self.subTest(text=text), self.assertRaises(ValueError):
                    resolve(*given)
        frozen = MappingProxyType({"dependencies": MappingProxyType(ASKS["dependencies"])})
        answer = resolve(frozen, MappingProxyType({name: MappingProxyType(it) for name, it in REACT.items()}))
        self.assertEqual(told(answer), {"packages": [["react", "react", "18.3.0"]]})

    def test_what_is_not_read_of_a_document_does_not_count(self) -> None:
        documents = json.loads(json.dumps(REACT))
        documents["react"]["readme"] = "\ud800"
        documents["react"]["versions"]["18.3.0"]["dist"] = {"signatures": [object()]}
        documents["react"]["versions"]["17.0.2"]["deprecated"] = "half: \ud800"
        documents["react"]["policyRestrictions"] = {"message": "\ud800", "versions": {"18.3.0": {}}}
        self.assertEqual(told(resolve(ASKS, documents)), {"packages": [["react", "react", "18.0.0"]]})

    def test_the_native_part_is_loaded_by_the_first_call(self) -> None:
        text = (
            "import sys, node_semver; before = 'node_semver._calls' in sys.modules; "
            "node_semver.resolve({}, {}); print(before, 'node_semver._calls' in sys.modules)"
        )
        done = subprocess.run([sys.executable, "-c", text], capture_output=True, text=True)
        self.assertEqual(done.stdout, "False True\n", done.stderr)


if __name__ == "__main__":
    unittest.main()
