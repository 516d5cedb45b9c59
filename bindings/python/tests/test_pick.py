# SPDX-License-Identifier: Apache-2.0
"""`pick`: documents and what is picked of them, as dicts and as JSON, and arguments of every kind."""

import copy
import json
import pickle
import subprocess
import sys
import threading
import unittest
from datetime import datetime, timedelta, timezone
from types import MappingProxyType
from typing import Any, Dict, List, Tuple

from node_semver import PickError, Picked, pick

DOCUMENT: Dict[str, Any] = {
    "name": "one",
    "dist-tags": {"latest": "1.2.0", "next": "2.0.0"},
    "versions": {
        "1.2.0": {"name": "one", "version": "1.2.0"},
        "1.3.0": {"dependencies": {"two": "^1"}},
        "2.0.0": {"deprecated": "it is old", "engines": {"node": ">=18"}},
        "2.1.0": {"engines": {"node": ">=20", "npm": ">=9"}},
    },
    "time": {"1.3.0": "2021-01-01T00:00:00.000Z", "2.0.0": "2022-01-01T00:00:00.000Z", "2.1.0": "2023-01-01T00:00:00.000Z"},
}
STAGED: Dict[str, Any] = {"stagedVersions": {"versions": {"1.0.0": {}}}}
RESTRICTED: Dict[str, Any] = {"policyRestrictions": {"versions": {"1.0.0": {}}, "message": "no"}}

# A document, the wanted text, options, and the version with `!` if it is one to avoid, `^` if it is outside and `*` if it was
# picked of all; or npm's code and the kind of the error.
ROWS: List[Tuple[Any, str, Dict[str, Any], str]] = [
    (DOCUMENT, "^1", {}, "1.2.0"),
    (DOCUMENT, "*", {}, "1.2.0"),
    (DOCUMENT, "", {}, "1.2.0"),
    (DOCUMENT, ">=1.3 <2", {}, "1.3.0"),
    (DOCUMENT, "=v2.0.0+a", {}, "2.0.0"),
    (DOCUMENT, "next", {}, "2.0.0"),
    (DOCUMENT, "*", {"default_tag": "next"}, "2.1.0"),
    (DOCUMENT, "2", {"node": "18.0.0"}, "2.0.0"),
    (DOCUMENT, "2", {"node": "v20.0.0", "npm": "8.0.0"}, "2.0.0"),
    (DOCUMENT, "2", {"node": "20.0.0", "npm": "9.1.0"}, "2.1.0"),
    (DOCUMENT, "^1", {"avoid": "1.2.0"}, "1.3.0"),
    (DOCUMENT, "^1", {"avoid": "1"}, "1.3.0!"),
    (DOCUMENT, "1.2.0", {"avoid": "<1.3", "avoid_strict": True}, "1.3.0^"),
    (DOCUMENT, "^1", {"avoid": "1", "avoid_strict": True}, "2.1.0^*"),
    (DOCUMENT, ">=1.3", {"before": "2022-06-01T00:00:00Z"}, "1.3.0"),
    (DOCUMENT, "next", {"before": "2021-06-01T00:00:00Z"}, "1.2.0"),
    (DOCUMENT, "next", {"before": datetime(2021, 6, 1, tzinfo=timezone.utc)}, "1.2.0"),
    (DOCUMENT, "1.3.0", {"before": datetime(2021, 1, 1, 2, tzinfo=timezone(timedelta(hours=2)))}, "1.3.0"),
    (DOCUMENT, "1.3.0", {"before": datetime(2021, 1, 1, 1, tzinfo=timezone(timedelta(hours=2)))}, "ETARGET NoVersion"),
    (DOCUMENT, "^1", {"avoid": "*", "avoid_strict": True}, "ETARGET Avoided"),
    (DOCUMENT, "9.0.0", {}, "ETARGET NoVersion"),
    (DOCUMENT, "^9", {}, "ETARGET NoneInRange"),
    (DOCUMENT, "gone", {}, "ETARGET NoTag"),
    (DOCUMENT, "a b", {}, "EINVALIDTAGNAME Wanted"),
    (STAGED, "^1", {"include_staged": True}, "1.0.0"),
    (STAGED, "^1", {}, "ENOVERSIONS NoVersions"),
    (RESTRICTED, "^1", {}, "E403 Forbidden"),
    ({}, "*", {}, "ENOVERSIONS NoVersions"),
    ({"versions": None, "dist-tags": 7, "time": [], "stagedVersions": "a", "policyRestrictions": []}, "*", {},
     "ENOVERSIONS NoVersions"),
    ({"versions": {"1.0.0": None, "1.1.0": 7}}, "*", {}, "1.1.0"),
]  # fmt: skip


def told(document: Any, wanted: str, options: Dict[str, Any]) -> str:
    try:
        picked = pick(document, wanted, **options)
    except PickError as error:
        return f"{error.code} {error.kind}"
    return picked.version + "!" * picked.is_avoided + "^" * picked.is_outside + "*" * picked.is_major


class Pick(unittest.TestCase):
    def test_rows(self) -> None:
        for document, wanted, options, expected in ROWS:
            with self.subTest(wanted=wanted, **options):
                before = copy.deepcopy(document)
                self.assertEqual(told(document, wanted, options), expected)
                self.assertEqual(document, before)

    def test_json(self) -> None:
        for document, wanted, options, expected in ROWS:
            for text in (json.dumps(document), json.dumps(document).encode()):
                with self.subTest(wanted=wanted, **options):
                    self.assertEqual(told(text, wanted, options), expected)

    def test_the_result(self) -> None:
        picked = pick(DOCUMENT, "^1")
        self.assertEqual(picked, Picked("1.2.0", False, False, False))
        self.assertEqual(pickle.loads(pickle.dumps(picked)), picked)
        self.assertEqual(pick(MappingProxyType(DOCUMENT)).version, "1.2.0")

    def test_errors(self) -> None:
        with self.assertRaises(PickError) as caught:
            pick(DOCUMENT, "^9")
        error = caught.exception
        self.assertIsInstance(error, LookupError)
        self.assertEqual(str(error), "one@^9: no version is in the range")
        # What a terminal would obey is written by its number.
        hostile = PickError("a\x1b[2J\u202e\ud800", "1\x07", "NoneInRange")
        self.assertEqual(str(hostile), "a\\x1b[2J\\u202e\\ud800@1\\x07: no version is in the range")
        self.assertEqual((error.kind, error.code, error.wanted), ("NoneInRange", "ETARGET", "^9"))
        again = pickle.loads(pickle.dumps(error))
        self.assertEqual((str(again), again.kind, again.code, again.wanted), (str(error), error.kind, error.code, error.wanted))
        with self.assertRaisesRegex(PickError, r"^gone: there is no such tag$"):
            pick("{}", "gone")

    def test_texts_that_cannot_be_read(self) -> None:
        texts: List[Any] = ["", "[", b"", b"\xff", b'"\xff"', "{} x", '"\\ud800"', "[" * 1000]
        for document in texts:
            with self.subTest(document=document), self.assertRaises(ValueError):
                pick(document, "*")
        options: List[Dict[str, Any]] = [
            {"before": "yesterday"}, {"before": "2020-01-01"}, {"before": datetime(2020, 1, 1)}, {"node": "20"},
            {"npm": "next"}, {"default_tag": "\ud800"}, {"avoid": "\udfff"}, {"wanted": "\ud800"},
        ]  # fmt: skip
        for given in options:
            asked: Dict[str, Any] = {"wanted": "*", **given}
            with self.subTest(**given), self.assertRaises(ValueError):
                pick(DOCUMENT, **asked)

    def test_arguments_of_other_types(self) -> None:
        wrong: List[Any] = [7, 1.5, [], object(), b"*", True]
        documents: List[Any] = [None, 7, [], object(), bytearray(b"{}")]
        for document in documents:
            with self.subTest(document=document), self.assertRaises(TypeError):
                pick(document, "*")
        for value in wrong:
            for name in ("wanted", "default_tag", "avoid", "before", "node", "npm"):
                with self.subTest(name=name, value=value), self.assertRaises(TypeError):
                    pick(DOCUMENT, **{name: value})
        with self.assertRaises(TypeError):
            pick({"versions": {"1.0.0": {"engines": {"node": object()}}}}, "*")
        with self.assertRaises(TypeError):
            pick(DOCUMENT, "*", "latest")  # type: ignore[misc]

    def test_a_long_key(self) -> None:
        for key in ("1.0.0-" + "a" * 1000, "ü" * 500, "x" * 256, "x" * 257):
            self.assertEqual(pick({"dist-tags": {"next": key}, "versions": {key: {}}}, "next").version, key)

    def test_a_large_document(self) -> None:
        versions = {f"1.{minor}.{patch}": {"deprecated": patch > 3} for minor in range(400) for patch in range(10)}
        document = {"versions": versions}
        self.assertEqual(pick(document, "<1.399.0").version, "1.398.3")
        text, found = json.dumps(document), []
        threads = [threading.Thread(target=lambda: found.append(pick(text, "1").version)) for _ in range(8)]
        for thread in threads:
            thread.start()
        for thread in threads:
            thread.join()
        self.assertEqual(found, ["1.399.3"] * 8)

    def test_the_native_part_is_loaded_by_the_first_call(self) -> None:
        text = (
            "import sys, node_semver; before = 'node_semver._calls' in sys.modules; "
            "node_semver.pick({'versions': {'1.0.0': {}}}); print(before, 'node_semver._calls' in sys.modules)"
        )
        done = subprocess.run([sys.executable, "-c", text], capture_output=True, text=True)
        self.assertEqual(done.stdout, "False True\n", done.stderr)


if __name__ == "__main__":
    unittest.main()
