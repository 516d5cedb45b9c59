# SPDX-License-Identifier: Apache-2.0
"""SemverError: its message, and that it is copied and pickled."""

import copy
import pickle
import unittest
from typing import Callable

from node_semver import BumpError, Range, SemverError, Version


def error_of(read: Callable[[str], object], text: str) -> SemverError:
    try:
        read(text)
    except SemverError as error:
        return error
    raise AssertionError(f"{text!r} was read")


class Errors(unittest.TestCase):
    def test_is_a_value_error(self) -> None:
        self.assertTrue(issubclass(SemverError, ValueError))
        self.assertEqual(f"{SemverError.__module__}.{SemverError.__qualname__}", "node_semver.SemverError")

    def test_the_caret_stands_under_the_fault(self) -> None:
        for read, text, shown, column in [
            (Version, "1.2", "1.2", 3),
            (Version, "", "", 0),
            (Version, "1.2.3 beta", "1.2.3 beta", 5),
            (Version, "1.2.3\nbeta", "1.2.3\\nbeta", 5),
            (Version, "\t1.2.9007199254740992", "\\t1.2.9007199254740992", 6),
            (Range, "lat\u202eest", "lat\\u202eest", 0),
            # A long text is cut on both sides of the fault, which is its last byte.
            (Version, "1" * 300, "..." + "1" * 61, 63),
            (Version, "\u0161" * 200, "..." + "\u0161" * 61, 63),
            (Version, "\ud800" * 100, "..." + "\\ud800" * 61, 363),
            (Version, "\u20ac" * 99 + "a" * 4, "..." + "\u20ac" * 57 + "a" * 4, 63),
            (Version, "\U0001f600" * 70, "..." + "\U0001f600" * 61, 63),
            (Version, "1.2.3-\udfff\ud800", "1.2.3-\\udfff\\ud800", 5),
            (Range, "x" * 100 + "!", "x" * 60 + "...", 0),
        ]:
            with self.subTest(text):
                message = str(error_of(read, text)).split("\n")
                self.assertEqual(len(message), 3)
                self.assertEqual(message[1:], ["    " + shown, "    " + " " * column + "^"])

    def test_the_first_line_tells_kind_and_offset(self) -> None:
        rows: list[tuple[Callable[[str], object], str, str]] = [
            (Version, "1" * 257, "MaxLengthError at byte 256: a version has at most 256 bytes"),
            (Version, "1.2", "Context at byte 3: a number or a dot is missing"),
            (Version, "1.2.3 ", "Other at byte 5: what begins here is no part of a version"),
            (Version, "1.9007199254740992.", "MaxIntError at byte 2: a number is above 9007199254740991"),
            (Version, "18446744073709551616", "ParseIntError at byte 0: a number is above 18446744073709551615"),
            (Range, "latest next", "NoValidRanges at byte 0: no alternative is a range that a version can be in"),
            (Range.parse_npm, "^1 next", "NoValidRanges at byte 3: what begins here is no comparator"),
        ]
        for read, text, line in rows:
            self.assertEqual(str(error_of(read, text)).split("\n")[0], line)

    def test_a_version_that_is_not_raised(self) -> None:
        self.assertTrue(issubclass(BumpError, ValueError))
        self.assertEqual(f"{BumpError.__module__}.{BumpError.__qualname__}", "node_semver.BumpError")
        with self.assertRaises(BumpError) as caught:
            Version("9007199254740991.0.0").bump("major")
        error = caught.exception
        self.assertEqual(str(error), "NumberTooLarge: a number would be above 9007199254740991")
        for twin in [copy.copy(error), copy.deepcopy(error), pickle.loads(pickle.dumps(error))]:
            self.assertEqual((type(twin), twin.kind, str(twin)), (BumpError, error.kind, str(error)))

    def test_is_copied_and_pickled(self) -> None:
        error = error_of(Version, "1.2.9007199254740992")
        twins = [copy.copy(error), copy.deepcopy(error)]
        twins += [pickle.loads(pickle.dumps(error, protocol)) for protocol in range(pickle.HIGHEST_PROTOCOL + 1)]
        for twin in twins:
            self.assertEqual((twin.text, twin.kind, twin.offset), (error.text, "MaxIntError", 4))
            self.assertEqual(twin.number, 9007199254740992)
            self.assertEqual(str(twin), str(error))


if __name__ == "__main__":
    unittest.main()
