# SPDX-License-Identifier: Apache-2.0
"""The sets of a range, and the range of given sets."""

import gc
import json
import unittest
from typing import Any, List, Tuple

from node_semver import Cut, Range, SemverError, Version

START: Cut = ("start", None)
END: Cut = ("end", None)


def before(text: str) -> Cut:
    return "before", Version(text)


def after(text: str) -> Cut:
    return "after", Version(text)


# A range and its sets.
SETS: List[Tuple[str, List[Tuple[Cut, Cut]]]] = [
    ("^1.2.3", [(before("1.2.3"), before("2.0.0-0"))]),
    ("1.2.3", [(before("1.2.3"), after("1.2.3"))]),
    (">1.2.3", [(after("1.2.3"), END)]),
    ("<=1.2.3", [(START, after("1.2.3"))]),
    ("<1.2.3-rc.4", [(START, before("1.2.3-rc.4"))]),
    ("*", [(before("0.0.0"), END)]),
    ("1 || 1", [(before("1.0.0"), before("2.0.0-0")), (before("1.0.0"), before("2.0.0-0"))]),
    ("3 || <1", [(before("3.0.0"), before("4.0.0-0")), (START, before("1.0.0"))]),
]

# Sets of which no range is made, and the place of the first that is at fault.
REFUSED: List[Tuple[List[Tuple[Cut, Cut]], int]] = [
    ([(after("1.2.3"), before("1.2.3"))], 0),
    ([(before("1.2.3"), before("1.2.3"))], 0),
    ([(after("1.2.3+a"), after("1.2.3+b"))], 0),
    ([(START, START)], 0),
    ([(END, END)], 0),
    ([(END, START)], 0),
    ([(before("1.2.3"), END), (before("2.0.0"), before("1.0.0")), (END, START)], 1),
]


class Sets(unittest.TestCase):
    def test_rows(self) -> None:
        for text, sets in SETS:
            with self.subTest(text):
                self.assertEqual(Range(text).sets, tuple(sets))
                self.assertEqual(Range.from_sets(sets), Range(text))
                self.assertEqual(str(Range.from_sets(sets)), str(Range(text)))
                self.assertEqual(Range.from_sets(Range(text).sets), Range(text))

    def test_the_build_stays(self) -> None:
        wanted = Range(">=1.2.3+a <2.0.0+b")
        self.assertEqual([str(version) for _, version in wanted.sets[0]], ["1.2.3+a", "2.0.0+b"])
        self.assertEqual(str(Range.from_sets(wanted.sets)), str(wanted))

    def test_refuses(self) -> None:
        for sets, place in REFUSED:
            with self.subTest(sets):
                with self.assertRaisesRegex(ValueError, f"^the set at {place} has no cut between its ends"):
                    Range.from_sets(sets)
        with self.assertRaisesRegex(ValueError, "^a range has at least one set$"):
            Range.from_sets([])

    def test_refuses_kinds_and_counts(self) -> None:
        full: Any = ("before", "1.2.3"), ("end", None)
        wrong: List[Any] = [("Before", "1.2.3"), ("", "1.2.3"), ("before\0", "1.2.3")]
        wrong += [("\u0161", None), ("\ud800", None)]
        wrong += [(), ("before",), ("before", "1.2.3", "1.2.3"), ("end", None, None)]
        for cut in wrong:
            for sets in ([(cut, END)], [(START, cut)], [full, (cut, END)]):
                with self.subTest(sets=sets):
                    with self.assertRaises(ValueError):
                        Range.from_sets(sets)
        rows: List[Any] = [(), (START,), (START, START, END)]
        for row in rows:
            with self.assertRaisesRegex(ValueError, "^a set must be a pair of cuts, not [013] items$"):
                Range.from_sets([full, row])

    def test_a_str_is_a_version(self) -> None:
        # What a file of JSON holds: lists, and texts of versions.
        wanted = Range("^1 || >3")
        stored = json.dumps([[(kind, version and str(version)) for kind, version in row] for row in wanted.sets])
        self.assertEqual(Range.from_sets(json.loads(stored)), wanted)
        with self.assertRaises(SemverError) as caught:
            Range.from_sets([(("before", "1.2"), END)])
        self.assertEqual((caught.exception.kind, caught.exception.text), ("Context", "1.2"))

    def test_the_greatest_number(self) -> None:
        highest = Range("^9007199254740991")
        self.assertEqual(str(highest.sets[0][1][1]), "9007199254740992.0.0-0")
        self.assertEqual(Range.from_sets(highest.sets), highest)
        above = Range(">1.2.9007199254740991").min_version()
        assert above is not None and above.patch == 9007199254740992
        far_above = Range.from_sets([(("after", above), END)]).min_version()
        assert far_above is not None and far_above.patch == 9007199254740993
        with self.assertRaisesRegex(ValueError, "^the set at 1 .* has a number above 9007199254740992$"):
            Range.from_sets([(("before", above), END), (("before", far_above), END)])

    def test_versions_outlive_their_range(self) -> None:
        lower, upper = Range("^1.2.3-rc.4").sets[0]
        gc.collect()
        self.assertEqual((lower, upper), (before("1.2.3-rc.4"), before("2.0.0-0")))
        made = Range.from_sets([(lower, upper)])
        del lower, upper
        gc.collect()
        self.assertEqual(str(made), ">=1.2.3-rc.4 <2.0.0-0")


if __name__ == "__main__":
    unittest.main()
