# SPDX-License-Identifier: Apache-2.0
"""Arguments of the native functions: names, kinds and defaults are those of the signature, errors have the words of Python's own, and
the count of references to an argument is after a call what it was before."""

import ctypes
import inspect
import sys
import unittest
from typing import Any, Callable, Dict, List, Tuple

from node_semver import Range, Version, satisfies

VERSION: Any = Version("1.2.3-rc.4")
WANTED: Any = Range(">1.2.3 || >=9")
TEXTS = ["1.2.4-a", "1.5.0", "5.0.0-a"]

# A function with options, its arguments by position, and for each option its default and another value.
OPTIONS: List[Tuple[Any, Tuple[Any, ...], Dict[str, Tuple[Any, Any]]]] = [
    (Version, ("1.2.3",), {"strict": (False, True)}),
    (Version.coerce, ("1.2-rc 4",), {"rtl": (False, True), "include_prerelease": (False, True)}),
    (VERSION.bump, ("preminor",), {"identifier": (None, "a"), "base": (0, 1)}),
    (Range.parse_npm, ("1 - 2",), {"loose": (False, True), "include_prerelease": (False, True)}),
    (WANTED.filter, (TEXTS,), {"include_prerelease": (False, True)}),
    (WANTED.max_satisfying, (TEXTS,), {"include_prerelease": (False, True)}),
    (WANTED.min_satisfying, (TEXTS,), {"include_prerelease": (False, True)}),
    (WANTED.min_version, (), {"include_prerelease": (False, True)}),
    (WANTED.least_beyond, (Range("1"),), {"include_prerelease": (False, True)}),
    (WANTED.least_common, (Range("1"),), {"include_prerelease": (False, True)}),
    (WANTED.intervals, (), {"include_prerelease": (False, True)}),
    (WANTED.sql, ("key", "kind"), {"placeholder": ("?", "%s"), "include_prerelease": (False, True)}),
]

# Those without.
PLAIN: List[Tuple[Any, Tuple[Any, ...]]] = [
    (Range, ("^1",)), (satisfies, ("1.2.3", "^1")), (Range.from_sets, (WANTED.sets,)), (WANTED.contains, ("1.2.3",)),
    (WANTED.allows_any, (WANTED,)), (WANTED.allows_all, (WANTED,)), (VERSION.diff, (VERSION,)),
    (VERSION.compare_build, (VERSION,)), (VERSION.__format__, (">9",)),
]  # fmt: skip

# A wrong call, and what its TypeError says.
ERRORS: List[Tuple[Callable[[], Any], str]] = [
    (lambda: Version(), "Version() takes exactly 1 positional argument (0 given)"),  # type: ignore[call-arg]
    (lambda: Version("1", True), "Version() takes exactly 1 positional argument (2 given)"),  # type: ignore[misc]
    (lambda: Version("1.2.3", loose=1), "Version() got an unexpected keyword argument 'loose'"),  # type: ignore[call-arg]
    (lambda: Version(strict=True), "Version() takes exactly 1 positional argument (0 given)"),  # type: ignore[call-arg]
    (lambda: Version("1.2.3", **{1: 2}), "keywords must be strings"),  # type: ignore[misc, arg-type]
    (lambda: Range(), "Range() takes exactly 1 positional argument (0 given)"),  # type: ignore[call-arg]
    (lambda: Range("1", loose=True), "Range() takes no keyword arguments"),  # type: ignore[call-arg]
    (lambda: Range.parse_npm("1", strict=1), "parse_npm() got an unexpected keyword argument 'strict'"),  # type: ignore[call-arg]
    (lambda: Version.coerce(text="1"), "coerce() takes exactly 1 positional argument (0 given)"),  # type: ignore[call-arg]
    (lambda: VERSION.bump("major", "a"), "bump() takes exactly 1 positional argument (2 given)"),
    (lambda: VERSION.bump("major", **{"identifierBase": 1}), "bump() got an unexpected keyword argument 'identifierBase'"),
    (lambda: VERSION.bump("major", **{"\u0161\ud800": 1}), "bump() got an unexpected keyword argument '\u0161\ud800'"),
    (lambda: WANTED.min_version(1), "min_version() takes no positional arguments"),
    (lambda: WANTED.sql("key"), "sql() takes exactly 2 positional arguments (1 given)"),
    (lambda: WANTED.sql("key", "kind", placeholder=7), "a placeholder must be a str, not int"),
    (lambda: satisfies("1.2.3"), "satisfies() takes exactly 2 positional arguments (1 given)"),  # type: ignore[call-arg]
    (lambda: satisfies("1.2.3", range="1"), "satisfies() takes exactly 2 positional arguments (1 given)"),  # type: ignore[call-arg]
    (lambda: satisfies("1.2.3", "1", range="1"), "satisfies() takes no keyword arguments"),  # type: ignore[call-arg]
    (lambda: VERSION.__format__(7), "__format__() argument must be str, not int"),
]


class Keyword(str):
    """A name that says that it is equal to all, and to nothing."""

    def __eq__(self, other: object) -> bool:
        return True

    def __hash__(self) -> int:
        return hash("strict")


def answer(call: Callable[..., Any], *arguments: Any, **named: Any) -> Any:
    """What a call returns, or the kind of its exception."""
    try:
        return call(*arguments, **named)
    except Exception as error:
        return type(error)


class Arguments(unittest.TestCase):
    def test_options_have_their_names_and_defaults(self) -> None:
        for call, given, options in OPTIONS:
            named = [one for one in inspect.signature(call).parameters.values() if one.kind is one.KEYWORD_ONLY]
            self.assertEqual({one.name: one.default for one in named}, {name: both[0] for name, both in options.items()})
            plain = call(*given)
            for name, (default, other) in options.items():
                with self.subTest(call=call, name=name):
                    self.assertEqual(call(*given, **{name: default}), plain)
                    self.assertEqual(call(*given, **{"".join(list(name)): other}), call(*given, **{name: other}))
            every = {name: other for name, (_, other) in options.items()}
            self.assertEqual(answer(call, *given, **every), answer(call, *given, **dict(reversed(every.items()))))

    def test_the_others_are_given_by_position_alone(self) -> None:
        for call, given in PLAIN + [(call, given) for call, given, _ in OPTIONS]:
            names = [one for one in inspect.signature(call).parameters.values() if one.kind is not one.KEYWORD_ONLY]
            self.assertEqual([one.kind for one in names], [inspect.Parameter.POSITIONAL_ONLY] * len(given))
            for wrong in [given[:-1], (*given, None)] if given else [(None,)]:
                with self.subTest(call=call, wrong=wrong), self.assertRaises(TypeError):
                    call(*wrong)
            for one, value in zip(names, given):
                with self.subTest(call=call, name=one.name), self.assertRaises(TypeError):
                    call(*given[:-1], **{one.name: value})
                with self.subTest(call=call, name=one.name), self.assertRaises(TypeError):
                    call(*given, **{one.name: value})

    def test_options_change_the_answer(self) -> None:
        for call, given, options in OPTIONS:
            for name, (_, other) in options.items():
                if name not in ("strict", "loose"):
                    with self.subTest(call=call, name=name):
                        self.assertNotEqual(str(call(*given, **{name: other})), str(call(*given)))
        self.assertEqual(str(Version("v1.2.3")), "1.2.3")
        self.assertRaises(ValueError, lambda: Version("v1.2.3", strict=True))
        self.assertEqual(str(Range.parse_npm("^1 next", loose=True)), str(Range.parse_npm("^1")))
        self.assertRaises(ValueError, lambda: Range.parse_npm("^1 next"))

    def test_errors_have_the_words_of_python(self) -> None:
        for call, wanted in ERRORS:
            with self.subTest(wanted), self.assertRaises(TypeError) as caught:
                call()
            self.assertEqual(str(caught.exception), wanted)

    def test_a_keyword_twice(self) -> None:
        # No call in Python has one, and a caller in C may: the function of C is called itself.
        function_of = ctypes.pythonapi.PyCFunction_GetFunction
        function_of.restype, function_of.argtypes = ctypes.c_void_p, [ctypes.py_object]
        kind: Any = ctypes.PYFUNCTYPE(ctypes.py_object, ctypes.py_object, ctypes.c_void_p, ctypes.c_ssize_t, ctypes.py_object)
        call, make = kind(function_of(Version.coerce)), (ctypes.py_object * 3)
        values: Any = make(*["1.2.3", True, False])  # type: ignore[misc]
        with self.assertRaises(TypeError) as caught:
            call(Version, values, 1, ("rtl", "rtl"))
        self.assertEqual(str(caught.exception), "coerce() got multiple values for argument 'rtl'")
        with self.assertRaises(TypeError) as caught:
            call(Version, values, 1, ("rtl", 1))
        self.assertEqual(str(caught.exception), "keywords must be strings")
        self.assertEqual(str(call(Version, values, 1, ("rtl", "include_prerelease"))), "1.2.3")

    def test_keywords_of_a_class_of_the_caller(self) -> None:
        calls: List[Tuple[Any, str]] = [(Version, "strict"), (Version.coerce, "rtl")]
        for call, name in calls:
            self.assertEqual(call("1.2.3", **{Keyword(name): True}), Version("1.2.3"))
            for wrong in ("strict", "rtl", "none", ""):
                if wrong != name:
                    with self.subTest(call=call, name=wrong), self.assertRaises(TypeError):
                        call("1.2.3", **{Keyword(wrong): True})

    def test_what_an_option_raises_is_raised(self) -> None:
        class Undecided:
            def __bool__(self) -> bool:
                raise ZeroDivisionError

        for call, given, options in OPTIONS:
            for name, (default, _) in options.items():
                if default is False:
                    with self.subTest(call=call, name=name):
                        self.assertIs(answer(call, *given, **{name: Undecided()}), ZeroDivisionError)

    def test_references_balance(self) -> None:
        class Mark:
            pass

        rows: List[Tuple[Any, Tuple[Any, ...], Dict[str, Any]]] = [(call, given, {}) for call, given in PLAIN]
        counted = 0
        for call, given, options in OPTIONS:
            rows.append((call, given, {}))
            rows += [(call, given, {name: value}) for name, both in options.items() for value in (*both, Mark())]
            rows += [(call, (*given, Mark()), {}), (call, given, {"none": Mark()}), (call, given[:-1], {}), (call, (Mark(),), {})]
        for call, given, named in rows:
            # Not those that Python never frees: it does not count their references. Of others it holds few.
            held = [one for one in (*given, *named.values(), *named) if sys.getrefcount(one) < 1000]
            counted += len(held)
            answer(call, *given, **named)
            before = [sys.getrefcount(one) for one in held]
            for _ in range(100):
                answer(call, *given, **named)
            after = [sys.getrefcount(one) for one in held]
            with self.subTest(call=call, given=given, named=named):
                self.assertLess(max([new - old for new, old in zip(after, before)], default=0), 50)
                self.assertGreater(min([new - old for new, old in zip(after, before)], default=0), -50)
        self.assertGreater(counted, len(rows) // 2)


if __name__ == "__main__":
    unittest.main()
