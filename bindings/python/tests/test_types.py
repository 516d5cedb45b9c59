# SPDX-License-Identifier: Apache-2.0
"""Wrong types, wrong counts of arguments, and values that never change: TypeError, and no crash."""

import copy
import gc
import operator
import os
import pickle
import subprocess
import sys
import unittest
from typing import Any, Iterator, List

import node_semver
from node_semver import Range, Version, satisfies

VERSION: Any = Version("1.2.3-rc.4+b")
RANGE: Any = Range("^1.2 || 3")
PLAIN_TYPES: Any = [None, 1, 1.5, True, b"1.2.3", bytearray(b"1.2.3"), ["1.2.3"], ("1.2.3",), {}, object(), int, len]

METHODS_OF_A_RANGE = ["allows_any", "allows_all", "least_beyond", "least_common"]
METHODS_OF_VERSIONS = ["filter", "max_satisfying", "min_satisfying"]
FIELDS = ["major", "minor", "patch", "prerelease", "build", "is_prerelease"]
END: Any = ("end", None)
ALL = Range.parse_npm("*")
OPERATORS = [operator.and_, operator.sub, operator.or_]
ORDERS = [operator.lt, operator.le, operator.gt, operator.ge]


class Undecided(int):
    """Neither true nor false."""

    def __bool__(self) -> bool:
        raise ZeroDivisionError


class Types(unittest.TestCase):
    def refuses(self, call: Any, *arguments: Any, **named: Any) -> None:
        with self.subTest(call=call, arguments=arguments):
            with self.assertRaises(TypeError):
                call(*arguments, **named)

    def test_constructors(self) -> None:
        for make in (Version, Range):
            for wrong in PLAIN_TYPES + [VERSION, RANGE]:
                self.refuses(make, wrong)
            self.refuses(make)
            self.refuses(make, "1.2.3", "1.2.3")
            self.refuses(make, text="1.2.3")
            self.refuses(make, "1.2.3", text="1.2.3")
            self.refuses(make.__new__)
            self.refuses(make.__new__, make)
            self.refuses(make.__new__, int, "1.2.3")
            self.refuses(object.__new__, make)
        self.refuses(Version.__new__, Range, "1.2.3")
        self.refuses(Version, strict=True)
        self.refuses(Version, "1.2.3", True)
        self.refuses(Version, "1.2.3", strict=True, text="1.2.3")
        self.refuses(Version, "1.2.3", "1.2.3", strict=True)
        self.refuses(Range, "1.2.3", strict=True)
        for wrong in PLAIN_TYPES + [VERSION, RANGE]:
            self.refuses(Version, wrong, strict=True)
        undecided: Any = Undecided()
        with self.assertRaises(ZeroDivisionError):
            Version("1.2.3", strict=undecided)
        self.refuses(Range.__new__, Version, "1.2.3")

    def test_operators_of_ranges(self) -> None:
        for wrong in PLAIN_TYPES + [VERSION, "1.2.3"]:
            for combine in OPERATORS:
                self.refuses(combine, RANGE, wrong)
                self.refuses(combine, wrong, RANGE)

    def test_order(self) -> None:
        for compare in ORDERS:
            for wrong in PLAIN_TYPES + ["1.2.3", RANGE]:
                self.refuses(compare, VERSION, wrong)
                self.refuses(compare, wrong, VERSION)
            for wrong in PLAIN_TYPES + ["1.2.3", VERSION, RANGE]:
                self.refuses(compare, RANGE, wrong)
        for name in ("__lt__", "__le__", "__eq__", "__ne__", "__gt__", "__ge__"):
            self.assertIs(getattr(VERSION, name)("1.2.3"), NotImplemented)
            self.assertIs(getattr(VERSION, name)(RANGE), NotImplemented)
            self.assertIs(getattr(RANGE, name)(VERSION), NotImplemented)

    def test_equality_with_other_types_is_false(self) -> None:
        for other in PLAIN_TYPES + ["1.2.3"]:
            for value in (VERSION, RANGE):
                self.assertIs(value == other, False)
                self.assertIs(other != value, True)

    def test_methods_that_take_a_range(self) -> None:
        for name in METHODS_OF_A_RANGE:
            method = getattr(RANGE, name)
            for wrong in PLAIN_TYPES + ["1", VERSION]:
                self.refuses(method, wrong)
            self.refuses(method)
            self.refuses(method, RANGE, RANGE)
            self.refuses(method, other=RANGE)
            self.refuses(method, RANGE, strict=True)

    def test_methods_that_take_versions(self) -> None:
        for name in METHODS_OF_VERSIONS:
            method = getattr(RANGE, name)
            for wrong in [None, 1, True, object(), "1.2.3", VERSION, RANGE, len, b"1.2.3"]:
                self.refuses(method, wrong)
            for wrong in PLAIN_TYPES + [RANGE]:
                self.refuses(method, [VERSION, wrong])
            self.refuses(method)
            self.refuses(method, [], [])
            self.refuses(method, [], True)
            self.refuses(method, versions=[])
            self.refuses(method, include_prerelease=True)
            self.refuses(method, [1], include_prerelease=True)

    def test_prereleases_included(self) -> None:
        undecided: Any = Undecided()
        for name in METHODS_OF_VERSIONS + ["least_beyond", "least_common"]:
            argument: Any = [] if name in METHODS_OF_VERSIONS else RANGE
            with self.assertRaises(ZeroDivisionError):
                getattr(RANGE, name)(argument, include_prerelease=undecided)
        with self.assertRaises(ZeroDivisionError):
            RANGE.min_version(include_prerelease=undecided)
        self.refuses(RANGE.min_version, True)
        self.refuses(RANGE.min_version, strict=True)

    def test_coerce(self) -> None:
        for wrong in PLAIN_TYPES + [VERSION, RANGE]:
            self.refuses(Version.coerce, wrong)
            self.refuses(Version.coerce, wrong, rtl=True)
        self.refuses(Version.coerce)
        self.refuses(Version.coerce, "1", True)
        self.refuses(Version.coerce, "1", strict=True)
        self.refuses(Version.coerce, text="1")
        undecided: Any = Undecided()
        with self.assertRaises(ZeroDivisionError):
            Version.coerce("1", rtl=undecided)
        with self.assertRaises(ZeroDivisionError):
            Version.coerce("1", include_prerelease=undecided)

    def test_sets(self) -> None:
        for wrong in [None, 1, True, object(), "1.2.3", VERSION, RANGE, len]:
            self.refuses(Range.from_sets, wrong)
            self.refuses(Range.from_sets, [wrong])
            self.refuses(Range.from_sets, [(wrong, END)])
            self.refuses(Range.from_sets, [(END, wrong)])
            self.refuses(Range.from_sets, [(("start", None), END), (("start", None), wrong)])
        for wrong in PLAIN_TYPES + [VERSION, RANGE]:
            self.refuses(Range.from_sets, [((wrong, VERSION), END)])
        for wrong in PLAIN_TYPES + [RANGE]:
            self.refuses(Range.from_sets, [(("before", wrong), END)])
        for wrong in PLAIN_TYPES[1:] + [RANGE, VERSION, "1.2.3"]:
            self.refuses(Range.from_sets, [(("start", wrong), END)])
        self.refuses(Range.from_sets)
        self.refuses(Range.from_sets, [], [])
        self.refuses(Range.from_sets, sets=[])
        self.refuses(getattr(Range, "sets").__get__, VERSION, Version)

    def test_npms_own_reading(self) -> None:
        for wrong in PLAIN_TYPES + [VERSION, RANGE]:
            self.refuses(Range.parse_npm, wrong)
            self.refuses(Range.parse_npm, wrong, loose=True)
        self.refuses(Range.parse_npm)
        self.refuses(Range.parse_npm, "1", True)
        self.refuses(Range.parse_npm, "1", strict=True)
        self.refuses(Range.parse_npm, text="1")
        undecided: Any = Undecided()
        with self.assertRaises(ZeroDivisionError):
            Range.parse_npm("1", include_prerelease=undecided)

    def test_bumps(self) -> None:
        bump = VERSION.bump
        for wrong in PLAIN_TYPES + [VERSION, RANGE]:
            self.refuses(bump, wrong)
        for wrong in PLAIN_TYPES[1:] + [VERSION, RANGE]:
            self.refuses(bump, "major", identifier=wrong)
        for wrong in [False, True, 1.0, "0", b"1", [], object(), int, VERSION, RANGE]:
            self.refuses(bump, "major", base=wrong)
        self.refuses(bump)
        self.refuses(bump, "major", "beta")
        self.refuses(bump, release="major")
        self.refuses(bump, "major", identifierBase=0)
        self.refuses(Version.bump, RANGE, "major")
        for release in ["", "Major", "release", "majo", "majors", "pre\0", "none", "\u0161"]:
            with self.assertRaises(ValueError, msg=release):
                bump(release)
        for base in [2, -1, 2**31, 2**64, -(2**64)]:
            with self.assertRaises(ValueError, msg=base):
                bump("major", base=base)

    def test_membership(self) -> None:
        for wrong in PLAIN_TYPES + [RANGE]:
            self.refuses(operator.contains, RANGE, wrong)
            self.refuses(RANGE.contains, wrong)
        self.refuses(iter, RANGE)
        self.refuses(RANGE.contains)
        self.refuses(RANGE.contains, VERSION, VERSION)
        self.refuses(RANGE.contains, version=VERSION)

    def test_methods_that_take_a_version(self) -> None:
        for name in ("compare_build", "diff"):
            method = getattr(VERSION, name)
            for wrong in PLAIN_TYPES + ["1.2.3", RANGE]:
                self.refuses(method, wrong)
            self.refuses(method)
            self.refuses(method, VERSION, VERSION)
            self.refuses(method, other=VERSION)
            self.refuses(getattr(Version, name), RANGE, VERSION)

    def test_methods_without_arguments(self) -> None:
        self.refuses(RANGE.min_version, RANGE)
        for value in (VERSION, RANGE):
            self.refuses(value.__copy__, value)
            self.refuses(value.__reduce__, 2, 3)

    def test_satisfies(self) -> None:
        for wrong in PLAIN_TYPES + [VERSION, RANGE]:
            self.refuses(satisfies, wrong, "1")
            self.refuses(satisfies, "1.2.3", wrong)
        self.refuses(satisfies)
        self.refuses(satisfies, "1.2.3")
        self.refuses(satisfies, "1.2.3", "1", "1")

    def test_methods_of_another_type(self) -> None:
        others = ["contains", "__contains__", "__and__", "__sub__", "__reduce__"]
        for name in METHODS_OF_A_RANGE + METHODS_OF_VERSIONS + others:
            self.refuses(getattr(Range, name), VERSION, RANGE)
        for name in FIELDS:
            self.refuses(getattr(Version, name).__get__, RANGE, Range)
        for make, other in ((Version, RANGE), (Range, VERSION)):
            for name in ("__str__", "__repr__", "__hash__"):
                self.refuses(getattr(make, name), other)


class Unchanging(unittest.TestCase):
    def test_init_changes_nothing(self) -> None:
        for value in (Version("1.2.3"), Range("1.2.3")):
            for arguments in [("9.9.9",), (), (1, 2)]:
                value.__init__(*arguments)  # type: ignore[misc]
                self.assertEqual(str(value), "1.2.3")

    def test_has_no_attributes_to_set(self) -> None:
        for value, name in [(VERSION, name) for name in FIELDS + ["new"]] + [(RANGE, "new"), (RANGE, "filter")]:
            with self.assertRaises(AttributeError):
                setattr(value, name, 1)
            with self.assertRaises(AttributeError):
                delattr(value, name)

    def test_types_are_final(self) -> None:
        for make in (Version, Range):
            with self.assertRaises(TypeError):
                type("Child", (make,), {})
            with self.assertRaises(TypeError):
                setattr(make, "new", 1)
            with self.assertRaises(TypeError):
                setattr(make, "__hash__", None)
        with self.assertRaises(TypeError):
            VERSION.__class__ = Range

    def test_copies_are_the_value(self) -> None:
        for value in (VERSION, RANGE):
            self.assertIs(copy.copy(value), value)
            self.assertIs(copy.deepcopy(value), value)
            self.assertIs(copy.deepcopy({"key": [value]})["key"][0], value)
        for _ in range(1000):  # a copy that shared a handle would be freed twice
            copied = copy.copy(Version("1.2.3"))
            del copied
        gc.collect()

    def test_pickles(self) -> None:
        for value in (VERSION, RANGE, Range("*"), Range("1") - Range("1.5.0"), Range(">=1.2.3+a <2.0.0+b"), ALL):
            for protocol in range(pickle.HIGHEST_PROTOCOL + 1):
                again = pickle.loads(pickle.dumps(value, protocol))
                self.assertEqual((type(again), again, str(again)), (type(value), value, str(value)))

    def test_refuses_to_pickle_what_is_not_read_back(self) -> None:
        # The print has a byte more than the text, which has as many as a version may have.
        longest = Version("1.2.3" + "a" * 251)
        # The upper end of the caret range is above the greatest number of a text.
        highest = Range("^9007199254740991")
        for value in (longest, highest):
            with self.assertRaisesRegex(ValueError, "cannot pickle"):
                pickle.dumps(value)

    def test_stands_in_the_package(self) -> None:
        for make, name in ((Version, "Version"), (Range, "Range")):
            self.assertEqual((make.__module__, make.__qualname__), ("node_semver", name))
            self.assertIs(getattr(node_semver, name), make)


# The second value is freed when even the names of builtins are gone.
AT_EXIT = """
import os, sys
from node_semver import Range, Version

class Late:
    def __init__(self):
        self.held = os.write, Range, Version, Range("^1 || 3"), Version("1.2.3")
    def __del__(self):
        write, Range, Version, wanted, version = self.held
        assert version in wanted and "3.1.0" in wanted and wanted.min_version() == Version("1.0.0")
        assert f"{wanted & Range('1.5.0')}" == "1.5.0" and wanted.filter([version]) == [version]
        write(2, b"done.")

held = Late()
sys.held = Late()
"""


# What a call says of an argument of a wrong type must not ask the caller's own code for the name of the type.
NAMES_OF_TYPES = """
from node_semver import Range, Version, satisfies

def raises(cls):
    raise KeyError("the caller's own")

wanted = Range("^1")
for name in (lambda cls: [1] * 50, lambda cls: None, lambda cls: "\\ud800", raises):
    class Meta(type):
        __name__ = property(name)
        __repr__ = raises
    class Named(metaclass=Meta):
        pass
    for call in (Version, Range, wanted.allows_any, wanted.__contains__, lambda o: wanted.filter([o]),
                 lambda o: wanted.max_satisfying([o]), lambda o: satisfies(o, "1"), lambda o: satisfies("1.2.3", o),
                 lambda o: Range.from_sets([((o, None), ("end", None))]),
                 lambda o: Range.from_sets([(("start", None), ("end", o))])):
        try:
            call(Named())
        except TypeError as error:
            assert str(error).endswith(", not Named"), error
        else:
            raise AssertionError(call)
"""

# A module that was made and never executed has no types.
NOT_EXECUTED = """
import importlib.util, node_semver
made = importlib.util.module_from_spec(node_semver._native.__spec__)
for arguments in (("x", "y"), ("1.2.3", "1"), ()):
    try:
        made.satisfies(*arguments)
    except RuntimeError as error:
        assert str(error) == "node_semver._native is not imported"
    else:
        raise AssertionError(arguments)
assert not hasattr(made, "Version")
del made
assert node_semver.satisfies("1.2.3", "1")
"""

# SemverError cannot be imported, so the module is executed in part.
EXECUTED_IN_PART = """
import importlib.util, sys, types, node_semver
sys.modules["node_semver._error"] = types.ModuleType("node_semver._error")
made = importlib.util.module_from_spec(node_semver._native.__spec__)
for _ in range(2):
    try:
        made.__spec__.loader.exec_module(made)
    except AttributeError:
        pass
    try:
        made.satisfies("x", "y")
    except RuntimeError:
        continue
    raise AssertionError("a module without types was called")
"""

# An iterator that reads each tuple that there is. A tuple that a call was still filling would have empty places.
READS_EACH_TUPLE = """
import gc
from node_semver import Range

def spying(items):
    for item in items:
        for other in gc.get_objects():
            if type(other) is tuple:
                for part in other:
                    pass
        yield item

wanted = Range("^1")
for call in (wanted.filter, wanted.max_satisfying, wanted.min_satisfying):
    call(spying(["1.2.3", "2.0.0"]))
Range.from_sets(spying([spying([spying(["before", "1.2.3"]), spying(["end", None])])]))
"""

# Each import makes types anew. Values that the old module reaches must not keep it.
IMPORTED_AGAIN = """
import gc, sys, weakref
old = []
for _ in range(3):
    import node_semver
    old.append(weakref.ref(node_semver.Version))
    old.append(weakref.ref(node_semver.Range))
    node_semver._native.kept = node_semver.Version("1.2.3"), node_semver.Range("^1")
    node_semver.SemverError.kept = [node_semver.Range("^1 || 3"), node_semver.Version("1.2.3")]
    for name in [name for name in sys.modules if name.startswith("node_semver")]:
        del sys.modules[name]
    del node_semver
gc.collect()
assert [kept() for kept in old] == [None] * 6, old
"""


class Surroundings(unittest.TestCase):
    def test_names_of_types_are_not_asked_of_the_caller(self) -> None:
        self.ends_well(NAMES_OF_TYPES)

    def test_a_module_that_was_not_executed(self) -> None:
        self.ends_well(NOT_EXECUTED)
        self.ends_well(EXECUTED_IN_PART)

    def test_an_iterator_that_reads_each_tuple(self) -> None:
        self.ends_well(READS_EACH_TUPLE)

    def test_imported_again(self) -> None:
        self.ends_well(IMPORTED_AGAIN)

    def ends_well(self, program: str) -> None:
        done = self.run_program(program)
        self.assertEqual((done.returncode, done.stderr), (0, ""))

    def run_program(self, program: str) -> "subprocess.CompletedProcess[str]":
        environment = {**os.environ, "PYTHONPATH": os.pathsep.join(sys.path)}
        return subprocess.run([sys.executable, "-c", program], env=environment, capture_output=True, text=True)

    def test_values_are_used_while_python_ends(self) -> None:
        done = self.run_program(AT_EXIT)
        self.assertEqual((done.returncode, done.stderr), (0, "done.done."))

    def test_values_outlive_the_module(self) -> None:
        self.ends_well(
            "import gc, sys, node_semver as old\n"
            "wanted, version = old.Range('^1'), old.Version('1.2.3')\n"
            "del old\n"
            "for name in [name for name in sys.modules if name.startswith('node_semver')]: del sys.modules[name]\n"
            "gc.collect()\n"
            "import node_semver as new\n"
            "assert version in wanted and '1.5.0' in wanted and str(wanted.min_version()) == '1.0.0'\n"
            "for wrong in (lambda: version in new.Range('^1'), lambda: new.Range('^1') & wanted,\n"
            "              lambda: new.Range('^1').allows_any(wanted), lambda: new.Version('1.2.3') < version):\n"
            "    try: wrong()\n"
            "    except TypeError: continue\n"
            "    raise AssertionError('values of two modules were mixed')\n"
            "assert version != new.Version('1.2.3')\n"
        )

    def test_what_an_iterable_raises_is_raised(self) -> None:
        def versions() -> Iterator[Version]:
            yield VERSION
            raise KeyError("the iterable's own")

        for name in METHODS_OF_VERSIONS:
            with self.assertRaisesRegex(KeyError, "the iterable's own"):
                getattr(RANGE, name)(versions())
        broken: Any = versions()
        for sets in (broken, [versions()], [(("start", None), versions())]):
            with self.assertRaisesRegex((KeyError, ValueError), "the iterable's own|not 1 items"):
                Range.from_sets(sets)

    def test_a_list_that_changes_while_it_is_read(self) -> None:
        versions: List[Version] = []

        def changing() -> Iterator[Version]:
            for place in range(100):
                versions.append(Version(f"1.2.{place}"))
                yield versions[-1]
                versions.clear()
                gc.collect()

        def sets() -> Iterator[Any]:
            for version in changing():
                yield iter([iter(["before", version]), iter(["after", version])])

        self.assertEqual(len(RANGE.filter(changing())), 100)
        self.assertEqual(Range.from_sets(sets()), Range("||".join(f"1.2.{place}" for place in range(100))))
        self.assertEqual(RANGE.max_satisfying(changing()), Version("1.2.99"))
        self.assertEqual(RANGE.min_satisfying(changing()), Version("1.2.0"))


if __name__ == "__main__":
    unittest.main()
