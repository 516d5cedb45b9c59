# SPDX-License-Identifier: Apache-2.0
"""What each object of Python can do: `format`, and weak references."""

import gc
import unittest
import weakref
from typing import Any, List

from node_semver import Range, Version

VALUES: List[Any] = [Version("1.2.3-rc.4+b"), Range("^1.2 || 3"), Version("1.2.3-" + "a" * 200), Range("1 || " * 20 + "2")]


class Format(unittest.TestCase):
    def test_is_that_of_the_text(self) -> None:
        for value in VALUES:
            for layout in ("", "s", ">20", "<30s", "^41", "*>250", ".3", "-^9.2s", "\u0161>30"):
                with self.subTest(value=value, layout=layout):
                    self.assertEqual(format(value, layout), format(str(value), layout))
                    self.assertEqual(f"{value:{layout}}", f"{str(value):{layout}}")
                    self.assertEqual("{:{}}|{}".format(value, layout, value), "{:{}}|{}".format(str(value), layout, str(value)))
        self.assertEqual(f"{Version('1.2.3'):>20}", "               1.2.3")
        self.assertEqual(f"{Range('^1'):.<20}|", ">=1.0.0 <2.0.0-0....|")

    def test_refuses_what_a_text_refuses(self) -> None:
        for value in VALUES:
            for layout in ("d", "=9", "+", "no", ">9_", "\ud800x\ud800", "\0"):
                with self.subTest(value=value, layout=layout):
                    with self.assertRaises(ValueError) as caught:
                        format(value, layout)
                    with self.assertRaises(ValueError) as wanted:
                        format(str(value), layout)
                    self.assertEqual(str(caught.exception), str(wanted.exception))
            for wrong in (None, 7, b"", Version("1.2.3")):
                with self.assertRaises(TypeError):
                    value.__format__(wrong)

    def test_a_layout_of_a_class_of_the_caller(self) -> None:
        class Layout(str):
            def __str__(self) -> str:
                return "d"

            def __len__(self) -> int:
                return 10**9

        for value in VALUES:
            self.assertEqual(format(value, Layout(">300")), str(value).rjust(300))


class WeakReferences(unittest.TestCase):
    def test_a_reference_ends_with_the_value(self) -> None:
        for make, text in ((Version, "1.2.3"), (Range, "^1")):
            value: Any = make(text)
            told: List[Any] = []
            one, other = weakref.ref(value), weakref.ref(value, told.append)
            proxy = weakref.proxy(value)
            self.assertIs(one(), value)
            self.assertEqual((weakref.getweakrefcount(value), str(proxy)), (3, str(value)))
            del value
            self.assertEqual((one(), other(), told), (None, None, [other]))
            with self.assertRaises(ReferenceError):
                str(proxy)

    def test_tables_of_weak_references(self) -> None:
        versions = {text: Version(text) for text in ("1.2.3", "1.2.3+b", "2.0.0")}
        table: "weakref.WeakValueDictionary[str, Version]" = weakref.WeakValueDictionary(versions)
        keys = weakref.WeakKeyDictionary({Range("^1"): 1})
        self.assertEqual((len(table), len(keys)), (3, 0))
        held = Range("^2")
        keys[held] = 2
        self.assertEqual(keys[Range("^2")], 2)
        del versions["2.0.0"]
        self.assertEqual(sorted(table), ["1.2.3", "1.2.3+b"])
        versions.clear()
        self.assertEqual(len(table), 0)
        self.assertEqual(len(weakref.WeakSet([held, Range("^3")])), 1)

    def test_a_callback_makes_and_frees_values(self) -> None:
        told: List[str] = []
        versions: List[Any] = ["1.2.3", Version("1.4.0")]

        def tell(dead: Any) -> None:
            told.append(f"{dead()} {Range('^1').max_satisfying(versions)}")
            gc.collect()

        for _ in range(200):
            for make, text in ((Version, "1.2.3"), (Range, "^1 || ^2")):
                value: Any = make(text)
                reference = weakref.ref(value, tell)
                str(value), hash(value)
                del value
                self.assertIsNone(reference())
        self.assertEqual(told, ["None 1.4.0"] * 400)

    def test_a_value_in_a_cycle(self) -> None:
        class Node:
            pass

        for make, text in ((Version, "1.2.3"), (Range, "^1")):
            value: Any = make
            node: Any = Node()
            node.held, node.itself = value(text), node
            reference = weakref.ref(node.held)
            del node
            gc.collect()
            self.assertIsNone(reference())


if __name__ == "__main__":
    unittest.main()
