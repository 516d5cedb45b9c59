# SPDX-License-Identifier: Apache-2.0
"""Runs the examples of the docstrings and of README.md; each public name has a docstring and an example."""

import doctest
import inspect
import os
import unittest
from typing import Callable, Dict, Iterator, List, Tuple

import node_semver
from node_semver import CheckError, Picked, PickError, Range, SemverError, Version, audit, check, pick, resolve, satisfies

README = os.path.join(os.path.dirname(os.path.dirname(os.path.abspath(__file__))), "README.md")


def documented() -> Iterator[Tuple[str, object]]:
    """The public names and what they stand for, methods and fields too."""
    yield "node_semver", node_semver
    yield "satisfies", satisfies
    yield "pick", pick
    yield "resolve", resolve
    yield "check", check
    yield "audit", audit
    for owner in (Version, Range, SemverError, Picked, PickError, CheckError):
        yield owner.__name__, owner
    for owner in (Version, Range):
        for name, member in vars(owner).items():
            if not name.startswith("_"):
                yield f"{owner.__name__}.{name}", member


class Docs(unittest.TestCase):
    def run_examples(self, name: str, text: str) -> int:
        """Runs the examples of a text; how many there are."""
        names: Dict[str, object] = {key: getattr(node_semver, key) for key in node_semver.__all__}
        test = doctest.DocTestParser().get_doctest(text, names, name, None, 0)
        result = doctest.DocTestRunner(verbose=False).run(test)
        self.assertEqual(result.failed, 0)
        return result.attempted

    def test_docstrings(self) -> None:
        names = []
        for name, member in documented():
            with self.subTest(name):
                doc = inspect.getdoc(member)
                assert doc is not None
                self.assertGreater(self.run_examples(name, doc), 0)
            names.append(name)
        self.assertEqual(len(names), len(set(names)))
        self.assertIn("Range.least_beyond", names)
        self.assertIn("Version.prerelease", names)

    def test_readme(self) -> None:
        with open(README, encoding="utf-8") as file:
            self.assertGreater(self.run_examples("README.md", file.read()), 5)

    def test_signatures(self) -> None:
        calls: List[Tuple[Callable[..., object], str]] = [
            (Version, "(text, /, *, strict=False)"),
            (Range, "(text, /)"),
            (satisfies, "(version, range, /)"),
            (Range.filter, "(self, versions, /, *, include_prerelease=False)"),
            (Range.max_satisfying, "(self, versions, /, *, include_prerelease=False)"),
            (Range.min_satisfying, "(self, versions, /, *, include_prerelease=False)"),
            (Range.min_version, "(self, /, *, include_prerelease=False)"),
            (Range.least_beyond, "(self, other, /, *, include_prerelease=False)"),
            (Range.least_common, "(self, other, /, *, include_prerelease=False)"),
            (Range.contains, "(self, version, /)"),
            (Range.from_sets, "(sets, /)"),
            (Range.parse_npm, "(text, /, *, loose=False, include_prerelease=False)"),
            (Version.coerce, "(text, /, *, rtl=False, include_prerelease=False)"),
            (Version.compare_build, "(self, other, /)"),
            (Version.diff, "(self, other, /)"),
            (Version.bump, "(self, release, /, *, identifier=None, base=0)"),
        ]
        for call, wanted in calls:
            self.assertEqual(str(inspect.signature(call)), wanted)


if __name__ == "__main__":
    unittest.main()
