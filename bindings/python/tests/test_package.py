# SPDX-License-Identifier: Apache-2.0
"""What is installed: the licence, the version, and the names of the package."""

import importlib.metadata
import os
import unittest

import node_semver

ROOT = os.path.abspath(__file__)
for _ in range(4):
    ROOT = os.path.dirname(ROOT)


class Package(unittest.TestCase):
    def distribution(self) -> importlib.metadata.Distribution:
        """What was installed together with the package."""
        folder = os.path.dirname(os.path.dirname(os.path.abspath(node_semver.__file__)))
        [found] = importlib.metadata.distributions(name="denimscree-semver", path=[folder])
        return found

    def test_the_licence(self) -> None:
        with open(os.path.join(ROOT, "LICENSE"), encoding="utf-8") as file:
            licence = file.read()
        self.assertGreater(len(licence), 10_000)
        self.assertEqual(self.distribution().read_text("LICENSE"), licence)

    def test_the_version(self) -> None:
        self.assertEqual(node_semver.__version__, self.distribution().version)
        self.assertEqual(str(node_semver.Version(node_semver.__version__)), node_semver.__version__)

    def test_the_names(self) -> None:
        public = [name for name in vars(node_semver) if not name.startswith("_")]
        self.assertEqual(sorted(public), sorted(node_semver.__all__))


if __name__ == "__main__":
    unittest.main()
