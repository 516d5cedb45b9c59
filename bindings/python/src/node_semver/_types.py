# SPDX-License-Identifier: Apache-2.0
"""Names of types, for annotations."""

from typing import Literal

from ._native import Version

#: What leads from one version to another.
Bump = Literal["major", "premajor", "minor", "preminor", "patch", "prepatch", "prerelease"]

#: How a version is raised: npm's release types.
ReleaseType = Literal["major", "premajor", "minor", "preminor", "patch", "prepatch", "prerelease", "pre"]

CutKind = Literal["start", "before", "after", "end"]

#: A place between versions: just before a version, just after it, or at the start or the end of all versions.
#: (`typing` keeps the arguments of its `Tuple` and `Optional` for ever, and the type of versions with them.)
Cut = tuple[CutKind, Version | None]

#: Keys from the first up to, and without, the second; and whether they are those of prereleases.
Interval = tuple[bytes, bytes, bool]
