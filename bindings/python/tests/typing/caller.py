# SPDX-License-Identifier: Apache-2.0
"""A caller that uses every public name; mypy --strict accepts it."""

import copy
import functools
from typing import List, Optional, Tuple, Union

from node_semver import Bump, BumpError, BumpFault, Cut, CutKind, FaultKind, Interval, Range, ReleaseType, SemverError
from node_semver import LockResolution, PickCode, Picked, PickError, PickFault, Resolution, Version, pick, resolve, satisfies

version: Version = Version("1.2.3-rc.4")
strict: Version = Version("1.2.3-rc.4", strict=True)
wanted: Range = Range("^1.2.3-rc.4 || >=3")
numbers: Tuple[int, int, int] = (version.major, version.minor, version.patch)
prerelease: Tuple[Union[int, str], ...] = version.prerelease
build: Tuple[Union[int, str], ...] = version.build
flags: List[bool] = [version.is_prerelease, version < Version("2.0.0"), version == 3, wanted != "1", version in wanted]
texts: List[str] = [str(version), repr(wanted), f"{version}"]
hashed = {version: 1}, {wanted: hash(version)}
ordered: List[Version] = sorted([version, Version("1.0.0")])
greatest: Version = max(ordered)

both: Optional[Range] = wanted & Range("^1")
union: Range = wanted | Range("^1")
rest: Optional[Range] = wanted - Range("^1")
least: Optional[Version] = wanted.min_version()
beyond: Optional[Version] = wanted.least_beyond(Range("^1"))
common: Optional[Version] = wanted.least_common(Range("^1"))
inside: List[bool] = [wanted.contains(version), wanted.contains("1.2.3-a")]
order: int = version.compare_build(version)
bump: Optional[Bump] = version.diff(version)
releases: List[ReleaseType] = ["major", "pre"]
bumped: List[Version] = [version.bump(release, identifier="beta", base=None) for release in releases]
again: Version = version.bump(bump or "patch", base=1)
by_build: List[Version] = sorted([version], key=functools.cmp_to_key(Version.compare_build))
covers: bool = wanted.allows_all(Range("3.0.0")) and wanted.allows_any(Range("3.0.0"))

lower: Cut = ("before", version)
upper: Cut = ("end", None)
npms: Range = Range.parse_npm("", loose=True, include_prerelease=False)
made: Range = Range.from_sets([(lower, upper), (("start", None), ("after", "1.2.3"))])
kinds: List[CutKind] = [kind for row in made.sets for kind, _ in row]
key: bytes = version.key
intervals: Tuple[Interval, ...] = wanted.intervals() + wanted.intervals(include_prerelease=True)
where: Tuple[str, Tuple[bytes, ...]] = wanted.sql("key", "is_prerelease", placeholder="%s", include_prerelease=True)
ends: List[Version] = [end for _, (_, end) in made.sets if end is not None]

# Items come back as they were given.
kept_versions: List[Version] = wanted.filter([version])
kept_texts: List[str] = wanted.filter(text for text in ["1.2.3"])
kept: List[Union[Version, str]] = wanted.filter([version, "1.2.3"])
best_version: Optional[Version] = wanted.max_satisfying((version,))
best_text: Optional[str] = wanted.max_satisfying({"1.2.3"})
worst_text: Optional[str] = wanted.min_satisfying(["1.2.3"])

same: Version = copy.deepcopy(version)
pair: bool = satisfies("1.2.3", "^1")

try:
    Version("1.2")
except SemverError as error:
    fault: Tuple[FaultKind, int, str, Optional[int]] = (error.kind, error.offset, error.text, error.number)
    is_context: bool = error.kind == "Context"

try:
    version.bump("pre", base=None)
except BumpError as error:
    why: BumpFault = error.kind

picked: Picked = pick({"versions": {"1.0.0": {}}}, "^1", avoid="1.1", node="20.0.0", avoid_strict=True)
parts: Tuple[str, bool, bool, bool] = (picked.version, picked.is_avoided, picked.is_outside, picked.is_major)
try:
    pick(b"{}", "next", before="2020-01-01T00:00:00Z", default_tag="next", npm=None, include_staged=False)
except PickError as none:
    cause: Tuple[PickFault, PickCode, str] = (none.kind, none.code, none.wanted)

answer: Resolution = resolve({"dependencies": {"one": "^1"}}, b"{}", before="2020-01-01T00:00:00Z", omit=["dev", "peer"], steps=7)
if answer["outcome"] == "selected":
    names: List[str] = [f"{one['name']}@{one['version']}" for one in answer["packages"]]
elif answer["outcome"] == "none":
    specs: List[str] = [one["spec"] for one in answer["culprits"] or []]
    changes: List[Optional[str]] = [one["would_fit"] for one in answer["culprits"] or []]
locked: LockResolution = resolve("{}", {}, flat=True, lowest=True, node="v20.1.0", lock={"lockfileVersion": 3}, lockfile=True)
lock: str = locked["lockfile"] if locked["outcome"] == "selected" else ""
unread: List[str] = locked["overrides"] if locked["outcome"] == "unread" else []
