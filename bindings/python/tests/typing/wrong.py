# SPDX-License-Identifier: Apache-2.0
"""Mistakes: mypy --strict refuses each line that ends in `# wrong`, and no other."""

from typing import List

from node_semver import Range, SemverError, Version, resolve, satisfies

version = Version("1.2.3")
wanted = Range("^1")

Version(1)  # wrong
Version()  # wrong
Version(text="1.2.3")  # wrong
Version("1.2.3", True)  # wrong
Range("1.2.3", strict=True)  # wrong
Range(version)  # wrong
Range(b"^1")  # wrong
wanted & version  # wrong
wanted - "1"  # wrong
wanted | version  # wrong
wanted < wanted  # wrong
version < "1.2.3"  # wrong
1 in wanted  # wrong
wanted in wanted  # wrong
wanted.allows_any(version)  # wrong
wanted.allows_all("1")  # wrong
wanted.least_beyond("1")  # wrong
wanted.least_common("1")  # wrong
wanted.contains(1)  # wrong
version.compare_build("1.2.3")  # wrong
version.diff("1.2.3")  # wrong
bump: str = version.diff(version)  # wrong
version.bump("release")  # wrong
version.bump("major", "beta")  # wrong
version.bump("major", identifier=1)  # wrong
version.bump("major", base=2)  # wrong
version.bump("major", base=False)  # wrong
wanted.filter([1])  # wrong
wanted.max_satisfying([wanted])  # wrong
wanted.min_satisfying(version)  # wrong
wanted.min_version(version)  # wrong
satisfies(version, wanted)  # wrong
version.major = 2  # wrong
version.pre_release  # wrong
(wanted & wanted).min_version()  # wrong
kept: List[Version] = wanted.filter(["1.2.3"])  # wrong
SemverError("1.2", "NoSuchKind", 3)  # wrong
Range.from_sets([wanted])  # wrong
Range.parse_npm("1", True)  # wrong
Range.parse_npm(version)  # wrong
Range.from_sets([(("before", version), ("none", None))])  # wrong
Range.from_sets([(("before", 1), ("end", None))])  # wrong
wanted.sets[0][0][1].major  # wrong
wanted.sets = ()  # wrong
resolve({})  # wrong
resolve({}, [])  # wrong
resolve({}, {}, omit="all")  # wrong
resolve({}, {}, steps="7")  # wrong
resolve({}, {}, 7)  # wrong
resolve({}, {})["packages"]  # wrong


class Child(Version):  # wrong
    pass
