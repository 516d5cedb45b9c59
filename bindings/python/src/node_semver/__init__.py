# SPDX-License-Identifier: Apache-2.0
"""npm's versions and version ranges: `Version` and `Range`; the version that npm would install: `pick`;
versions that fit together: `resolve`; and lock files: `check` and `audit`.

>>> wanted = Range('^1.2.3-rc.4 || >=3')
>>> '1.9.0' in wanted
True
>>> wanted.max_satisfying(['1.3.0', '1.10.0', '2.0.0'])
'1.10.0'
>>> sorted(map(Version, ['1.10.0', '1.9.0', '1.10.0-rc.1']))
[Version('1.9.0'), Version('1.10.0-rc.1'), Version('1.10.0')]
"""

from ._checking import Audit, CheckError, Excepted, Report, audit, check
from ._error import BumpError, BumpFault, FaultKind, SemverError
from ._native import Range, Version, satisfies
from ._picking import PickCode, Picked, PickError, PickFault, pick
from ._resolving import (
    Chosen, Culprit, Group, LockFile, LockResolution, Names, NoSelection, Reason, Resolution, Selected, Undecided, Unread, Wish,
    resolve,
)  # fmt: skip
from ._types import Bump, Cut, CutKind, Interval, ReleaseType

__all__ = [
    "Audit", "Bump", "BumpError", "BumpFault", "CheckError", "Chosen", "Culprit", "Cut", "CutKind", "Excepted",
    "FaultKind", "Group", "Interval", "LockFile", "LockResolution", "Names", "NoSelection", "PickCode", "PickError",
    "PickFault", "Picked", "Range", "Reason", "ReleaseType", "Report", "Resolution", "Selected", "SemverError",
    "Undecided", "Unread", "Version", "Wish", "audit", "check", "pick", "resolve", "satisfies",
]  # fmt: skip
__version__ = "1.0.0"
