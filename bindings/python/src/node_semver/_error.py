# SPDX-License-Identifier: Apache-2.0
"""The exceptions: for a text that is not a version or not a range, and for a version that is not raised."""

from typing import Literal, Optional

FaultKind = Literal[
    "MaxLengthError", "IncompleteInput", "ParseIntError", "MaxIntError", "Context", "NoValidRanges", "Other"
]

_REASONS = {
    "MaxLengthError": "a version has at most 256 bytes",
    "ParseIntError": "a number is above 18446744073709551615",
    "MaxIntError": "a number is above 9007199254740991",
    "Context": "a number or a dot is missing",
    "NoValidRanges": "no alternative is a range that a version can be in",
    "Other": "what begins here is no part of a version",
}

# Of a NoValidRanges past the start of the text, which only `Range.parse_npm` raises: it is at a word.
_NO_COMPARATOR = "what begins here is no comparator"

BumpFault = Literal["InvalidIdentifier", "NoIdentifier", "SameIdentifier", "NumberTooLarge"]

_BUMP_REASONS = {
    "InvalidIdentifier": "an identifier has ASCII letters, digits and hyphens alone",
    "NoIdentifier": "there is neither an identifier nor a number to begin a prerelease with",
    "SameIdentifier": "the prerelease is this identifier already, and no number is to follow it",
    "NumberTooLarge": "a number would be above 9007199254740991",
}

# How many characters of a long text the message shows on each side of the fault.
_SHOWN = 60

# The bytes of UTF-8 that are not the first of a character.
_NO_FIRST_BYTES = bytes(range(0x80, 0xC0))


class SemverError(ValueError):
    """A text that is not a version, or not a range.

    The message shows the text with a caret under the fault.

    >>> try:
    ...     Version('1.2.3 beta')
    ... except SemverError as error:
    ...     print(error)
    ...     print(error.kind, error.offset, error.number)
    Other at byte 5: what begins here is no part of a version
        1.2.3 beta
             ^
    Other 5 None
    """

    #: What is wrong: a name, as `Context`.
    kind: FaultKind
    #: Where it is wrong: the number of bytes before the fault in the text as UTF-8.
    offset: int
    #: The text.
    text: str
    #: The number of a `MaxIntError`, and None for every other kind.
    number: Optional[int]

    def __init__(self, text: str, kind: FaultKind, offset: int, number: Optional[int] = None) -> None:
        super().__init__(text, kind, offset, number)  # the arguments that pickle and copy pass again
        self.text = text
        self.kind = kind
        self.offset = offset
        self.number = number

    def __str__(self) -> str:
        place = _characters_before(self.text, self.offset)
        start = max(0, place - _SHOWN)
        before = ("..." if start > 0 else "") + _visible(self.text[start:place])
        after = _visible(self.text[place : place + _SHOWN]) + ("..." if place + _SHOWN < len(self.text) else "")
        at_word = self.kind == "NoValidRanges" and self.offset > 0
        reason = _NO_COMPARATOR if at_word else _REASONS.get(self.kind, "the text is refused")
        return f"{self.kind} at byte {self.offset}: {reason}\n    {before}{after}\n    {' ' * len(before)}^"


SemverError.__module__ = "node_semver"


class BumpError(ValueError):
    """A version that is not raised by `Version.bump`.

    >>> try:
    ...     Version('1.2.3').bump('prerelease', base=None)
    ... except BumpError as error:
    ...     print(error)
    ...     print(error.kind)
    NoIdentifier: there is neither an identifier nor a number to begin a prerelease with
    NoIdentifier
    """

    #: Why: a name, as `NoIdentifier`.
    kind: BumpFault

    def __init__(self, kind: BumpFault) -> None:
        super().__init__(kind)  # the argument that pickle and copy pass again
        self.kind = kind

    def __str__(self) -> str:
        return f"{self.kind}: {_BUMP_REASONS.get(self.kind, 'the version is not raised')}"


BumpError.__module__ = "node_semver"


def _characters_before(text: str, offset: int) -> int:
    """How many characters end at or before the byte at this offset of the text as UTF-8."""
    encoded = text.encode("utf-8", "surrogatepass") + b"."
    return len(encoded[: offset + 1].translate(None, _NO_FIRST_BYTES)) - 1


def _visible(text: str) -> str:
    """The text with an escape for each character that does not print, so that the caret stands in its column."""
    return "".join(c if c.isprintable() else c.encode("unicode_escape").decode("ascii") for c in text)
