"""Each byte of ASCII as an identifier, of a version and in a range, and as a word of a range."""
import string

import pytest

from support import answers

IDENTIFIER = string.ascii_letters + string.digits + "-"
NO_RANGE = "NoValidRanges at 0 (0, 0)"


def ask(*words):
    return answers.ask("semver_answers", *words)


@pytest.mark.parametrize("byte", range(128), ids=hex)
def test_a_byte_as_an_identifier(byte):
    version = f"1.2.3-{chr(byte)}"
    is_read = chr(byte) in IDENTIFIER
    got = [ask("Version::parse", version), ask("Range::parse", f">={version}")]
    assert got == ([version, f">={version}"] if is_read else ["Other at 5 (0, 5)", NO_RANGE])


@pytest.mark.parametrize("byte", range(128), ids=hex)
def test_a_byte_as_a_word(byte):
    character = chr(byte)
    wanted = f">={character}.0.0" if character.isdigit() else ">=0.0.0" if character in "xX*" else NO_RANGE
    assert ask("Range::parse", f">={character}") == wanted
