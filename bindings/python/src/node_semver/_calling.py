# SPDX-License-Identifier: Apache-2.0
"""Calls of the library by their names. The native part is loaded by the first call."""

import json
from typing import Any

#: What is wrong with a call: its name, the path to the member, its line and column, and a sentence. See npm_calls.h.
Refusal = dict[str, Any]


def text_of(value: Any) -> str:
    """The JSON of a value, with half a character as it is: the native part refuses that."""
    return json.dumps(value, ensure_ascii=False)


def document_of(text: str | bytes) -> str:
    """The JSON of a document that is a text."""
    if isinstance(text, bytes):
        try:
            text = text.decode()
        except UnicodeDecodeError:
            raise ValueError("a text is not UTF-8") from None
    return text_of(text)


def call(name: str, members: dict[str, str | None]) -> tuple[Refusal | None, dict[str, Any]]:
    """Makes the call with these members, which are JSON. One that is None is not given."""
    from . import _calls

    text = ",".join(f'"{member}":{value}' for member, value in members.items() if value is not None)
    status, answer = _calls.call(name, f"{{{text}}}")
    found: dict[str, Any] = json.loads(answer)
    return (found, {}) if status else (None, found)
