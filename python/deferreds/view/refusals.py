"""Why a script is refused, as `./deferreds --why` says it (docs/WHY.md), in a line."""

from __future__ import annotations

import json
from typing import Any, Dict, Optional

from .texts import visible

_MOST_EXPECTED = 400


def read_refusal(told: bytes) -> Optional[str]:
    """What the line says of a script that is refused, or None where it isn't such a line."""
    try:
        why: Any = json.loads(told)
        return _said(why)
    except (ValueError, KeyError, TypeError, RecursionError):
        return None


def _said(why: Dict[str, Any]) -> str:
    name, found, expected = _text(why, "name"), _text(why, "found"), _text(why, "expected")
    parts = [f"found {found}"] if found else []
    if expected:
        parts.append(f"expected {_cut(expected)}")
    said = f": {', '.join(parts)}" if parts else ""
    return visible(f"{name}: {_place(why)}{said}")


def _text(why: Dict[str, Any], key: str) -> str:
    value = why[key]
    if not isinstance(value, str):
        raise ValueError(key)
    return value


def _cut(text: str) -> str:
    return text if len(text) <= _MOST_EXPECTED else f"{text[: _MOST_EXPECTED - 1]}…"


def _place(why: Dict[str, Any]) -> str:
    """Where it is: a JSON Pointer, or a line and a column of a text that is no JSON."""
    line, column = why.get("line"), why.get("column")
    if isinstance(line, int) and isinstance(column, int) and line > 0:
        return f"at line {line}, column {column}"
    at = _text(why, "at")
    return f"at {at}" if at else "the whole text"
