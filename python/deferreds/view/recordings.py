"""What `./record` says of a recorded run in the list of files that stands beside a script or a journal: how long a tick was, and how the run
was shaken.
"""

from __future__ import annotations

import json
import re
from pathlib import Path
from typing import Any, NamedTuple

from ..files import read_plain
from .names import RECORDING

_MOST_LIST = 1 << 20
_TICK = re.compile("(?:1/)?[1-9][0-9]{0,9} (?:s|ms|µs|ns)")


class Recorded(NamedTuple):
    """What is known of a recorded run: how long a tick was, and how it was shaken, as JSON; empty texts, if that isn't known."""

    tick: str = ""
    shaken: str = ""


def read_recorded(text: str, name: str) -> Recorded:
    """What a list of files says, if it lists this one."""
    try:
        listed: Any = json.loads(text)
        files, tick, shaken = listed["files"], listed.get("tick"), listed.get("shaken")
    except (ValueError, KeyError, TypeError, AttributeError, RecursionError):
        return Recorded()
    if not isinstance(files, dict) or name not in files:
        return Recorded()
    is_tick = isinstance(tick, str) and _TICK.fullmatch(tick)
    return Recorded(tick if is_tick else "", json.dumps(shaken) if isinstance(shaken, dict) else "")


def recorded_beside(name: str) -> Recorded:
    """What is said of the recording that a script or a journal is of; nothing, if it is of none."""
    path = Path(name)
    try:
        return read_recorded(read_plain(path.with_suffix(RECORDING), _MOST_LIST).decode("utf-8"), path.name)
    except (OSError, ValueError):
        return Recorded()
