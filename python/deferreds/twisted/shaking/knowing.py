"""Whether this Twisted is known: what records and what perturbs is put into it in a process of its own, and tried."""

from __future__ import annotations

import functools
import os

from ...program import NOT_RUN
from .choices import Choices, Settings
from .install import install
from .log import Log
from .runs import run
from .shaker import Shaker

_SECONDS = 60.0
_STANDARD_ERROR = 2


@functools.lru_cache(maxsize=None)
def why_unknown() -> str:
    """Why it isn't known; an empty text, if it is."""
    ended = run(_check, _SECONDS)
    return "" if ended.status == 0 else ended.output.rstrip() or "the self-test of the recorder has failed"


def _check(log: Log) -> int:
    from ..known import UnknownTwisted

    try:
        from ..instruments import install as install_instruments

        install_instruments()
        install(Shaker(Choices(Settings(0))))
    except (UnknownTwisted, AttributeError, ImportError) as error:
        os.write(_STANDARD_ERROR, f"{error}\n".encode())
        return NOT_RUN
    return 0
