"""Which versions of Twisted the instruments know."""

from __future__ import annotations

import platform
from typing import Tuple

#: the oldest version that the instruments know
OLDEST = (22, 4)


class UnknownTwisted(Exception):
    """The instruments don't know the Twisted that is there: one line, which names its version."""

    def __init__(self, why: str) -> None:
        super().__init__(f"{why}; 22.4 and 24.11 are known (docs/TWISTED.md)")


def version() -> str:
    """The version of Twisted that is there."""
    import twisted

    return str(twisted.__version__)


def _numbers(text: str) -> Tuple[int, ...]:
    return tuple(int(part) for part in text.split(".")[:2] if part.isdigit())


def refuse_unusable() -> None:
    """Raises UnknownTwisted where Twisted is older than the oldest version that is known, or isn't for this Python."""
    found = version()
    if _numbers(found) < OLDEST:
        raise UnknownTwisted(f"Twisted {found} isn't known, and is older than 22.4")
    try:
        from twisted.internet import defer, task, threads  # noqa: F401
    except ModuleNotFoundError:
        raise
    except Exception as error:
        python = platform.python_version()
        raise UnknownTwisted(f"Twisted {found} isn't known, and Python {python} can't import it: {error}") from error
