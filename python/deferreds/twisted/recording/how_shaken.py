"""How the run of this process is shaken, which its recording says. What shakes it tells that here."""

from __future__ import annotations

from typing import Any, Callable, Dict, List

#: what gives the facts: nothing, if the run isn't shaken
_asked: List[Callable[[], Dict[str, Any]]] = []


def be_shaken(facts: Callable[[], Dict[str, Any]]) -> None:
    """The run of this process is shaken: `facts` says how, when it is asked at the end."""
    _asked.append(facts)


def how_shaken() -> Dict[str, Any]:
    """How the run is shaken, as the list of its recording says it under `shaken`; nothing, if it isn't."""
    return _asked[-1]() if _asked else {}
