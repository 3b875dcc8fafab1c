"""Puts all that perturbs into Twisted."""

from __future__ import annotations

from ..recording.how_shaken import be_shaken
from . import calls, janitor, reactors, sockets, threads
from .shaker import Shaker


def install(shaker: Shaker) -> None:
    """Perturbs threads, sockets and each reactor that is made from now on, in this process. This is done once."""
    be_shaken(lambda: shaker.facts)
    if shaker.fast is not None:
        shaker.fast.install()
    for part in (threads, sockets, calls, reactors, janitor):
        part.shake(shaker)
