"""How outcomes are shown: a sign and a class of style for each."""

from __future__ import annotations

from typing import Dict

from .records import Ended

SIGNS: Dict[Ended, str] = {
    Ended.OK: "✓",
    Ended.FAIL: "✕",
    Ended.WAIT: "…",
    Ended.PAUSED: "‖",
    Ended.UNFIRED: "○",
}

#: the classes of an outcome
CLASSES: Dict[Ended, str] = {
    Ended.OK: "ok",
    Ended.FAIL: "fail",
    Ended.WAIT: "wait",
    Ended.PAUSED: "paused",
    Ended.UNFIRED: "unfired",
}
