"""The scripts of the sweep, and what each prints if nothing fails.

Beside `scripts/NAME.json` stands `scripts/NAME.txt`, the text that it prints, which is worked out by hand from
`docs/SCRIPT.md`, and in every order from `docs/ORDERS.md`, too, and never taken from a run. `scripts/NAME.jsonl` is the
same of `--json --orders`, worked out from `docs/JSON.md`. Which orders a sample has is what `deferreds.sampling` draws.
"""
from __future__ import annotations

from dataclasses import dataclass, replace
from pathlib import Path

FOLDER = Path(__file__).resolve().parent / "scripts"
REFUSED = b"batches refused: post 1 of batch 0 isn't the next one of its caller\n"
TOO_MANY = b"2 orders are more than the 1 that may run; --most 2 allows them, --sample K --seed S draws some\n"


@dataclass(frozen=True)
class Script:
    """A script, what its run prints and how it ends, and the words that ask for this run."""

    name: str
    source: bytes
    text: bytes
    status: int = 0
    errors: bytes = b""
    words: tuple[str, ...] = ()

    @property
    def has_workers(self) -> bool:
        """Whether a number of workers follows the words: runs in every order are on one thread."""
        return "--orders" not in self.words

    def words_with(self, workers: int) -> list[str]:
        """The words that ask for a run with so many workers."""
        return [*self.words, str(workers)] if self.has_workers else list(self.words)


def script(name: str, status: int = 0, errors: bytes = b"", words: tuple[str, ...] = ()) -> Script:
    """The script of this name in the folder."""
    source = (FOLDER / f"{name}.json").read_bytes()
    text = (FOLDER / f"{name}.txt").read_bytes()
    return Script(name, source, text, status, errors, words)


def script_as_json(name: str, status: int = 0, words: tuple[str, ...] = ()) -> Script:
    """The script of this name in the folder, where the text that it prints as JSON stands there, too."""
    plain = script(name, status, words=("--json", *words))
    return replace(plain, name=f"{name} as JSON", text=(FOLDER / f"{name}.jsonl").read_bytes())


def all_scripts() -> list[Script]:
    """Each script of the folder."""
    return [
        script("chained_hand_over"),
        script("fired_lists"),
        script("loop_and_later"),
        script("loop_of_turns"),
        script("on_timeout"),
        script("held_task"),
        script("inline_catches"),
        script("inline_finally"),
        script("inline_goes_on"),
        script("inline_is_cancelled"),
        script("jobs"),
        script("pools"),
        script("posts"),
        script("own_class"),
        script("whole_language"),
        script("expected_unmet", status=8),
        script("expected_unbound", status=8),
        script("cancelled_again", status=1),
        script("unknown_action", status=2, errors=b"script refused: 4 BadShape\n"),
        script("no_utf8", status=2, errors=b"script refused: 2 NotJson\n"),
        script("lock_in_batches", words=("--batches", "[[[1,0],[0,0]]]")),
        script("batches_refused", status=5, errors=REFUSED, words=("--batches", "[[[1,0],[1,0]]]")),
        script("lock_in_orders", words=("--orders",)),
        script("fired_in_orders", status=6, words=("--orders",)),
        script_as_json("lock_in_orders", words=("--orders",)),
        script_as_json("fired_in_orders", status=6, words=("--orders",)),
        script_as_json("fired_in_sample", status=6, words=("--orders", "--sample", "2", "--seed", "1")),
        script("fired_in_sample", status=6, words=("--orders", "--sample", "2", "--seed", "1")),
        script("unmet_in_orders", status=8, words=("--orders",)),
        script_as_json("unmet_in_orders", status=8, words=("--orders",)),
        script("too_many_orders", status=7, errors=TOO_MANY, words=("--orders", "--most", "1")),
    ]


def told_scripts() -> list[Script]:
    """Those of which the run is swept as JSON too, where each line takes many growths: a few, with all kinds of lines."""
    names = {
        "loop_and_later",
        "held_task",
        "inline_goes_on",
        "jobs",
        "posts",
        "cancelled_again",
        "unknown_action",
        "expected_unmet",
        "expected_unbound",
    }
    return [script for script in all_scripts() if script.name in names]


def sample_scripts() -> list[Script]:
    """A few that take seconds: a hand-over, jobs and posts on threads of their own, posts in every order, as JSON too, and a
    script that is refused."""
    names = {"chained_hand_over", "posts", "fired_in_orders", "fired_in_orders as JSON", "unknown_action"}
    return [script for script in all_scripts() if script.name in names]


def told_sample_scripts() -> list[Script]:
    """Those of the few of which the run is swept as JSON too, beside those whose JSON stands in the folder."""
    return [script for script in sample_scripts() if not script.words]
