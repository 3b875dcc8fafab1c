"""Runs each script whose output the pages show, and compares that output byte for byte.

A page shows a script in a block of JSON, and its output in the block that follows, which has no language. A block that begins with
`$ ` shows a command and what it prints. The table of `examples/README.md` has the lines of the Deferreds of each example. Where threads
post, several orders are possible: one of the runs has to print the one that is shown.
"""

from __future__ import annotations

import json
import re
import subprocess
from pathlib import Path
from typing import Iterator, List, NamedTuple, Optional

from deferreds.ending import run_command
from programs import TOP, first_difference, program_here, run, run_all

_BLOCK = re.compile(r"^```(\w*)\n(.*?)^```$", re.DOTALL | re.MULTILINE)
_EXAMPLE = re.compile(r"\| `(\w+\.json)` \| .* \| (.*) \|")
_PAGES = ("README.md", "docs/SCRIPT.md", "docs/JSON.md", "docs/WHY.md", "docs/ORDERS.md")
_MOST_RUNS = 200


class Shown(NamedTuple):
    """An output that a page shows: of a script, or of a command line."""

    place: str
    words: List[str]
    script: str
    output: str
    #: whether the lines of the Deferreds alone are shown
    is_outcome: bool = False
    command: Optional[str] = None


def is_script(text: str) -> bool:
    """Whether a block is a whole script."""
    try:
        read = json.loads(text)
    except ValueError:
        return False
    return isinstance(read, dict) and "events" in read


def shown_in(page: Path) -> Iterator[Shown]:
    """The outputs that a page shows."""
    if not page.is_file():
        return
    place = str(page.relative_to(TOP))
    blocks = _BLOCK.findall(page.read_text(encoding="utf-8"))
    words = ["--json"] if page.name == "JSON.md" else []
    for (language, text), (next_language, output) in zip(blocks, blocks[1:] + [("none", "")]):
        if language == "json" and next_language == "" and is_script(text):
            yield Shown(place, words, text, output)
        elif language == "" and text.startswith("$ "):
            command, _, printed = text[2:].partition("\n")
            yield Shown(place, [], "", printed, command=command)


def shown_examples() -> Iterator[Shown]:
    """What the table of examples shows."""
    page = TOP / "examples" / "README.md"
    for line in page.read_text(encoding="utf-8").splitlines():
        found = _EXAMPLE.fullmatch(line)
        if found is not None:
            name, cell = found.groups()
            lines = [text for text in re.findall(r"`(#.*?)`(?:<br>|$)", cell)]
            script = (TOP / "examples" / name).read_text(encoding="utf-8")
            yield Shown(f"examples/{name}", [], script, "".join(line + "\n" for line in lines), is_outcome=True)


def all_shown() -> Iterator[Shown]:
    """Each output that is shown."""
    for page in _PAGES:
        yield from shown_in(TOP / page)
    yield from shown_examples()


def printed(program: Path, shown: Shown) -> str:
    """What a run prints, of the part that is shown."""
    if shown.command is not None:
        ran = subprocess.run(["sh", "-c", shown.command], cwd=TOP, stdout=subprocess.PIPE, text=True, check=False)
        return ran.stdout
    output = run(program, shown.words, shown.script).output
    if shown.is_outcome:
        return "".join(line + "\n" for line in output.splitlines() if line.startswith("#"))
    return output


def has_orders(shown: Shown) -> bool:
    """Whether several orders are possible."""
    return '"callers"' in shown.script


def check_shown(program: Path, shown: Shown) -> Optional[str]:
    """Runs what is shown, until its output is the one that is shown where several are possible."""
    for _ in range(_MOST_RUNS if has_orders(shown) else 1):
        found = printed(program, shown)
        if found == shown.output:
            return None
    return f"{shown.place}: {first_difference(shown.output, found)}: {(shown.command or shown.script)[:200]}"


def main() -> int:
    program = program_here()
    return run_all(all_shown(), lambda shown: check_shown(program, shown), "documented outputs")


if __name__ == "__main__":
    run_command(main, "documented.py")
