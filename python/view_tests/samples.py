"""Runs of different kinds, for tests of the page."""

from __future__ import annotations

import json
from pathlib import Path
from typing import Iterator, List, NamedTuple

from deferreds.twisted.rows import ANY_LINES, read_rows, row_files

from deferreds.checkout import TOP
from deferreds.view.run import Run, run_of, run_of_journal
from deferreds.view.scripts import Script
from deferreds.view.sources import Source

from .stand_in import told

#: texts that would do harm if they became markup, style, script, an address or a change of direction
HOSTILE = (
    "<script>window.harm = 1</script>",
    "</script><script>window.harm = 1</script>",
    "</style><style>*{display:none}</style>",
    "<img src=x onerror=window.harm=1>",
    "<svg onload=window.harm=1>",
    "<a href='javascript:window.harm=1'>line 1</a> #0",
    '"><b onmouseover=window.harm=1>',
    "' onclick='window.harm=1",
    "`x` {{y}} ${window.harm = 1} &lt;b&gt; &#60;b&#62; &amp;",
    "]]> <!-- <iframe src=http://127.0.0.1:1/> --> <?xml?>",
    "\u202egnihton era sthgir\u202c \u2066x\u2069 \u200b\u200d\ufeff\u00ad",
    "\x1b[31m\u009b31m\x07\u0085\u2028\u2029\x1c",
    'fail ValueError "" line 1 #0 event 0',
    "שלום עולם 你好 🙂 ﷽",
    "x" * 10_000,
    "<b>" * 3_000,
)


class Text(NamedTuple):
    """What a run is read from, with its text."""

    source: Source
    text: str

    def run(self) -> Run:
        """The run."""
        return run_of(self.source, self.text)


class Sample(NamedTuple):
    """A run, with the name of its kind."""

    name: str
    run: Run


def _json(text: str) -> str:
    return json.dumps(text, ensure_ascii=False)


def hostile() -> Run:
    """A run in which each hostile text stands wherever a text may: in notes, values, failures, names of classes, the title."""
    return hostile_text().run()


def hostile_text() -> Text:
    """What that run is read from."""
    lines: List[str] = []
    ends: List[str] = []
    events: List[object] = []
    begins: List[int] = []
    for number, text in enumerate(HOSTILE):
        begins.append(len(lines))
        events.append(["note", text])
        lines += [
            f"new #{2 * number} d{number}",
            f"note {_json(text)}",
            f"fire #{2 * number} ok {_json(text)}",
        ]
        begins.append(len(lines))
        events.append(["errback", text, text, text])
        lines += [
            f"new #{2 * number + 1} e{number}",
            f"fire #{2 * number + 1} fail ValueError {_json(text)}",
            f"unhandled ValueError {_json(text)}",
        ]
        ends += [
            f"#{2 * number} d{number} ok {_json(text)}",
            f"#{2 * number + 1} e{number} fail ValueError {_json(text)}",
        ]
    output = "".join(f"{line}\n" for line in lines + ends)
    left: List[dict[str, object]] = [
        {"kind": "failure", "deferred": {"name": "e", "number": 2 * number + 1}}
        for number in range(len(HOSTILE))
    ]
    left += [
        {"kind": "unhandled", "entry": row}
        for row, line in enumerate(lines)
        if line.startswith("unhandled")
    ]
    return Text(Source("".join(HOSTILE[:8]), False, json.dumps({"events": events})), told(output, begins, left))


def of_row(file: str, name: str) -> Run:
    """The run of a row of the repository."""
    row = next(row for row in read_rows(TOP / "crates" / "test_rows" / "data" / file) if row.name == name)
    return run_of_journal(row.output, name, Script(json.loads(row.script)), row.status == 1)


def recorded() -> Run:
    """A Twisted program that was recorded."""
    path = TOP / "examples" / "python" / "connection_pool.journal"
    return run_of_journal(path.read_text(encoding="utf-8"), path.name)


def told_by_the_program() -> Iterator[Sample]:
    """Examples, as `./deferreds --json` has told them."""
    for path in sorted((Path(__file__).resolve().parent / "data").glob("*.jsonl")):
        script = json.loads((TOP / "examples" / f"{path.stem}.json").read_text(encoding="utf-8"))
        yield Sample(path.stem, Text(Source(f"{path.stem}.json", False, json.dumps(script)), path.read_text(encoding="utf-8")).run())


def rows() -> Iterator[Sample]:
    """Runs of the repository's rows, some of each topic, and those that stop at their limit."""
    for path in row_files():
        found = [
            row
            for row in read_rows(path)
            if row.status < 2 and f"{ANY_LINES}\n" not in row.output and "\n" in row.output
        ]
        for row in found[:: max(1, len(found) // 3)]:
            yield Sample(
                f"{path.name}: {row.name}",
                run_of_journal(row.output, row.name, Script(), row.status == 1),
            )


def long(lines: int) -> Run:
    """A run of some lines, with lanes that begin and end all along, some that stay, calls and waits."""
    return long_text(lines).run()


def long_text(lines: int) -> Text:
    """What that run is read from."""
    written = ["lock l", "new #0 first", "new #1 second"]
    ends = {0: "unfired", 1: "unfired"}
    number = 2
    while len(written) < lines:
        due = len(written)
        written += [
            f"new #{number} request_{number}",
            f"later call answer {due + 7}",
            f"add #{number}",
            f"new #{number + 1} -",
            f"add #{number + 1}",
            f"fire #{number + 1} ok null",
            f"run #{number + 1}",
            f"wait #{number + 1} #{number}",
            f"advance {due + 7}",
            "call answer",
            f'fire #{number} ok {{"status": 200, "text": "the answer to request {number}"}}'.replace(
                '{"', '["'
            )
            .replace('":', '",')
            .replace("}", "]"),
            f"run #{number}",
            f'note "request {number} is answered"',
            f'set #{number} fail ValueError "request {number} can\'t be read"',
            f'hand #{number} #{number + 1} fail ValueError "request {number} can\'t be read"',
        ]
        ends[number], ends[number + 1] = "ok null", f'fail ValueError "request {number} can\'t be read"'
        number += 2
    outcomes = [f"#{one} {'-' if one % 2 and one > 1 else 'x'} {end}" for one, end in ends.items()]
    return Text(Source(f"{lines} lines", True), "".join(f"{line}\n" for line in written + outcomes))


def wide(lines: int) -> Run:
    """A run whose Deferreds are all made first and fired last, so that all lanes go through it."""
    count = lines // 2
    written = [f"new #{number} d{number}" for number in range(count)]
    written += [f"fire #{number} ok {number}" for number in range(count)]
    outcomes = [f"#{number} d{number} ok {number}" for number in range(count)]
    return run_of_journal("".join(f"{line}\n" for line in written + outcomes), f"{count} lanes")
