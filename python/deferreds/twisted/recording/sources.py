"""The lines of the program's files around the places of a run, which are kept with it: a file may be another one when the run is looked at.

What looks like a secret is hidden in texts and comments, as in the values of the run. Names and code stay.
"""

from __future__ import annotations

import io
import os
import stat
import tokenize
from importlib.util import decode_source
from typing import Dict, Iterable, Iterator, List, NamedTuple, Optional, Tuple

from .hiding import Again, Hiding
from .secrets import Span, secrets_in

#: how many lines are kept before and after a place, and of all files together; and how many characters of a line
AROUND, MOST_LINES, LONGEST = 3, 2_000, 200
#: how many bytes are read of all files
MOST_BYTES = 1_000_000

#: the tokens that hold what somebody wrote, and no names of the program (those of f-strings are there in later Pythons)
_WRITTEN = frozenset(
    {tokenize.STRING, tokenize.COMMENT, tokenize.NUMBER, *(getattr(tokenize, name) for name in ("FSTRING_MIDDLE",) if hasattr(tokenize, name))}
)


class Kept(NamedTuple):
    """Lines of a file that follow each other, and the number of the first one."""

    first: int
    lines: List[str]


class Sources:
    """Reads the lines around places, as far as there is room for them."""

    def __init__(self, hiding: Hiding, began: float) -> None:
        """`began`: files that were changed after this time aren't read: they may have other lines than the program that ran."""
        self._hiding = hiding
        self._again: Optional[Again] = hiding.afterwards()
        self._began = began
        self._bytes = MOST_BYTES
        self._lines = MOST_LINES

    def around(self, path: str, lines: Iterable[int]) -> List[Kept]:
        """The lines around these of a file, in order; none if it can't be read, or was changed, or all values are hidden."""
        text = None if self._hiding.hides_all else self._read(path)
        if text is None:
            return []
        every = text.split("\n")
        wanted = list(_ranges(lines, len(every)))
        shown = self._shown(text, every, wanted)
        found: List[Kept] = []
        for begin, end in wanted if shown is not None else []:
            if end - begin > self._lines:
                break
            self._lines -= end - begin
            found.append(Kept(begin + 1, [_shortened(line) for line in shown[begin:end]] if shown is not None else []))
        return found

    def _read(self, path: str) -> Optional[str]:
        """The text of a file as Python reads it, if it is one that is as it was."""
        try:
            about = os.stat(path)
            if not stat.S_ISREG(about.st_mode) or about.st_mtime > self._began or about.st_size > self._bytes:
                return None
            with open(path, "rb") as file:
                text = decode_source(file.read(self._bytes))
        except (OSError, ValueError, SyntaxError):
            return None
        self._bytes -= about.st_size
        return text

    def _shown(self, text: str, every: List[str], wanted: List[Tuple[int, int]]) -> Optional[List[str]]:
        """The lines without secrets; None if Python can't find the texts among them."""
        shown = every
        if self._hiding.hides_secrets:
            spans = secrets_in(_with_single_quotes(text))
            if spans:
                hidden = self._without(text, spans)
                if hidden is None:
                    return None
                shown = hidden.split("\n")
        if self._again is not None:
            shown = list(shown)
            for begin, end in wanted:
                shown[begin:end] = map(self._again.text, shown[begin:end])
        return shown

    def _without(self, text: str, spans: List[Span]) -> Optional[str]:
        """The text with names in place of what is a secret in its texts and comments. It has as many lines as before."""
        try:
            written = list(_written(text))
        except (tokenize.TokenError, SyntaxError):
            return None
        parts: List[str] = []
        last = 0
        for span in spans:
            for begin, end in written:
                begin, end = max(begin, span.begin), min(end, span.end)
                if begin < end and begin >= last:
                    secret = text[begin:end]
                    parts += (text[last:begin], self._hiding.secret(secret, span.is_prose), "\n" * secret.count("\n"))
                    last = end
        return "".join((*parts, text[last:]))


def _ranges(lines: Iterable[int], count: int) -> Iterator[Tuple[int, int]]:
    """From which line on, counted from 0, and before which one what is around these lines goes, each once, of a file of so many."""
    begin = end = 0
    for line in sorted({line for line in lines if 0 < line <= count}):
        if end and line - 1 - AROUND <= end:
            end = min(count, line + AROUND)
            continue
        if end:
            yield begin, end
        begin, end = max(0, line - 1 - AROUND), min(count, line + AROUND)
    if end:
        yield begin, end


def _with_single_quotes(text: str) -> str:
    """The text with a single quote in the place of three, as long as before: what looks for secrets knows no other quotes."""
    return text.replace('"""', '  "').replace("'''", "  '")


def _written(text: str) -> Iterator[Tuple[int, int]]:
    """Where texts, comments and numbers are in a source."""
    starts = [0]
    for line in text.split("\n"):
        starts.append(starts[-1] + len(line) + 1)
    for token in tokenize.generate_tokens(io.StringIO(text).readline):
        if token.type in _WRITTEN:
            marks = len(token.string) - len(token.string.rstrip("\"'")) if token.type == tokenize.STRING else 0
            yield starts[token.start[0] - 1] + token.start[1], starts[token.end[0] - 1] + token.end[1] - min(marks, 3)


def _shortened(line: str) -> str:
    return line if len(line) <= LONGEST else f"{line[: LONGEST - 3]}..."


def sources_of(places: Dict[str, List[int]], hiding: Hiding, began: float) -> List[Tuple[str, Kept]]:
    """The lines around these places of files, by the paths of the files, with that path."""
    sources = Sources(hiding, began)
    return [(path, kept) for path, lines in places.items() for kept in sources.around(path, lines)]
