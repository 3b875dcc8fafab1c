"""The tokens of Rattle's files, and whether two texts have the same ones.

`rt fmt` adds a comma or a semicolon behind the last part of what it lays out on lines of their own, and a bar before the first case. An
import over several lines means the same as one. So texts are the same if they are, but for these.
"""

from __future__ import annotations

import re
from typing import Iterator, List, NamedTuple, Optional, Tuple

_TOKEN = re.compile(r'"(?:\\.|[^"\\])*"|[(){},;]|[^\s(){},;"]+|"')
_COMMENT = re.compile(r"\s*(--|///|//!|//)(?: |$)(.*)")
_IMPORT = re.compile(r"(\s*)((?:(?:unfoldable|pub|ghost) )*use [\w.]+)\.\{(.*)\}(;?)")
_END = "\n"
_CLOSERS = {",": (")",), ";": ("}",)}


class Token(NamedTuple):
    """A word, a text or a bracket of a line, and the columns at which it begins and ends."""

    text: str
    start: int
    end: int


class Import(NamedTuple):
    """A line that brings names of a module in: what stands before its braces, the names, and its end."""

    indent: str
    head: str
    names: List[str]
    end: str


def tokens_of(line: str) -> List[Token]:
    """Returns the tokens of a line."""
    return [Token(found.group(), found.start(), found.end()) for found in _TOKEN.finditer(line)]


def comment_of(line: str) -> Optional[Tuple[str, str]]:
    """Returns the mark and the text of a line that is a comment."""
    found = _COMMENT.fullmatch(line)
    return (found.group(1), found.group(2)) if found else None


def import_of(line: str) -> Optional[Import]:
    """Returns the parts of a line that is an import by names."""
    found = _IMPORT.fullmatch(line)
    if found is None or "{" in found.group(3):
        return None
    names = [name.strip() for name in found.group(3).split(",")]
    return Import(found.group(1), found.group(2), [name for name in names if name], found.group(4))


def meaning_of(text: str) -> List[str]:
    """Returns the tokens of a text, as they are compared."""
    return list(_without_free(list(_words_of(text))))


def _words_of(text: str) -> Iterator[str]:
    """Yields the tokens of a text: each name of an import with its module, and the mark of a comment and its end once."""
    mark_before = None
    for line in text.split("\n"):
        comment, brought = comment_of(line), import_of(line)
        mark = comment[0] if comment else None
        if mark != mark_before:
            yield mark or _END
        mark_before = mark
        if comment is not None:
            yield from comment[1].split()
        elif brought is not None:
            yield from (f"{brought.head}.{{{name}}}{brought.end}" for name in brought.names)
        else:
            yield from (token.text for token in tokens_of(line))


def _without_free(words: List[str]) -> Iterator[str]:
    """Yields words without the separators that `rt fmt` adds before a closing bracket, and the bar behind an opening one."""
    for place, word in enumerate(words):
        if word in _CLOSERS and place + 1 < len(words) and words[place + 1] in _CLOSERS[word]:
            continue
        if word == "|" and place > 0 and words[place - 1] == "[":
            continue
        yield word
