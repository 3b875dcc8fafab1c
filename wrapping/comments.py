"""Comments whose lines are too long: what doesn't fit goes on in the next line of its paragraph."""

from __future__ import annotations

import re
from typing import List, NamedTuple, Optional

from tokens import comment_of

#: what begins a line that isn't part of the paragraph above it, and one that isn't to be broken
_STARTS = re.compile(r"([-*|#>]|\d+\.|```| )")
_WHOLE = re.compile(r"([-*|#>]|```| )")


class Comment(NamedTuple):
    """A line that is a comment: what stands before its text, and the text."""

    prefix: str
    text: str


def read_comment(line: str) -> Optional[Comment]:
    """Returns the parts of a line that is a comment."""
    found = comment_of(line)
    if found is None:
        return None
    indent = line[: len(line) - len(line.lstrip())]
    return Comment(f"{indent}{found[0]} ", found[1].rstrip())


def refilled(lines: List[str], width: int) -> List[str]:
    """Returns comments of one run, with no line that is too long, if its words allow that."""
    made: List[str] = []
    carried = ""
    is_fenced = False
    for place, line in enumerate(lines):
        comment = read_comment(line)
        if comment is None:
            raise ValueError(f"no comment: {line}")
        is_fenced ^= comment.text.startswith("```")
        is_whole = is_fenced or _WHOLE.match(comment.text) is not None
        if len(line) <= width and not carried or is_whole:
            made.append(line)
            continue
        *whole, rest = _filled(comment.prefix, f"{carried} {comment.text}".strip(), width)
        made.extend(whole)
        if whole and _goes_on(comment, lines[place + 1: place + 2]):
            carried = rest[len(comment.prefix):]
        else:
            carried = ""
            made.append(rest)
    return made


def _filled(prefix: str, text: str, width: int) -> List[str]:
    """Returns the lines of this text."""
    lines = [prefix.rstrip()]
    for word in text.split():
        if len(lines[-1]) + 1 + len(word) <= width or lines[-1] == prefix.rstrip():
            lines[-1] += f" {word}"
        else:
            lines.append(f"{prefix}{word}")
    return lines


def _goes_on(comment: Comment, after: List[str]) -> bool:
    """Tells whether the paragraph of a comment goes on in the line after it."""
    following = read_comment(after[0]) if after else None
    return (
        following is not None
        and following.prefix == comment.prefix
        and following.text != ""
        and _STARTS.match(following.text) is None
    )
