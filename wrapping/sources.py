"""Rattle's files with no line that is too long, as far as lines can be broken.

An `.antt` file is wrapped but for what it holds of texts. Of an `.rt` file comments, imports and what stands in the braces of contracts
and ghost items are: `rt fmt` lays out the rest.
"""

from __future__ import annotations

import re
from typing import Iterator, List, NamedTuple, Sequence, Set, Tuple

from breaking import broken
from comments import refilled
from tokens import comment_of, import_of, meaning_of, tokens_of

RUST_WIDTH = 100
TERM_WIDTH = 120

_CLAUSE = re.compile(r"\s*(ensures|requires|ghost)\b[^{]*\{")
_RUST_TEXT = re.compile(r"""//[^\n]*|'(?:\\.|[^\\'\n])'|r(#*)"(?:.|\n)*?"\1|"(?:\\(?:.|\n)|[^"\\])*\"""")
_STEP = 4


class Changed(Exception):
    """A file that wouldn't mean the same."""


class Block(NamedTuple):
    """What lines stand in: the column at which each part begins, whether a bracket ends it, and how far to the right its lines go."""

    column: int
    is_bracket: bool
    shift: int


def width_of(name: str) -> int:
    """Returns how long the lines of a file may be."""
    return RUST_WIDTH if name.endswith(".rt") else TERM_WIDTH


def wrapped(name: str, text: str, kept: Sequence[str] = ()) -> str:
    """Returns the text of a file with its long lines broken, but for those that hold one of the texts that are to be kept whole."""
    lines = text.split("\n")
    made: List[str] = []
    for before, after in _rust(lines) if name.endswith(".rt") else _terms(lines):
        made.extend(after if _keeps(before, after, kept) else before)
    result = "\n".join(made)
    if meaning_of(text) != meaning_of(result):
        raise Changed(f"{name}: its tokens would change")
    return result


def too_long(name: str, text: str) -> List[Tuple[int, int]]:
    """Returns the numbers and lengths of the lines that are too long, but for those that `rt fmt` keeps or a text makes long."""
    width = width_of(name)
    lines = text.split("\n")
    free = _texts_over(text, width) if name.endswith(".rt") else set()
    return [
        (number, len(line))
        for number, line in enumerate(lines, 1)
        if len(line) > width and number - 1 not in free and not line.lstrip().startswith("#")
    ]


def _keeps(before: List[str], after: List[str], kept: Sequence[str]) -> bool:
    """Tells whether each text to be kept that stands in one of the lines still stands in one."""
    return all(any(text in line for line in after) for text in kept if any(text in line for line in before))


def _terms(lines: List[str], column: int = 0, width: int = TERM_WIDTH) -> Iterator[Tuple[List[str], List[str]]]:
    """Yields pieces of lines of terms, whose parts begin at this column, each with what it becomes."""
    walk = _Walk(column, width)
    place = 0
    while place < len(lines):
        end = place + 1
        if comment_of(lines[place]):
            while end < len(lines) and comment_of(lines[end]):
                end += 1
            shift = " " * walk.shift_at(_indent_of(lines[place]))
            yield lines[place:end], refilled([shift + line for line in lines[place:end]], width)
        else:
            while end < len(lines) and _is_joined(lines[end - 1], lines[end], width):
                end += 1
            line = " ".join([lines[place], *(each.strip() for each in lines[place + 1: end])])
            yield lines[place:end], walk.wrapped(line, _next_indent(lines[end:]))
        place = end


def _is_joined(above: str, line: str, width: int) -> bool:
    """Tells whether `rt fmt` joins a long line to the one above: its parts take lines of their own, and its bracket would be left alone."""
    if len(line) <= width or not line.lstrip().startswith("(") or comment_of(above) or not above.strip():
        return False
    indent = _indent_of(line)
    is_part = tokens_of(above)[-1].text in ("(", "[", "{", ",", ";", "do", "where")
    return not is_part and broken(line.strip(), indent, indent, width)[0].strip() == "("


def _rust(lines: List[str]) -> Iterator[Tuple[List[str], List[str]]]:
    """Yields pieces of an `.rt` file, each with what it becomes."""
    in_texts = _lines_in_texts("\n".join(lines))
    place = 0
    while place < len(lines):
        end = _end_of_piece(lines, place, in_texts)
        piece = lines[place:end]
        yield piece, piece if place in in_texts else _rust_piece(piece)
        place = end


def _end_of_piece(lines: List[str], place: int, in_texts: Set[int]) -> int:
    """Returns where the comments or the clause end that begin at this line, or the line itself."""
    end = place + 1
    if place in in_texts:
        return end
    if comment_of(lines[place]):
        while end < len(lines) and comment_of(lines[end]) and end not in in_texts:
            end += 1
    elif _CLAUSE.match(lines[place]) and not import_of(lines[place]):
        while end < len(lines) and _is_open(lines[place:end]):
            end += 1
    return end


def _is_open(lines: List[str]) -> bool:
    """Tells whether more braces are opened than closed in lines."""
    words = [token.text for line in lines for token in tokens_of(line)]
    return words.count("{") > words.count("}")


def _rust_piece(piece: List[str]) -> List[str]:
    """Returns what lines of an `.rt` file become that belong together."""
    if comment_of(piece[0]):
        return refilled(piece, RUST_WIDTH)
    if import_of(piece[0]):
        return _split_import(piece[0], RUST_WIDTH)
    if not _CLAUSE.match(piece[0]) or _is_open(piece):
        return piece
    return [made for _, after in _terms(piece, _indent_of(piece[0]), RUST_WIDTH) for made in after]


class _Walk:
    """Goes through lines of terms from the top, and knows in what each stands."""

    def __init__(self, column: int, width: int) -> None:
        self.blocks = [Block(column, False, 0)]
        self.width = width

    def wrapped(self, line: str, next_indent: int) -> List[str]:
        """Returns what a line becomes; the one below it begins at this column."""
        words = [token.text for token in tokens_of(line)]
        if not words:
            return [line]
        indent = _indent_of(line)
        shift = self._leave(words[0], indent)
        made = self._made(line.strip(), indent, self.blocks[-1].column, shift, words[0])
        self._enter(words[-1], indent, next_indent, _indent_of(made[-1]) - indent)
        return made

    def shift_at(self, indent: int) -> int:
        """Returns how far to the right a comment goes that begins at this column."""
        blocks = [block for block in self.blocks if block.is_bracket or block.column <= indent]
        return blocks[-1].shift if blocks else 0

    def _made(self, text: str, indent: int, column: int, shift: int, first: str) -> List[str]:
        """Returns what the text of a line becomes."""
        line = " " * (indent + shift) + text
        onward = column + _STEP
        if import_of(line):
            return _split_import(line, self.width)
        if len(line) > self.width and (indent in (column, onward) or first in (")", "]", "}")):
            return broken(text, indent + shift, onward + shift, self.width)
        return [line]

    def _leave(self, word: str, indent: int) -> int:
        """Leaves the blocks that a line ends, and returns how far to the right it goes."""
        while len(self.blocks) > 1 and not self.blocks[-1].is_bracket and indent < self.blocks[-1].column:
            self.blocks.pop()
        if len(self.blocks) > 1 and self.blocks[-1].is_bracket and word in (")", "]", "}"):
            return self.blocks.pop().shift
        return self.blocks[-1].shift

    def _enter(self, word: str, indent: int, next_indent: int, shift: int) -> None:
        """Enters the block that a line begins with its last word, with lines that go so far to the right."""
        if word in ("(", "[", "{") and next_indent == indent + 2:
            self.blocks.append(Block(next_indent, True, shift))
        elif word in ("where", "do", "mutual") and next_indent > self.blocks[-1].column:
            self.blocks.append(Block(next_indent, False, 0))


def _split_import(line: str, width: int) -> List[str]:
    """Returns imports of the same names, of which none is too long unless one name makes it so."""
    brought = import_of(line)
    if brought is None or len(line) <= width:
        return [line]
    start = f"{brought.indent}{brought.head}.{{"
    end = f"}}{brought.end}"
    made: List[List[str]] = [[]]
    for name in brought.names:
        if made[-1] and len(start + ", ".join([*made[-1], name]) + end) > width:
            made.append([])
        made[-1].append(name)
    return [start + ", ".join(names) + end for names in made]


def _indent_of(line: str) -> int:
    """Returns the column at which a line begins."""
    return len(line) - len(line.lstrip())


def _next_indent(lines: Sequence[str]) -> int:
    """Returns the column at which the first of these lines begins that isn't empty."""
    return next((_indent_of(line) for line in lines if line.strip()), 0)


def _lines_in_texts(text: str) -> Set[int]:
    """Returns the places of the lines that begin in a text of Rust, or in which one begins that goes on."""
    places: Set[int] = set()
    for found in _RUST_TEXT.finditer(text):
        first = text.count("\n", 0, found.start())
        last = first + found.group().count("\n")
        if last > first:
            places.update(range(first, last + 1))
    return places


def _texts_over(text: str, width: int) -> Set[int]:
    """Returns the places of the lines that a text of Rust makes too long."""
    places = _lines_in_texts(text)
    for place, line in enumerate(text.split("\n")):
        texts = (found for found in _RUST_TEXT.finditer(line) if not found.group().startswith("//"))
        if any(found.end() > width for found in texts):
            places.add(place)
    return places
