"""Which texts of a program a recording shows: what looks like a secret is hidden, or every value, or nothing.

What is equal keeps the same name, so that it can be seen where a value comes from and goes to.
"""

from __future__ import annotations

import hashlib
import re
from typing import Any, Dict, List, Match, Optional, Pattern, Tuple

from .secrets import Span, is_harmless, names_secret, secrets_in, within

#: what `--redact` may be
ALL, SECRETS, NONE = CHOICES = ("all", "secrets", "none")

#: the shortest text with a secret in it, `pwd=x`, and the shortest such one of letters and digits alone, a key of AWS
_SHORTEST, _SHORTEST_PLAIN = 5, 20

#: of longer values a digest is kept
_LONG = 200

#: the shortest secret that is hidden where it is seen again as a whole text, where it is a part of one, and where it is a word there
_SHORTEST_AGAIN, _SHORTEST_PART, _SHORTEST_WORD = 3, 6, 8

#: of up to so many secrets one pattern is made; more are looked up by their first characters
_MOST_OF_PATTERN = 40

#: of how many texts it is kept how they are hidden
_MOST_KEPT = 20_000


class Hiding:
    """Hides texts of one run, in the order in which they come."""

    def __init__(self, choice: str = SECRETS) -> None:
        if choice not in CHOICES:
            raise ValueError(f"{choice} is none of {', '.join(CHOICES)}")
        self.hides_all = choice == ALL
        self.hides_secrets = choice == SECRETS
        self._values: Dict[Tuple[type, Any], str] = {}
        #: the secrets that were seen, and their names
        self.secrets: Dict[str, str] = {}
        #: those of the secrets that are hidden where they are a part of a text, too
        self.firm: Dict[str, str] = {}

    def value(self, value: Any) -> str:
        """The name of a value that is hidden: `value_1`, `value_2`, .."""
        key = value
        if isinstance(value, (str, bytes)) and len(value) > _LONG:
            data = value.encode("utf-8", "replace") if isinstance(value, str) else value
            key = len(data), hashlib.blake2b(data).digest()
        return self._values.setdefault((type(value), key), f"value_{len(self._values) + 1}")

    def text(self, text: str) -> str:
        """The text, with names in place of its secrets where these are hidden: `<secret_1>`, `<secret_2>`, ..

        A text that is itself a secret of an earlier one is hidden, too.
        """
        if not self.hides_secrets:
            return text
        length = len(text)
        if self.secrets and length >= _SHORTEST_AGAIN:
            known = self.secrets.get(text)
            if known is not None:
                return known
        if length < _SHORTEST or (length < _SHORTEST_PLAIN and text.isalnum()):
            return text
        found = secrets_in(text)
        return self._without(text, found) if found else text

    def _without(self, text: str, found: List[Span]) -> str:
        parts: List[str] = []
        last = 0
        for span in found:
            parts += (text[last : span.begin], self.secret(text[span.begin : span.end], span.is_prose))
            last = span.end
        return "".join((*parts, text[last:]))

    def secret(self, text: str, is_prose: bool = False) -> str:
        """The name of a secret, which is hidden where it is seen again. `is_prose`: it may be none, but what somebody reads."""
        name = self._known(text, is_prose)
        for part in within(text):
            if not is_harmless(part):
                self._known(part, False)
        return name

    def _known(self, text: str, is_prose: bool) -> str:
        name = self.secrets.setdefault(text, f"<secret_{len(self.secrets) + 1}>")
        least = _SHORTEST_WORD if text.isalpha() else _SHORTEST_PART
        if not is_prose and len(text) >= least:
            self.firm[text] = name
        return name

    def names_secret(self, text: object) -> bool:
        """Whether this is a name that says that what stands beside it is a secret, where these are hidden."""
        if not self.hides_secrets:
            return False
        if isinstance(text, bytes):
            text = bytes.decode(text, "latin-1")
        return isinstance(text, str) and names_secret(text)

    def afterwards(self) -> Optional[Again]:
        """What hides the secrets that are known by now in all texts of the run; None if there are none."""
        return Again(self.secrets, self.firm) if self.secrets else None


class Again:
    """Hides the secrets of a run where they are seen again, before they were known or after that."""

    def __init__(self, secrets: Dict[str, str], firm: Dict[str, str]) -> None:
        self._secrets = {text: name for text, name in secrets.items() if len(text) >= _SHORTEST_AGAIN}
        #: by their first characters and their length
        self._firm: Dict[str, Dict[int, Dict[str, str]]] = {}
        for text, name in firm.items():
            for form in {text, text.replace("\\", "\\\\").replace('"', '\\"'), repr(text)[1:-1]}:
                by_length = self._firm.setdefault(form[:_SHORTEST_PART], {})
                by_length.setdefault(len(form), {})[form] = name
        self._pattern: Optional[Pattern[str]] = None
        if 0 < len(self._firm) <= _MOST_OF_PATTERN:
            self._pattern = re.compile("|".join(map(re.escape, self._firm)))
        self._texts: Dict[str, str] = {}

    def text(self, text: str) -> str:
        """The text, with names in place of the secrets that are known."""
        if len(text) < _SHORTEST_AGAIN:
            return text
        known = self._secrets.get(text) or self._texts.get(text)
        if known is None:
            if len(self._texts) >= _MOST_KEPT:
                self._texts.clear()
            known = self._texts[text] = self._replaced(text)
        return known

    def part(self, text: str) -> str:
        """The text of a part of a line, as JSON, with names in place of the secrets that are known."""
        if text[:1] == '"' == text[-1:] and text[1:-1] in self._secrets:
            return f'"{self._secrets[text[1:-1]]}"'
        return self._replaced(text)

    def _replaced(self, text: str) -> str:
        parts: List[str] = []
        last = at = 0
        while True:
            at = self._next(text, at)
            if at < 0:
                break
            found = self._at(text, at)
            if found is None:
                at += 1
                continue
            secret, name = found
            parts += (text[last:at], name)
            last = at = at + len(secret)
        return "".join((*parts, text[last:])) if parts else text

    def _next(self, text: str, at: int) -> int:
        """From where on the next secret may begin."""
        if self._pattern is not None:
            found: Optional[Match[str]] = self._pattern.search(text, at)
            return found.start() if found is not None else -1
        firm = self._firm
        if firm:
            for place in range(at, len(text) - _SHORTEST_PART + 1):
                if text[place : place + _SHORTEST_PART] in firm:
                    return place
        return -1

    def _at(self, text: str, at: int) -> Optional[Tuple[str, str]]:
        """The longest secret that begins here, and its name; one that is a word or a number has to stand alone."""
        by_length = self._firm[text[at : at + _SHORTEST_PART]]
        for length in sorted(by_length, reverse=True):
            secret = text[at : at + length]
            name = by_length[length].get(secret)
            if name is not None and (not _is_word(secret) or _stands_alone(text, at, at + length)):
                return secret, name
        return None


def _is_word(text: str) -> bool:
    return text.isalpha() or text.isdecimal()


def _stands_alone(text: str, begin: int, end: int) -> bool:
    return not text[begin - 1 : begin].isalnum() and not text[end : end + 1].isalnum()
