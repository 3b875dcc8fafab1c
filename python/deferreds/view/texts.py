"""Texts of strangers made safe to show. Nothing reaches a page but by `escaped`, and nothing a terminal but by
`visible`.
"""

from __future__ import annotations

#: (typing, html and re take longer to import than a page of 20,000 lines to write)
TYPE_CHECKING = False
if TYPE_CHECKING:
    import re
    from typing import Iterable, NewType

    #: a piece of a page: what `escaped` gave, and what this package itself has put round that
    Html = NewType("Html", str)
else:
    Html = str

#: what isn't seen, what reorders what is seen, and what a terminal obeys: C0, DEL, C1, soft hyphen, combining joiner, fillers,
#: zero widths, bidirectional marks, line and paragraph separators, variation selectors, tags, surrogates, what is no character
_UNSEEN = (
    "[\x00-\x1f\x7f-\x9f\xad\u034f\u061c\u115f\u1160\u17b4\u17b5\u180b-\u180f\u200b-\u200f\u2028-\u202e\u2060-\u206f\u3164"
    "\ud800-\udfff\ufe00-\ufe0f\ufeff\uffa0\ufff0-\uffff\U0001bca0-\U0001bca3\U0001d173-\U0001d17a\U000e0000-\U000e0fff]"
)


def visible(text: str) -> str:
    """The text, in which each character that isn't seen is shown as an escape, as `\\u202e`."""
    if text.isascii() and text.isprintable():
        return text
    return unseen().sub(_escape, text)


def unseen() -> re.Pattern[str]:
    """What `visible` shows as escapes."""
    import re

    return re.compile(_UNSEEN)  # (which makes it once)


def _escape(found: re.Match[str]) -> str:
    code = ord(found[0])
    return f"\\u{code:04x}" if code <= 0xFFFF else f"\\U{code:08x}"


def escaped(text: str) -> Html:
    """The text as a piece of a page, which an element or an attribute in quotes may hold."""
    return framed(Html(visible(text)))


def framed(page: Html) -> Html:
    """A page as an attribute in quotes holds it, for a frame of another page."""
    safe = page.replace("&", "&amp;").replace("<", "&lt;").replace(">", "&gt;")
    return Html(safe.replace('"', "&quot;").replace("'", "&#x27;"))


def joined(pieces: Iterable[Html]) -> Html:
    """The pieces one after the other."""
    return Html("".join(pieces))


def shortened(text: str, most: int) -> str:
    """The text where it has `most` characters at most, and else its beginning and how many bytes the whole has in UTF-8."""
    if len(text) <= most:
        return text
    return f"{text[:most]}… ({len(text.encode('utf-8', 'surrogatepass'))} bytes)"


def clipped(text: str, most: int) -> str:
    """The text, cut to `most` characters with an ellipsis as the last."""
    return text if len(text) <= most else text[: most - 1] + "…"
