"""A page as a file that asks for nothing: its style, what it shows, and its scripts, which a content security policy names by their hash."""

from __future__ import annotations

import base64
import hashlib
from pathlib import Path
from typing import Iterable, Sequence

from .texts import Html, escaped, joined

#: the address of a page that is the text of a frame, and how a content security policy allows it as the base of links
FRAME, FRAME_BASE = "about:srcdoc", "about:"

_FOLDER = Path(__file__).resolve().parent
#: the scripts of the page of a run, each of which uses those before it
SCRIPTS = (
    "data.js",
    "words.js",
    "lanes.js",
    "chart.js",
    "rows.js",
    "folds.js",
    "filter.js",
    "search.js",
    "focus.js",
    "pane.js",
    "outcomes.js",
    "story.js",
    "address.js",
    "keys.js",
)


def asset(name: str) -> str:
    """A file that a page holds: its style or a part of its script."""
    return (_FOLDER / name).read_text(encoding="utf-8")


def _short(*texts: str) -> str:
    """Scripts without indents and comments, which a page needs not."""
    lines = (line.strip() for text in texts for line in text.split("\n"))
    return "\n".join(line for line in lines if line and not line.startswith("//"))


def script_of(names: Sequence[str] = SCRIPTS) -> str:
    """The script of a page: its files are parts of one function."""
    return f'(function () {{\n"use strict";\n{_short(*map(asset, names))}\n}})();\n'


def hashes(*texts: str) -> str:
    """How a content security policy names styles or scripts."""
    digests = (hashlib.sha256(text.encode("utf-8")).digest() for text in texts)
    return " ".join(f"'sha256-{base64.b64encode(digest).decode('ascii')}'" for digest in digests)


def page_file(title: Html, allowed: str, style: str, body: Iterable[Html], head: str = "") -> Html:
    """A page as a file: its title, what its policy allows beside nothing, its style, and its body with the tag that begins it."""
    return joined(
        [
            Html('<!doctype html><html lang=en><head><meta charset=utf-8><meta name=viewport content="width=device-width">'),
            Html(f"<meta http-equiv=Content-Security-Policy content=\"default-src 'none'; {allowed}; form-action 'none'\">"),
            Html(f"{head}<style>{style}</style><title>{title}</title></head>"),
            *body,
            Html("</body></html>\n"),
        ]
    )


def written(title: str, pieces: Iterable[Html], in_frame: bool = False) -> Html:
    """The page of a run; in a frame of another page its links lead to places within the frame."""
    style, script = asset("style.css"), script_of()
    bases, base = (FRAME_BASE, f"<base href={FRAME}>") if in_frame else ("'none'", "")
    allowed = f"style-src {hashes(style)}; script-src {hashes(script)}; base-uri {bases}"
    return page_file(escaped(title), allowed, style, [Html("<body>"), *pieces, Html(f"<script>{script}</script>")], base)
