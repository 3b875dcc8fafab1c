"""Where in a text there is what looks like a secret: beside a name that says so, as the credentials of a scheme, or by its shape.

A text is looked at once, from its beginning to its end, and each look beyond that is bounded.
"""

from __future__ import annotations

import base64
import binascii
import re
from typing import Iterator, List, Match, NamedTuple, Optional, Pattern, Tuple

#: names of secrets that may end a longer word, as `dbpassword`, and those that may not, as `compass`
_FREE = r"pass(?:word|wd|phrase|code)|secret|token|api[_-]?key|csrf|xsrf|sess(?:ion)?[_-]?id"
_OWN = r"pass|pwd|(?:private|access|secret|signing|account|encryption|master|shared)[_-]?key|authorization|credential|cookie2?"
#: these name a secret before `=` alone, since a colon may follow them in any text
_BEFORE_EQUALS = r"session|sid|auth|sig|signature|jwt"
#: the words of which one is in each name, in lower case
_NAMING = ("pass", "pwd", "secret", "token", "key", "auth", "cred", "cookie", "ses", "sid", "srf", "sig", "jwt")

#: what may follow in a name: `_hash`, `Hash`, `s`; it is bounded, since each name is looked for anew
_MORE = r"(?i:s)?(?:(?:[_.-]|(?=[A-Z]))[A-Za-z0-9]{0,30}(?:[_-][A-Za-z0-9]{1,30}){0,2})?(?![A-Za-z0-9_])"
#: where a word begins: after no letter, but after the end of a line as Python writes it
_BEGIN = r"(?:(?<![A-Za-z])|(?<=\\[nrt]))"
_CORE = (
    rf"(?:(?i:{_FREE})|(?:{_BEGIN}|(?<=[a-z])(?=[A-Z]))(?i:{_OWN}))"
    rf"{_MORE}|{_BEGIN}(?i:{_BEFORE_EQUALS})(?=\s?=)"
)
_NAME = re.compile(rf"-{{0,2}}[\w.-]{{0,40}}?(?:{_CORE})")

#: a name, and what stands between it and the secret: `=`, `": "`, `', '` of a pair, the space after an option
_HEAD = re.compile(
    rf"(?P<option>(?<![\w-])--[\w.-]{{0,40}}?)?(?P<name>{_CORE})"
    r"(?P<quote>\\{0,8}[\"'])?\s{0,8}(?P<separator>=>|:=|[=:]|,(?<=[\"'],)|(?(option)\s|(?!)))"
    r"(?:\s{0,8}(?=[bBuUrR]{0,2}\\{0,8}[\"'\[({])|[^\S\r\n]{0,8})"
)
#: what stands before the first text of a pair, up to the name in it, and how much of that is looked at
_FIRST = re.compile(r"(?:[(\[]\s{0,8}[bBuUrR]{0,2}\\{0,8}[\"']|--)[\w.-]{0,60}\Z")
_MOST_BEFORE = 90
#: of which one is in each
_SEPARATORS = ("=", ":", "--", "',", '",')
#: names of headers, after whose colon all up to the end of the line is secret
_HEADER = re.compile(r"(?i)authorization|cookie")

_OPENING = re.compile(r"[bBuUrR]{0,2}(?P<marks>\\{0,8})(?P<quote>[\"'])")
#: what follows a quoted text, but not a quote inside it: after backslashes that are written twice both look the same
_AFTER_QUOTED = re.compile(r"\W|\Z")
_LEAF = re.compile(r"""[bBuUrR]{0,2}"((?:[^"\\]|\\.)*)"|[bBuUrR]{0,2}'((?:[^'\\]|\\.)*)'|([^\s,\[\](){}"':]+)""")
_WORD = re.compile(r"[^\s&;,\"'<>]+")
#: up to the end of the line, which may be written as in Python, or of the text in which it is quoted
_END = re.compile(r"[\r\n]|\\[rn]|[\"'](?=[>)\]},]|$)")
_END_OF_PHRASE = re.compile(r"[\r\n,;]|\\[rn]|[\"'](?=[>)\]},]|$)")

#: what says of a value that there is none
_HARMLESS = re.compile(r"(?i)none|null|nil|true|false|yes|no|on|off|undefined|\.\.\.|\*+|\W{1,2}|\d{1,3}|<secret_\d+>|<redacted>")

_SCHEMES = r"bearer|basic|digest|token|negotiate|ntlm|api-?key|oauth|aws4-hmac-sha256|hawk"
_SCHEME = re.compile(rf"(?i)(?:{_SCHEMES})\s{{1,8}}")
_WITH_PARAMETERS = r"(?i:digest|oauth|aws4-hmac-sha256|hawk)"

#: what looks like a secret by itself: words of which one has to be there, in lower case, and where it is, the secret is the group
_SHAPES: Tuple[Tuple[Tuple[str, ...], Pattern[str]], ...] = (
    (_NAMING, _HEAD),
    (
        ("bearer ", "basic ", "digest ", "token ", "negotiate ", "ntlm ", "apikey ", "api-key ", "oauth "),
        re.compile(
            rf"\b(?i:{_SCHEMES})\s{{1,8}}(?=[A-Za-z0-9._~+/-]{{0,200}}(?:[0-9=]|(?<=\S)[A-Z]))([A-Za-z0-9._~+/-]{{8,}}={{0,2}})(?![\w=])"
        ),
    ),
    (("digest ", "oauth ", "aws4-", "hawk "), re.compile(rf"\b{_WITH_PARAMETERS}\s{{1,8}}(\w{{1,40}}=[^\r\n]+)")),
    (("://",), re.compile(r"://[^\s/:@\"'<>]{0,200}:([^\s/\"'<>]+)@")),
    (("private key",), re.compile(r"BEGIN [A-Z0-9 ]{0,30}PRIVATE KEY(?: BLOCK)?-----([^<-]*)")),
    (("eyj",), re.compile(r"\b(eyJ[A-Za-z0-9_-]{8,}\.[A-Za-z0-9_-]+\.[A-Za-z0-9_-]*)")),
    (("akia", "asia", "abia", "acca"), re.compile(r"\b((?:AKIA|ASIA|ABIA|ACCA)[0-9A-Z]{16})\b")),
    (("gh", "github_pat_"), re.compile(r"\b(gh[pousr]_[A-Za-z0-9]{20,}|github_pat_\w{20,})")),
    (("xox",), re.compile(r"\b(xox[a-z]-[A-Za-z0-9-]{10,})")),
    (("k_live_", "k_test_"), re.compile(r"\b([srp]k_(?:live|test)_[A-Za-z0-9]{8,})")),
    (("whsec_", "shpat_", "dop_v1_", "glpat-", "npm_", "pypi-", "ya29.", "hf_"), re.compile(
        r"\b((?:whsec_|shpat_|dop_v1_|glpat-|npm_|pypi-|ya29\.|hf_)[A-Za-z0-9_.-]{16,})"
    )),  # fmt: skip
    (("aiza",), re.compile(r"\b(AIza[A-Za-z0-9_-]{30,})")),
    (("sk-",), re.compile(r"\b(sk-[A-Za-z0-9_-]{20,})")),
    (("sg.",), re.compile(r"\b(SG\.[A-Za-z0-9_-]{8,}\.[A-Za-z0-9_-]{8,})")),
    (("hooks.slack.com/",), re.compile(r"hooks\.slack\.com/(?:services|workflows)/([A-Za-z0-9/_-]+)")),
)
#: each of these words, with what may be there where it is: by a mark that is in the word, and those without one
_WORDS = tuple((word, look) for words, look in _SHAPES for word in words)
_MARKS = " _-./"
_WITH = tuple(
    (mark, tuple(one for one in _WORDS if mark in one[0] and not any(other in one[0] for other in _MARKS[:place]))) for place, mark in enumerate(_MARKS)
)
_ALONE = tuple(one for one in _WORDS if not any(mark in one[0] for mark in _MARKS))


class Span(NamedTuple):
    """A secret in a text: where it begins and ends, and whether it is prose: words that may be none."""

    begin: int
    end: int
    is_prose: bool = False


def names_secret(text: str) -> bool:
    """Whether a text is a name that says that what stands beside it is a secret."""
    return len(text) <= 80 and _NAME.fullmatch(text) is not None


def is_harmless(text: str) -> bool:
    """Whether a text that stands where a secret would is known to be none: `None`, `true`, a number of up to three digits."""
    return not text or _HARMLESS.fullmatch(text) is not None


def secrets_in(text: str) -> List[Span]:
    """The secrets of a text, in order, none in another."""
    lower = text.lower()
    looks = [look for word, look in _ALONE if word in lower]
    for mark, words in _WITH:
        if mark in lower:
            looks += [look for word, look in words if word in lower]
    if not looks:
        return []
    found: List[Span] = []
    for look in dict.fromkeys(looks):
        found += _named(text) if look is _HEAD else [Span(*one.span(1)) for one in look.finditer(text)]
    return _apart([span for span in found if not is_harmless(text[span.begin : span.end])])


def within(secret: str) -> Iterator[str]:
    """What is secret in a secret of several parts, as the values of a cookie, or the password that Basic encodes."""
    credentials = secret[_after_scheme(secret, 0, len(secret)) :]
    if credentials != secret:
        yield credentials
        secret = credentials
    for part in re.finditer(r"[\w.-]{1,60}=\"?([^;,\"\s]+)", secret):
        yield part.group(1)
    if ":" not in secret and len(secret) % 4 == 0:
        try:
            decoded = base64.b64decode(secret, validate=True).decode("ascii")
        except (ValueError, binascii.Error):
            return
        if ":" in decoded and decoded.isprintable():
            yield decoded.partition(":")[2]


def _apart(found: List[Span]) -> List[Span]:
    """These, in order, without those that begin in another."""
    apart: List[Span] = []
    for span in sorted(found, key=lambda one: (one.begin, -one.end)):
        if not apart or span.begin >= apart[-1].end:
            apart.append(span)
        elif span.end > apart[-1].end:
            apart[-1] = Span(apart[-1].begin, span.end, False)
    return apart


def _named(text: str) -> Iterator[Span]:
    """What stands beside names of secrets."""
    if not any(mark in text for mark in _SEPARATORS):
        return
    at = 0
    while True:
        head = _HEAD.search(text, at)
        if head is None:
            return
        at = head.end()
        if head.group("separator") == "," and head.group("option") is None and not _is_first(text, head.start()):
            continue
        for span in _values(text, head):
            at = max(at, span.end)
            yield span


def _is_first(text: str, at: int) -> bool:
    """Whether a name that a comma follows is the first of a pair, and not a value, as in `"type": "password", "name": "a"`."""
    return _FIRST.search(text, max(0, at - _MOST_BEFORE), at) is not None


def _values(text: str, head: Match[str]) -> Iterator[Span]:
    """The value after a name, or those of the list that is there."""
    at = head.end()
    opening = _OPENING.match(text, at)
    if opening is not None:
        begin = opening.end()
        end = _end_of_quoted(text, begin, opening.group("quote"), len(opening.group("marks")))
        yield Span(_after_scheme(text, begin, end), end)
    elif text[at : at + 1] in ("[", "(", "{"):
        yield from _leaves(text, at)
    else:
        yield from _bare(text, head, at)


def _end_of_quoted(text: str, begin: int, quote: str, marks: int) -> int:
    """Where a quoted text ends, whose quotes have so many backslashes before them; at the end, if it isn't ended."""
    at = text.find(quote, begin)
    while at >= 0:
        start = at
        while start > begin and text[start - 1] == "\\":
            start -= 1
        count = at - start
        if count == marks or (marks == 0 and count % 2 == 0 and _AFTER_QUOTED.match(text, at + 1)):
            return start if marks else at
        at = text.find(quote, at + 1)
    return len(text)


def _leaves(text: str, at: int) -> Iterator[Span]:
    """What a list holds, up to its end."""
    depth = 0
    while at < len(text):
        if text[at] in "[({":
            depth, at = depth + 1, at + 1
        elif text[at] in "])}":
            depth, at = depth - 1, at + 1
            if depth == 0:
                return
        else:
            leaf = _LEAF.match(text, at)
            if leaf is None:
                at += 1
                continue
            begin, end = leaf.span(leaf.lastindex or 0)
            if end > begin:
                yield Span(begin, end)
            at = leaf.end()


def _bare(text: str, head: Match[str], at: int) -> Iterator[Span]:
    """A value without quotes: after a colon all up to the end of the phrase, or of the line in a header; else a word."""
    begin: int = at
    is_prose = False
    if head.group("separator") == ":":
        is_header = _HEADER.search(head.group("name")) is not None
        stop = (_END if is_header else _END_OF_PHRASE).search(text, at)
        end = stop.start() if stop is not None else len(text)
        begin = _after_scheme(text, at, end)
        end = begin + len(text[begin:end].rstrip())
        is_prose = not is_header and " " in text[begin:end] or text[begin:end].isalpha()
        if not is_header and begin == at and not text[at - 1].isspace():
            end = _end_of_word(text, at, end)
    else:
        end = _end_of_word(text, at, len(text))
        begin = _after_scheme(text, at, len(text)) if _SCHEME.match(text, at) and end < len(text) and text[end] == " " else at
        if begin > at:
            end = _end_of_word(text, begin, len(text))
    if end > begin:
        yield Span(begin, end, is_prose)


def _end_of_word(text: str, at: int, most: int) -> int:
    word = _WORD.match(text, at, most)
    if word is None:
        return at
    return at + len(word.group().rstrip(")]}"))


def _after_scheme(text: str, begin: int, end: int) -> int:
    """Where the credentials begin, if a scheme stands before them."""
    scheme: Optional[Match[str]] = _SCHEME.match(text, begin, end)
    return scheme.end() if scheme is not None and scheme.end() < end else begin
