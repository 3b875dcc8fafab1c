"""Where a line of terms is broken: the lines that it becomes, as `rt fmt` lays them out.

A line goes on four columns right of what it belongs to, whatever brackets are open. A tuple, a record and the cases of an `elim` are on
one line, or each part is on lines of its own, two columns right of the line on which they open. So only the places of the breaks are free.
Each has a cost: the looser what it parts, and the fewer brackets are open, the lower. The cheapest choice is taken.
"""

from __future__ import annotations

from typing import Dict, List, NamedTuple, Optional, Set, Tuple

from tokens import Token, tokens_of

#: what a line costs, what each open bracket adds to a break, and what a line that is too long costs
_LINE = 6
_DEPTH = 20
_TOO_LONG = 10_000
#: what a break costs in an equation that isn't broken behind its `=`
_HEAD_LEFT = 20
#: what it costs that a tuple takes lines of its own, and that something follows its end
_TUPLE = 12
_TUPLE_INSIDE = 20

_STEP = 4
_OPENERS = {"(": ")", "{": "}", "[": "]"}
_SEPARATORS = {"(": ",", "{": ";", "[": "|"}

#: what a token costs as the first of a line
_LEADING = {
    "→": 2, "×": 3, "⊎": 3, "↔": 3, "then": 3, "else": 3, "∙": 10, "after_which": 10, "and_then": 10, "≡": 12, "≢": 12, "≤": 12,
    "<": 12, "&&": 12, "||": 12, "==": 13, "++": 13, "∷": 14, "+": 14, "-": 14, "*": 14, "/": 14, "%": 14, "∘": 14, "^": 18,
}
#: what a break behind a token costs
_BEHIND = {"in": 0, "=": 1, "↦": 1, ":": 24}
_BINDER = 6
_BODY = 12
_ARGUMENT = 26

_CLAUSES = ("ensures", "ensures*", "requires", "requires*", "ghost")
#: what no line ends with, and what none begins with
_NEVER_LAST = {
    "λ", "let", "record", "elim", "if", "¬", "pub", "abbrev", "unfoldable", "pattern", "axiom", "open", "use", "Type", "data", "module",
    "ruleset", "unfolding", "|", "as", "←", "at", "deriving", "codes", *_CLAUSES,
}
_NEVER_FIRST = {"=", ":", "where", "as", "at", ",", ";", ")", "]", "}", "[", "in", "↦", "←", "deriving", "use"}

_MARKS = {"pub", "abbrev", "unfoldable", "pattern", "axiom", "record", "data"}


class Group(NamedTuple):
    """Brackets whose parts may stand on lines of their own: the places of the closing one and of the separators."""

    close: int
    separators: List[int]


class Line(NamedTuple):
    """What is known of a line before it is broken."""

    text: str
    tokens: List[Token]
    #: how many brackets are open at each token
    depths: List[int]
    #: the groups by the place of the opening bracket, and the one in which each token lies, or -1
    groups: Dict[int, Group]
    inside: List[int]
    #: what a break before a token costs, for each at which one may stand
    costs: Dict[int, int]
    #: the token behind the `=` of an equation, or 0
    behind_equals: int


class Part(NamedTuple):
    """Tokens that are laid out together: from which to which, in which group, where they go on, and what stands round them."""

    low: int
    high: int
    group: int
    onward: int
    first: str = ""
    last: str = ""


class Choice(NamedTuple):
    """Lines, and what their breaks cost."""

    cost: int
    lines: Tuple[str, ...]


def broken(text: str, indent: int, onward: int, width: int) -> List[str]:
    """Returns the lines that a line becomes, which stands at `indent` and goes on at `onward`."""
    line = read(text, indent < onward)
    if line is None or not line.tokens:
        return [" " * indent + text]
    return list(_Layout(line, width).laid(Part(0, len(line.tokens), -1, onward), 0, indent).lines)


def read(text: str, is_start: bool) -> Optional[Line]:
    """Returns what is to be known of a line, or nothing for one that isn't to be broken."""
    tokens = tokens_of(text)
    words = [token.text for token in tokens]
    if "--" in words or "{-" in text or '"' in words or "do" in words[:-1] or "where" in words[:-1]:
        return None
    pairs = _pairs_of(words)
    equals = _equals_of(words) if is_start else 0
    solid = _solid(words, pairs)
    groups = _groups_of(words, pairs, solid, equals)
    inside = _inside(len(words), groups)
    depths = _depths_of(words)
    costs = _costs(text, tokens, solid, equals, is_start)
    return Line(text, tokens, depths, groups, inside, costs, equals + 1 if equals else 0)


def _pairs_of(words: List[str]) -> Dict[int, int]:
    """Returns the places of the closing brackets of a line, by those of their opening ones."""
    pairs: Dict[int, int] = {}
    opened: List[int] = []
    for place, word in enumerate(words):
        if word in _OPENERS:
            opened.append(place)
        elif opened and word == _OPENERS[words[opened[-1]]]:
            pairs[opened.pop()] = place
    return pairs


def _depths_of(words: List[str]) -> List[int]:
    """Returns how many brackets are open at each token, where those count that are closed in the line but opened above it."""
    depth, depths = 0, []
    for word in words:
        if word in _OPENERS.values():
            depth -= 1
        depths.append(depth)
        if word in _OPENERS:
            depth += 1
    least = min([0, *depths])
    return [each - least for each in depths]


def _clause_of(words: List[str]) -> int:
    """Returns the place of the brace in which a clause or a ghost item of an `.rt` file stands, or -1."""
    return words.index("{") if "{" in words and (words[0] in _CLAUSES or words[0] == "{") else -1


def _equals_of(words: List[str]) -> int:
    """Returns the place of the `=` of an equation, or 0."""
    if words[0] == "let":
        return 0
    depth = 0
    for place, word in enumerate(words):
        depth += (word in _OPENERS) - (word in _OPENERS.values())
        if depth == 0 and word in (":", "=", "λ", "let"):
            return place if word == "=" else 0
    return 0


def _is_record(words: List[str], pairs: Dict[int, int], place: int) -> bool:
    """Tells whether the brace at this place holds the fields of a record: `record {`, `record r {` or `record (f x) {`."""
    before = place - 1
    if before >= 0 and words[before] == ")":
        before = next((start for start, end in pairs.items() if end == before), before)
    return "record" in (words[max(0, place - 1)], words[max(0, before - 1)])


def _solid(words: List[str], pairs: Dict[int, int]) -> Set[int]:
    """Returns the tokens before which no line is broken, since they lie between a λ and its dot, in an implicit argument or a pattern."""
    clause = _clause_of(words)
    solid: Set[int] = set(range(1, clause + 1))
    for place, word in enumerate(words):
        if word == "λ":
            end = place + 1
            depth = 0
            while end < len(words) and not (depth == 0 and words[end].endswith(".")):
                depth += (words[end] in _OPENERS) - (words[end] in _OPENERS.values())
                end += 1
            solid.update(range(place + 1, end + 1))
        elif place in pairs and word == "{" and place != clause and not _is_record(words, pairs, place):
            solid.update(range(place + 1, pairs[place] + 1))
        elif place in pairs and place > 0 and words[place - 1] == "let":
            solid.update(range(place, pairs[place] + 1))
    return solid


def _groups_of(words: List[str], pairs: Dict[int, int], solid: Set[int], equals: int) -> Dict[int, Group]:
    """Returns the tuples, records and cases of a line: what `rt fmt` lays out part by part if it is broken."""
    groups: Dict[int, Group] = {}
    for start, end in pairs.items():
        word = words[start]
        separators = _separators(words, start, end)
        kept = start in solid or start < equals or end == start + 1
        if not kept and (separators if word == "(" else word == "[" or _is_record(words, pairs, start)):
            groups[start] = Group(end, separators)
    return groups


def _separators(words: List[str], start: int, end: int) -> List[int]:
    """Returns the places of the separators directly in these brackets."""
    depth, places = 0, []
    for place in range(start + 1, end):
        word = words[place]
        depth += (word in _OPENERS) - (word in _OPENERS.values())
        if depth == 0 and word == _SEPARATORS[words[start]]:
            places.append(place)
    return places


def _inside(count: int, groups: Dict[int, Group]) -> List[int]:
    """Returns for each token the opening bracket of the innermost group in which it lies, or -1."""
    inside = [-1] * count
    for start in sorted(groups):
        for place in range(start + 1, groups[start].close):
            inside[place] = start
    return inside


def _costs(text: str, tokens: List[Token], solid: Set[int], equals: int, is_start: bool) -> Dict[int, int]:
    """Returns what a break before a token costs, for each before which one may stand."""
    costs: Dict[int, int] = {}
    words = [token.text for token in tokens]
    first_arrow = words.index("→") if "→" in words else len(words)
    name = _name_of(words)
    for place in range(1, len(words)):
        before, word = words[place - 1], words[place]
        if tokens[place - 1].end == tokens[place].start or place in solid:
            continue
        if word in _LEADING and place + 1 == len(words):
            continue
        if word in _NEVER_FIRST or before in _NEVER_LAST or before in _LEADING or (word == "{" and before == "record"):
            continue
        if is_start and place <= name:
            continue
        if before in _BEHIND:
            costs[place] = _BEHIND[before]
        elif word in _LEADING:
            costs[place] = _LEADING[word]
        elif before.endswith(".") and place - 1 in solid:
            costs[place] = _BODY
        elif before in (")", "}") and word in ("(", "{") and place < first_arrow and is_start and not equals:
            costs[place] = _BINDER
        else:
            costs[place] = _ARGUMENT + (word != "(") + (place < equals) * _DEPTH
    for place, token in enumerate(tokens):
        if token.text == "record" and place + 2 < len(words) and words[place + 2] == "{":
            costs.pop(place + 2, None)
    return costs


def _name_of(words: List[str]) -> int:
    """Returns the place of the name that a declaration begins with, behind its marks."""
    place = 0
    while place + 1 < len(words) and words[place] in _MARKS:
        place += 1
    return place + (words[place + 1: place + 2] == ["{"])


class _Layout:
    """Chooses the breaks of a line, for a width."""

    def __init__(self, line: Line, width: int) -> None:
        self.line = line
        self.width = width
        self.known: Dict[Tuple[Part, int, int], Choice] = {}

    def laid(self, part: Part, start: int, at: int) -> Choice:
        """Returns the cheapest lines of a part from the token at `start` on, where a line begins at the column `at`."""
        key = (part, start, at)
        if key not in self.known:
            self.known[key] = self._cheapest(part, start, at)
        return self.known[key]

    def _cheapest(self, part: Part, start: int, at: int) -> Choice:
        """Returns the cheapest of the lines that a line from `start` on may begin. Where two cost the same, the longer one goes on."""
        best: Optional[Choice] = None
        for end in range(start + 1, part.high + 1):
            text = self._text(part, start, end, at)
            choice = self._ended(part, text, start, end, at)
            if choice is not None and (best is None or choice.cost <= best.cost):
                best = choice
            if len(text) > self.width and best is not None:
                break
        assert best is not None
        return best

    def _text(self, part: Part, start: int, end: int, at: int) -> str:
        """Returns the line of the tokens from `start` to `end`."""
        tokens = self.line.tokens
        text = self.line.text[tokens[start].start: tokens[end - 1].end]
        return " " * at + part.first * (start == part.low) + text + part.last * (end == part.high)

    def _ended(self, part: Part, text: str, start: int, end: int, at: int) -> Optional[Choice]:
        """Returns the cheapest lines where the line of this text ends before the token at `end`, if it may."""
        line = self.line
        over = max(0, len(text) - self.width)
        cost = _TOO_LONG + over if over else 0
        if end == part.high:
            return Choice(cost, (text,))
        opened = end - 1
        if opened in line.groups and line.inside[opened] == part.group and (start < opened or start == part.low):
            parts = self._parts(opened, at)
            rest = self.laid(part, line.groups[opened].close, at)
            cost += _LINE + self._group_cost(part, opened)
            return Choice(cost + parts.cost + rest.cost, (text, *parts.lines, *rest.lines))
        if end not in line.costs or line.inside[end] != part.group:
            return None
        cost += _LINE + line.costs[end] + self._depth_cost(part, end) + _HEAD_LEFT * (start < line.behind_equals < end)
        rest = self.laid(part, end, part.onward)
        return Choice(cost + rest.cost, (text, *rest.lines))

    def _depth_cost(self, part: Part, place: int) -> int:
        """Returns what the brackets cost that are open at a token, beside those that are open at each break."""
        line = self.line
        places = [each for each in line.costs if part.low < each < part.high and line.inside[each] == part.group]
        least = min((line.depths[each] for each in places), default=0)
        return _DEPTH * max(0, line.depths[place] - least)

    def _group_cost(self, part: Part, opened: int) -> int:
        """Returns what it costs that a group takes lines of its own, beside these."""
        words = [token.text for token in self.line.tokens[self.line.groups[opened].close + 1: part.high]]
        is_inside = any(word not in (")", "}", "]", ";", ",", "in") for word in words)
        is_tuple = self.line.tokens[opened].text == "("
        return self._depth_cost(part, opened) + _TUPLE_INSIDE * is_inside + _TUPLE * is_tuple

    def _parts(self, opened: int, at: int) -> Choice:
        """Returns the lines of the parts of a group that opens on a line at this column."""
        group = self.line.groups[opened]
        kind = _SEPARATORS[self.line.tokens[opened].text]
        first, last = ("| ", "") if kind == "|" else ("", kind)
        lows = [opened + 1, *(place + 1 for place in group.separators)]
        cost = 0
        lines: List[str] = []
        for low, high in zip(lows, [*group.separators, group.close]):
            if low < high:
                choice = self.laid(Part(low, high, opened, at + 2 + _STEP, first, last), low, at + 2)
                cost += _LINE + choice.cost
                lines.extend(choice.lines)
        return Choice(cost, tuple(lines))
