"""Each word in each place, made of `language.json`: what fits is accepted, and each argument that doesn't is refused with its number.

The forms say what each argument asks for. The program is asked whether it is so, one script a case, by `--why`.
"""

from __future__ import annotations

import json
import subprocess
import unittest
from concurrent.futures import ThreadPoolExecutor
from itertools import cycle
from typing import Any, Callable, Dict, Iterator, List, NamedTuple, Tuple

from deferreds.language import LANGUAGE, Form, Word
from deferreds.program import NotRun, built

Json = Any

_LAST = LANGUAGE.versions[-1]
_BODY = {"do": [["pause", "a"]], "end": ["plus", -2], "comment": "why"}

#: for each place a word with its arguments; the other words stand there in cases of their own
_SAMPLES: Dict[str, Json] = {
    "action": ["note", "n"],
    "statement": ["await", "a"],
    "end": ["pass"],
    "leaving": ["pass"],
    "work": ["sum", 1],
    "outcome": ["unfired"],
    "event": ["drain", 1],
}


class Case(NamedTuple):
    """A part of a script, and the refusal that it has to get: the name, or an empty text."""

    part: Json
    refusal: str


# ---- what fits

#: the names of what is declared, and those of a Deferred
_FOUND: Dict[str, List[Json]] = {
    "class": ["ValueError", "Mine"],
    "pool": ["io"],
    "body": ["f"],
    "cooperator": ["slow"],
    "deferred": ["a", "@"],
}

_FITTING: Dict[str, Callable[[Form], List[Json]]] = {
    "text": lambda form: ["no", ""],
    "value": lambda form: [[1, "x", None], True, -(2**63)],
    "boolean": lambda form: [True, False],
    "number": lambda form: [form["least"], form["most"]],
    "bound": lambda form: [None, form["least"], form["most"]],
    "new": lambda form: ["a", "b_1", "0-.:", "n" * LANGUAGE.limits["name"]],
    "found": lambda form: _FOUND.get(form["of"], ["a"]),
    "flag": lambda form: list(form["words"]),
    "object": lambda form: [_BODY, {}, "f"],
    "words": lambda form: [_SAMPLES[form["of"]]],
    "turns": lambda form: [*_fitting(form["of"]), [_first(form["of"])], _fitting(form["of"])],
    "array": lambda form: [[], _fitting(form["of"]), [_first(form["of"])] * 3],
    "pair": lambda form: [[_first(part) for part in form["parts"]]],
}


def _fitting(form: Form) -> List[Json]:
    """Several values that are as a place asks for."""
    return _FITTING[form["type"]](form)


def _first(form: Form) -> Json:
    return _fitting(form)[0]


# ---- what doesn't

_MISSHAPEN: Dict[str, Callable[[Form], List[Json]]] = {
    "text": lambda form: [1, None, [], {}],
    "value": lambda form: [1.5, {}, 2**63],
    "boolean": lambda form: [0, None, "true"],
    "number": lambda form: [form["least"] - 1, form["most"] + 1, "1", 1.5, None],
    "bound": lambda form: [form["least"] - 1, form["most"] + 1, "1", True],
    "new": lambda form: [1, None, ["a"]],
    "found": lambda form: [1, None, ["a"]],
    "flag": lambda form: ["never", 1, None],
    "object": lambda form: [[], None, {"do": {}}, {"more": 1}, {"comment": 1}, {"end": ["never"]}],
    "words": lambda form: [[], {}, ["never"], "pass", [["pass"]]],
    "turns": lambda form: [*_misshapen(form["of"]), *([_first(form["of"]), bad] for bad in _misshapen(form["of"]))],
    "array": lambda form: [{}, None, "a", *([_first(form["of"]), bad] for bad in _misshapen(form["of"]))],
    "pair": lambda form: [[], {}, [_first(part) for part in form["parts"]] * 2],
}


def _misshapen(form: Form) -> List[Json]:
    """Several values that have another shape than a place asks for."""
    return _MISSHAPEN[form["type"]](form)


#: why a name is refused that nothing of its kind has, where it has the form of one
_UNDECLARED: Dict[str, List[Case]] = {
    "pool": [Case("other", "BadPool")],
    "body": [Case("other", "BadBody")],
    "cooperator": [Case("other", "BadCooperator")],
}


def _misnamed(form: Form) -> List[Case]:
    """Names in another form, and classes, pools, bodies and Cooperators that aren't there."""
    kind, of = form["type"], form.get("of")
    long = "n" * (LANGUAGE.limits["name"] + 1)
    bad = [Case(name, "BadName") for name in ("", "a b", "é", "@@", "-a", long)]
    if kind == "new" or kind == "found" and of not in _FOUND:
        return [*bad, Case("@", "BadName")]
    if kind == "found":
        if of == "class":
            return [Case(name, "BadClass") for name in ("Zed", "valueError", "@")]
        return [*bad, *_UNDECLARED.get(of, [])]
    if kind in ("array", "turns"):
        listed = [Case([_first(of), case.part], case.refusal) for case in _misnamed(of)]
        return listed if kind == "array" else [*_misnamed(of), *listed]
    if kind == "object":
        return _misnamed_bodies()
    return []


def _misnamed_bodies() -> List[Case]:
    return [
        Case({"do": [["lock", "l"], ["lock", "@"]]}, "BadName"),
        Case({"end": ["wait", ""]}, "BadName"),
        Case({"end": ["raise", "Zed", ""]}, "BadClass"),
        Case({"do": [["errback", "a", "Zed", ""]]}, "BadClass"),
        *[Case(name, "BadName") for name in ("", "a b", "@", "-f")],
        Case("g", "BadBody"),
    ]


def _turned(word: Word, turn: Callable[[Form], List[Case]]) -> Iterator[Case]:
    """The word, with one of its arguments turned."""
    good = [_first(form) for form in word.arguments]
    for place, form in enumerate(word.arguments):
        for case in turn(form):
            yield Case([word.word, *good[:place], case.part, *good[place + 1 :]], case.refusal)


# ---- the cases of a word

def _as_fitting(form: Form) -> List[Case]:
    return [Case(part, "") for part in _fitting(form)]


def _as_misshapen(form: Form) -> List[Case]:
    return [Case(part, "BadShape") for part in _misshapen(form)]


def _counted(word: Word) -> Iterator[Case]:
    """The word with an argument too few, and with one too many."""
    good = [_first(form) for form in word.arguments]
    counts = {len(row.arguments) for row in LANGUAGE.words if row.word == word.word and row.where == word.where}
    if good and len(good) - 1 not in counts:
        yield Case([word.word, *good[:-1]], "BadShape")
    if len(good) + 1 not in counts:
        yield Case([word.word, *good, "a"], "BadShape")


def _cases(word: Word) -> Iterator[Case]:
    """All cases of a word in one of its forms."""
    yield Case([word.word, *map(_first, word.arguments)], "")
    yield from _turned(word, _as_fitting)
    yield from _turned(word, _as_misshapen)
    yield from _turned(word, _misnamed)
    yield from _counted(word)


# ---- where it stands

_FRAMES: Dict[str, List[Callable[[Json], Dict[str, Json]]]] = {
    "event": [lambda part: {"events": [part]}],
    "action": [
        lambda part: {"events": [["maybe", "m", {"do": [part]}]]},
        lambda part: {"events": [["inline", "i", [["do", part]]]]},
        lambda part: {"callers": [[], [{"do": [part]}]], "events": []},
    ],
    "statement": [
        lambda part: {"events": [["inline", "i", [part]]]},
        lambda part: {"events": [["inline", "i", [["try", [], ["TypeError"], [part]]]]]},
    ],
    "end": [lambda part: {"events": [["maybe", "m", {"end": part}]]}],
    "leaving": [lambda part: {"events": [["inline", "i", [["end", part]]]]}],
    "work": [lambda part: {"events": [["thread", "a", 0, part]]}],
}


def _script(frame: Callable[[Json], Dict[str, Json]], part: Json, version: int) -> str:
    pools = {"pools": [["io", 1]]} if version > 1 else {}
    later = {"bodies": [["f", {}]], "cooperators": [["slow", {"units": 1, "delay": 1}]]} if version > 2 else {}
    return json.dumps({"version": version, "classes": [["Mine", "ValueError"]], **pools, **later, **frame(part)})


def _with_cooperator(version: int, keys: Dict[str, Json]) -> str:
    """A script whose Cooperator has these keys, and those that it has to have."""
    settings = {**{key.key: _first(key.value) for key in LANGUAGE.keys_of("cooperator") if key.needed}, **keys}
    return json.dumps({"version": version, "cooperator": settings, "events": []})


class OfTheWords(unittest.TestCase):
    """The program's answers."""

    def setUp(self) -> None:
        try:
            self.program = str(built())
        except NotRun as why:
            self.skipTest(str(why))

    def _answer(self, script: str) -> Tuple[int, str]:
        ran = subprocess.run([self.program, "--why"], input=script, capture_output=True, text=True, check=False)
        return ran.returncode, ran.stderr.strip()

    def _expect(self, asked: List[Tuple[str, str]]) -> None:
        """Asks for each script, and compares with the refusal that it has to get."""
        with ThreadPoolExecutor(4) as pool:
            answers = list(pool.map(self._answer, (script for script, _ in asked)))
        for (script, refusal), (status, said) in zip(asked, answers):
            number = LANGUAGE.refusals.get(refusal)
            with self.subTest(script=script):
                self.assertEqual((status, said), (2, f"script refused: {number} {refusal}") if refusal else (0, ""))

    def test_each_word_is_read_as_its_row_says(self) -> None:
        asked = []
        for place, frames in _FRAMES.items():
            turns = cycle(frames)
            for word in LANGUAGE.at(place):
                asked += [(_script(next(turns), case.part, _LAST), case.refusal) for case in _cases(word)]
        self.assertGreater(len(asked), 20 * len(LANGUAGE.words))
        self._expect(asked)

    def test_no_version_has_a_later_word(self) -> None:
        later = [(place, word) for place in _FRAMES for word in LANGUAGE.at(place) if word.since > 1]
        self.assertTrue(later)
        self._expect([
            (_script(frame, [word.word, *map(_first, word.arguments)], word.since - 1), "BadShape")
            for place, word in later
            for frame in _FRAMES[place]
        ])

    def test_no_earlier_version_has_bodies_of_turns(self) -> None:
        loops = [(place, word, form) for place in _FRAMES for word in LANGUAGE.at(place) for form in word.arguments if form["type"] == "turns"]
        self.assertTrue(loops)
        self._expect([
            (_script(frame, [word.word, *map(_first, word.arguments[:-1]), [{}]], form["since"] - 1), "BadShape")
            for place, word, form in loops
            for frame in _FRAMES[place]
        ])

    def test_each_key_of_a_cooperator_is_read_as_its_row_says(self) -> None:
        asked = []
        for version in LANGUAGE.versions:
            for key in LANGUAGE.keys_of("cooperator"):
                fits = "" if key.since <= version else "BadShape"
                asked += [(_with_cooperator(version, {key.key: value}), fits) for value in _fitting(key.value)]
                asked += [(_with_cooperator(version, {key.key: value}), "BadShape") for value in _misshapen(key.value)]
        self._expect(asked)

    def test_no_word_stands_where_it_may_not(self) -> None:
        elsewhere = [
            (place, word)
            for place in _FRAMES
            for word in LANGUAGE.words
            if word.word not in {other.word for other in LANGUAGE.at(place)}
        ]
        self._expect([
            (_script(_FRAMES[place][0], [word.word, *map(_first, word.arguments)], _LAST), "BadShape")
            for place, word in elsewhere
        ])


if __name__ == "__main__":
    unittest.main()
