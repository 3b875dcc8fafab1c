"""The tables of the pages, held against `language.json`: a row that differs is named."""

from __future__ import annotations

import re
import unittest
from typing import Dict, List, Set

from deferreds.checkout import TOP
from deferreds.language import LANGUAGE
from deferreds.twisted import grammar
from deferreds.view.lines import WORDS

_BLOCK = re.compile(r"^```.*?^```$", re.DOTALL | re.MULTILINE)
_CODE = re.compile(r"`([^`]+)`")

#: how the table of lines shows a part
_SHOWN: Dict[str, str] = {
    "deferred": "#[A-Z]",
    "fired": "#[A-Z]",
    "new name": "NAME",
    "name": "NAME",
    "object": "[A-Z]|NAME",
    "job": "K",
    "number": "[A-Z]",
    "bound": "SIZE|BACKLOG",
    "due": "T",
    "time": "T",
    "outcome": "OUTCOME",
    "value": "JSON",
    "failure": 'CLASS "MESSAGE"',
    "text": "TEXT",
    "state": "STATE",
    "expected": "expected WANTED",
}


def _page(name: str) -> str:
    """A page without its blocks."""
    return _BLOCK.sub("", (TOP / name).read_text(encoding="utf-8"))


def _rows(text: str) -> List[List[str]]:
    """The cells of the rows of all tables, without heads."""
    rows = [line.strip("|").split(" | ") for line in text.splitlines() if line.startswith("|")]
    return [[cell.strip() for cell in row] for row in rows if not row[0].startswith("---")]


def _section(page: str, title: str) -> str:
    """What a page says under a title."""
    return re.split(r"^## ", page.partition(f"\n## {title}\n")[2], maxsplit=1, flags=re.MULTILINE)[0]


def _nameless(forms: Set[str]) -> Set[str]:
    """The forms, with the same letter for each object: a page may tell two of them apart."""
    return {re.sub(r"\b[A-Z]\b", "X", form) for form in forms}


class OfTheLanguage(unittest.TestCase):
    """docs/SCRIPT.md."""

    page = _page("docs/SCRIPT.md")

    def test_the_forms_of_all_words_are_shown(self) -> None:
        shown = {code for code in _CODE.findall(self.page) if re.fullmatch(r'\["\w+".*\]', code)}
        self.assertEqual(_nameless(shown), _nameless({row.text for row in LANGUAGE.words}))

    def test_a_form_shows_as_many_arguments_as_it_has(self) -> None:
        for row in LANGUAGE.words:
            parts = re.sub(r"\[[^\[\]]*\]", "x", row.text[1:-1]).split(",")
            self.assertEqual(parts[0], f'"{row.word}"')
            self.assertEqual(len(parts) - 1, len(row.arguments), row.text)

    def test_the_lines_of_the_journal(self) -> None:
        cells = [row[0] for row in _rows(_section(self.page, "What is printed"))[1:]]
        shown = [code for cell in cells for code in _CODE.findall(cell)]
        for line in LANGUAGE.lines:
            parts = "".join(f" (?:{_SHOWN[part['type']]})" for part in line.parts)
            fitting = [code for code in shown if re.fullmatch(line.line + parts, code)]
            self.assertEqual(len(fitting), 1, f"the row of {line.line}")
            shown.remove(fitting[0])
        self.assertEqual(shown, [])

    def test_the_keys_of_a_script(self) -> None:
        told = {_CODE.findall(row[0])[0]: row for row in _rows(_section(self.page, "Keys")) if row[0][0] == "`"}
        told = {key: row for key, row in told.items() if not key.startswith("[")}
        keys = LANGUAGE.keys_of("script")
        self.assertEqual(set(told), {key.key for key in keys})
        for key in keys:
            self.assertEqual(told[key.key][2] == "it has to be there", key.needed, key.key)
            told_since = re.match(r"from version (\d+) on: ", told[key.key][1])
            self.assertEqual(int(told_since[1]) if told_since else 1, key.since, key.key)

    def test_the_classes(self) -> None:
        told = {
            child: None if parent == "(none)" else parent
            for parent, children in _rows(_section(self.page, "Classes"))[1:]
            for child in children.split(", ")
        }
        self.assertEqual(told, LANGUAGE.classes)

    def test_the_refusals(self) -> None:
        rows = _rows(_section(self.page, "Refusals"))
        told = {row[1]: int(row[0]) for row in rows if row[0].isdigit()}
        self.assertEqual(told, LANGUAGE.refusals)


class OfRuns(unittest.TestCase):
    """docs/JSON.md: which lines have what."""

    page = _page("docs/JSON.md")

    def _kinds(self, key: str) -> Set[str]:
        """The kinds of lines that the row of a key of `entry` names."""
        table = _rows(_section(self.page, "`entry`").partition("What lies in what")[0])
        rows = {_CODE.findall(row[0])[0]: row[1] for row in table[1:]}
        return set(_CODE.findall(rows[key]))

    def _with(self, *types: str) -> Set[str]:
        """The lines that have a part of these types."""
        return {line.line for line in LANGUAGE.lines if any(part["type"] in types for part in line.parts)}

    def test_lines_that_show_a_value(self) -> None:
        shown = self._with("outcome", "value", "text", "failure", "state")
        self.assertEqual(self._kinds("value") - {"null"}, shown)

    def test_lines_of_two_words(self) -> None:
        shown = self._kinds("kind") - {"later"}
        self.assertEqual(shown, {line.line for line in LANGUAGE.lines if " " in line.line})
        self.assertEqual(shown | self._kinds("due") - {"later ..", "null"}, self._with("due"))

    def test_lines_in_which_others_lie(self) -> None:
        self.assertEqual(
            self._kinds("section") - {"null"}, LANGUAGE.lines_that("due", "turn", "tick", "step")
        )
        self.assertEqual(self._kinds("ends") - {"null", "run"}, LANGUAGE.lines_that("ends"))

    def test_lines_that_may_be_of_several_objects(self) -> None:
        told = self.page.partition("the entry may be of any of them: ")[2].partition(".")[0]
        made = {part["of"] for line in LANGUAGE.lines for part in line.parts if part.get("which") == "made"}
        several = {
            line.line
            for line in LANGUAGE.lines
            if any(part.get("which") == "any" and part["of"] in made for part in line.parts)
        }
        self.assertEqual(set(_CODE.findall(told)), several)


class OfTheProgram(unittest.TestCase):
    """README.md, and what Python has of its own."""

    def test_the_exit_statuses(self) -> None:
        rows = _rows(_section(_page("README.md"), "The commands"))
        told = {int(row[0]) for row in rows if row[0].isdigit()}
        self.assertEqual(told, {*LANGUAGE.statuses, 70}, "70 is the launcher's")

    def test_the_levels(self) -> None:
        told = {
            level: _CODE.findall(row[1])
            for row in _rows(_section(_page("docs/PORTING.md"), "Levels"))
            for level in _CODE.findall(row[0])
        }
        self.assertEqual(list(told), list(grammar.LEVELS))
        for level, words in told.items():
            actions = set(words) & set(LANGUAGE.actions())
            self.assertLessEqual(actions, set(grammar.LEVELS[level]), level)

    def test_each_line_is_known_by_its_first_word(self) -> None:
        self.assertEqual(WORDS, {line.line.split()[0] for line in LANGUAGE.lines})


if __name__ == "__main__":
    unittest.main()
