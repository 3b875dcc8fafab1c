"""The page as a text: what it may hold, how large it is, which lines of a long run it has."""

from __future__ import annotations

import base64
import gc
import hashlib
import html.parser
import json
import random
import re
import time
import unittest
from pathlib import Path
from typing import Any, Dict, List, Optional, Set, Tuple
from unittest import mock

from deferreds.checkout import TOP
from deferreds.view import texts
from deferreds.view.left import LeftDeferred
from deferreds.view.page import MOST_PLAIN, Page, written_page
from deferreds.view.run import Run, run_of_journal
from deferreds.view.sizes import part_of

from . import samples

_ELEMENTS = frozenset(
    "html head meta title style body main aside nav h1 h2 p span a table tr td b bdi div details summary script section pre code noscript".split()
)
_ATTRIBUTES = frozenset(
    "lang charset name content http-equiv class id href data-copy data-f title hidden role type target aria-label".split()
)
_NUMBERS = re.compile(r"[a-z-]*=?\d*")
_DATA = re.compile(r"<script type=application/json id=data>(.*?)</script>", re.DOTALL)


class Read(html.parser.HTMLParser):
    """The elements, attributes and texts of a page."""

    def __init__(self, page: str) -> None:
        super().__init__()
        self.elements: Set[str] = set()
        self.attributes: Set[str] = set()
        self.values: Dict[str, Set[str]] = {}
        self.links: Set[str] = set()
        self.ids: List[str] = []
        self.policy = ""
        self.texts: Dict[str, str] = {}
        self._inside = ""
        self.feed(page)

    def handle_starttag(self, tag: str, attrs: List[Tuple[str, Optional[str]]]) -> None:
        """An element."""
        self.elements.add(tag)
        self._inside = tag
        for name, value in attrs:
            self.attributes.add(name)
            self.values.setdefault(name, set()).add(value or "")
            if name == "href" and value is not None:
                self.links.add(value)
            if name == "id" and value is not None:
                self.ids.append(value)
        found = dict(attrs)
        if found.get("http-equiv") == "Content-Security-Policy":
            self.policy = found.get("content") or ""

    def handle_endtag(self, tag: str) -> None:
        """The end of an element."""
        self._inside = ""

    def handle_data(self, data: str) -> None:
        """A text."""
        self.texts[self._inside] = data


def data_of(page: str) -> Dict[str, Any]:
    """What the scripts of a page draw."""
    found = _DATA.findall(page)
    assert len(found) == 1
    told: Dict[str, Any] = json.loads(found[0])
    return told


def targets(page: str) -> Set[str]:
    """Where links of a page may lead: to its parts, its rows, and the trees of its Deferreds."""
    data = data_of(page)
    rows = {f"#row={row + 1}" for row in range(data["first"], data["first"] + len(data["kinds"]))}
    return rows | {f"#d={number}" for number in data["deferreds"]["numbers"]} | {f"#{one}" for one in Read(page).ids} | {"#find"}


def is_safe(page: str) -> bool:
    """Whether nothing is on the page but what this package writes round texts."""
    read = Read(page)
    names = set().union(
        *(read.values.get(name, set()) for name in ("id", "href", "data-copy", "data-f", "data-d", "data-to"))
    )
    plain = all(_NUMBERS.fullmatch(part) for name in names for part in name.lstrip("#").split(" "))
    return (
        plain
        and read.elements <= _ELEMENTS
        and read.attributes <= _ATTRIBUTES
        and len(read.ids) == len(set(read.ids))
    )


class Titles(unittest.TestCase):
    """What stands under which title."""

    def test_a_failure_isn_t_under_what_is_left(self) -> None:
        lines = ["new #0 d", 'fire #0 fail ValueError "no"', "new #1 e", "queue q none none", "put q 1"]
        text = "".join(f"{line}\n" for line in [*lines, '#0 d fail ValueError "no"', "#1 e unfired"])
        parts = re.split("<h2[^>]*>", written_page(run_of_journal(text, "t")))[1:4]
        self.assertEqual(
            [part.split("</h2>")[0] for part in parts], ["To look at", "What is left, and why", "Notes"]
        )
        for part, said in zip(parts, ("ends with", "nobody fired", "never got")):
            self.assertIn(said, part)
            self.assertEqual(part.count("<tr "), 1)


class Escaping(unittest.TestCase):
    """No text of a script becomes markup."""

    def test_hostile_texts_are_texts(self) -> None:
        self.assertTrue(is_safe(written_page(samples.hostile())))

    def test_no_unseen_character_is_on_the_page(self) -> None:
        page = written_page(samples.hostile())
        self.assertEqual(set(texts.unseen().findall(page)), {"\n"})

    def test_the_data_are_texts_that_end_no_element(self) -> None:
        page = written_page(samples.hostile())
        self.assertNotIn("<", _DATA.findall(page)[0])
        lines = data_of(page)["lines"].split("\n")
        self.assertEqual(lines[1], 'note "' + samples.HOSTILE[0].replace('"', '\\"') + '"')
        self.assertEqual([line for line in lines if texts.unseen().search(line)], [])

    def test_without_the_escaping_it_would_be_seen(self) -> None:
        def as_it_is(text: str) -> texts.Html:
            return texts.Html(text)

        for module in ("deferreds.view.markup", "deferreds.view.page"):
            with self.subTest(module), mock.patch(f"{module}.escaped", as_it_is):
                self.assertFalse(is_safe(written_page(samples.hostile())))

    def test_one_function_escapes(self) -> None:
        folder = Path(texts.__file__).parent
        escaping = [
            path.name
            for path in sorted(folder.glob("*.py"))
            if any(sign in path.read_text(encoding="utf-8") for sign in ("html.escape", "&lt;", "&amp;"))
        ]
        self.assertEqual(escaping, ["texts.py"])

    def test_the_policy_names_the_style_and_the_script(self) -> None:
        read = Read(written_page(samples.recorded()))
        for name in ("style", "script"):
            digest = hashlib.sha256(read.texts[name].encode()).digest()
            self.assertIn(f"{name}-src 'sha256-{base64.b64encode(digest).decode()}'", read.policy)
        self.assertTrue(read.policy.startswith("default-src 'none';"))
        self.assertNotIn("unsafe", read.policy)
        self.assertNotIn("http", read.policy)


class Links(unittest.TestCase):
    """Each link has its target."""

    def test_of_all_kinds_of_runs(self) -> None:
        for sample in [*samples.rows(), *samples.told_by_the_program()]:
            page = written_page(sample.run)
            self.assertLessEqual(Read(page).links, targets(page), sample.name)

    def test_of_a_part(self) -> None:
        run = samples.long(400)
        for first, last in ((1, 100), (100, 200), (301, None), (380, 390)):
            page = written_page(run, first, last)
            self.assertLessEqual(Read(page).links, targets(page), f"{first} to {last}")


class Sizes(unittest.TestCase):
    """How large pages are, and how long they take."""

    def test_an_example_is_small(self) -> None:
        self.assertLess(len(written_page(samples.recorded()).encode()), 180_000)

    def test_ten_thousand_lines(self) -> None:
        for run in (samples.long(10_000), samples.wide(10_000)):
            self.assertLess(len(written_page(run).encode()), 1_500_000, run.title)

    def test_of_a_longer_run_the_last_lines_are_there(self) -> None:
        self.assertEqual(part_of(12_000), range(12_000))
        self.assertEqual(part_of(12_000, most=5_000), range(7_000, 12_000))
        self.assertEqual(part_of(12_000, 11_000, None, 5_000), range(10_999, 12_000))
        self.assertEqual(part_of(12_000, None, 9_000, 5_000), range(0, 5_000))
        self.assertEqual(part_of(12_000, 90_000), range(11_999, 12_000))
        self.assertEqual(part_of(12_000, 9, 8), range(8, 8))
        self.assertEqual(part_of(0), range(0))

    def test_a_part_says_which_it_is(self) -> None:
        run = samples.long(400)
        self.assertIn(f"lines 100 to 199 of {len(run.fold.rows)}", written_page(run, 100, 199))
        self.assertNotIn("lines 1 to", written_page(run))

    def test_without_scripts_the_first_lines_are_there(self) -> None:
        for count, said in ((100, "the lines of the run"), (2 * MOST_PLAIN, f"the first {MOST_PLAIN} of ")):
            run = samples.long(count)
            shown = re.findall(r"(?s)<noscript>.*?<pre>(.*?)</pre></noscript>", written_page(run))
            self.assertEqual(len(shown[0].split("\n")), min(MOST_PLAIN, len(run.fold.rows)))
            self.assertIn(f"Without scripts this page shows the report and {said}", written_page(run))

    def test_cost_grows_with_the_lines(self) -> None:
        gc.disable()  # as the command does
        self.addCleanup(gc.enable)
        seconds = []
        for lines in (10_000, 40_000):
            begun = time.process_time()
            written_page(samples.long(lines))
            seconds.append(time.process_time() - begun)
        self.assertLess(seconds[1], 8 * seconds[0])

    def test_journals_that_are_broken_have_a_page_and_trees(self) -> None:
        chance = random.Random(7)
        for name in ("connection_pool", "workers"):
            lines = (TOP / "examples" / "python" / f"{name}.journal").read_text(encoding="utf-8").split("\n")
            for _ in range(40):
                chance.shuffle(lines)
                run = run_of_journal("\n".join(lines[: chance.randrange(1, len(lines))]), "test")
                self.assertTrue(is_safe(written_page(run)))
                for number in list(run.fold.records)[:4]:
                    self.assertIsInstance(list(run.stories.tree(number)), list)

    def test_a_task_that_no_line_has_made(self) -> None:
        run = run_of_journal("new #0 d\nwhendone c #0\n#0 d unfired\n", "test")
        self.assertEqual([one.hangs for one in run.left if isinstance(one, LeftDeferred)], [()])
        self.assertIn("nobody fired", written_page(run))

    def test_nothing_at_all(self) -> None:
        self.assertIn("No Deferred was made", written_page(run_of_journal("", "test")))


if __name__ == "__main__":
    unittest.main()
