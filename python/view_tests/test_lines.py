"""Lines of a journal."""

from __future__ import annotations

import re
import unittest

from deferreds.checkout import TOP
from deferreds.view.lines import WORDS, End, read_end, read_line, split


class Lines(unittest.TestCase):
    """What a line tells."""

    def test_lines_end_at_a_line_feed_alone(self) -> None:
        text = 'note "a\u2028b\x85c\x1cd"\nnew #0 -\n#0 - unfired\n'
        self.assertEqual(split(text), (['note "a\u2028b\x85c\x1cd"', "new #0 -"], ["#0 - unfired"]))

    def test_a_failure_is_told_by_the_outcome(self) -> None:
        self.assertTrue(read_line(0, 'set #1 fail ValueError ""').fails)
        self.assertFalse(read_line(0, 'set #1 ok " fail "').fails)
        self.assertFalse(read_line(0, 'end fail ok "fail"').fails)
        self.assertTrue(read_line(0, 'end ok fail ValueError "ok"').fails)

    def test_who_hands_over_to_whom(self) -> None:
        hand, take = read_line(0, "hand #2 #1 ok 7"), read_line(0, "take #1 #2 ok 7")
        self.assertEqual((hand.deferred, hand.other), (1, 2))
        self.assertEqual((take.deferred, take.other), (1, 2))

    def test_what_is_scheduled(self) -> None:
        told = [
            read_line(0, line)
            for line in ("later call c 3", "later tick 4", "later job 7 5", "later timeout #2 6")
        ]
        self.assertEqual(
            [(one.what, one.name, one.number) for one in told[:3]],
            [("call", "c", 3), ("tick", "", 4), ("job", "7", 5)],
        )
        self.assertEqual((told[3].what, told[3].deferred, told[3].number), ("timeout", 2, 6))

    def test_where_a_script_s_own_text_begins(self) -> None:
        for line, own in (
            ('put q "#3 x"', '"#3 x"'),
            ("fire #0 ok #1", "ok #1"),
            ("release l", ""),
            ('note "put"', '"put"'),
        ):
            self.assertEqual(line[read_line(0, line).head :], own)

    def test_what_isn_t_known_has_no_word(self) -> None:
        for line in (
            "",
            "nope",
            "new #0",
            "new 0 a",
            "fire #0 maybe",
            "later call c",
            "run #0 1",
            "advance x",
        ):
            self.assertEqual(read_line(0, line).word, "", line)

    def test_all_words_of_the_language_are_known(self) -> None:
        page = (TOP / "docs" / "SCRIPT.md").read_text(encoding="utf-8")
        table = page.partition("## What is printed")[2].partition("OUTCOME is")[0]
        first = [line.split("|")[1] for line in table.split("\n") if line.startswith("| `")]
        words = {word for cell in first for word in re.findall(r"`([a-z]+)", cell)}
        self.assertEqual(words, WORDS)

    def test_outcomes(self) -> None:
        self.assertEqual(read_end('#12 d ok "#1 x"'), End(12, "d", 'ok "#1 x"'))
        self.assertIsNone(read_end("#x d ok 1"))


if __name__ == "__main__":
    unittest.main()
