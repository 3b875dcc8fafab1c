"""Texts of strangers, made safe to show."""

from __future__ import annotations

import unittest

from deferreds.view.texts import clipped, escaped, shortened, visible


class Texts(unittest.TestCase):
    """What is shown as an escape, as a reference, or cut."""

    def test_what_a_terminal_would_obey_or_reorder_is_shown(self) -> None:
        self.assertEqual(visible("a\x1b[31m\u009b1m"), "a\\u001b[31m\\u009b1m")
        self.assertEqual(
            visible("\u202eabc\u2066\u200b\u00ad\u2028\ufeff"),
            "\\u202eabc\\u2066\\u200b\\u00ad\\u2028\\ufeff",
        )
        self.assertEqual(visible("\U000e0041\ud800"), "\\U000e0041\\ud800")

    def test_what_is_seen_stays(self) -> None:
        self.assertEqual(visible("Grüße, 東京, 🙂 שלום"), "Grüße, 東京, 🙂 שלום")

    def test_markup_becomes_references(self) -> None:
        self.assertEqual(
            escaped("<a href='x' id=\"y\">&amp;"),
            "&lt;a href=&#x27;x&#x27; id=&quot;y&quot;&gt;&amp;amp;",
        )

    def test_long_texts_say_how_long_they_are(self) -> None:
        self.assertEqual(shortened("äää", 3), "äää")
        self.assertEqual(shortened("ääää", 3), "äää… (8 bytes)")
        self.assertEqual(clipped("abcd", 3), "ab…")


if __name__ == "__main__":
    unittest.main()
