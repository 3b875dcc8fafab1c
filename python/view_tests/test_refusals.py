"""What is said of a script that is refused."""

from __future__ import annotations

import json
import unittest

from deferreds.view.refusals import read_refusal


class Refusals(unittest.TestCase):
    """The lines of `./deferreds --why`."""

    def test_a_place(self) -> None:
        told = b'{"at":"/events/1/2","expected":"the name of a Deferred","found":"7","name":"BadShape","refusal":4}\n'
        self.assertEqual(
            read_refusal(told), "BadShape: at /events/1/2: found 7, expected the name of a Deferred"
        )

    def test_a_text_that_is_no_json_and_the_whole(self) -> None:
        told = {"at": "", "expected": "a JSON text", "found": "{", "name": "NotJson", "refusal": 2}
        self.assertEqual(
            read_refusal(json.dumps({**told, "line": 3, "column": 5}).encode()),
            "NotJson: at line 3, column 5: found {, expected a JSON text",
        )
        self.assertEqual(
            read_refusal(json.dumps({**told, "line": 0, "column": 0, "expected": ""}).encode()),
            "NotJson: the whole text: found {",
        )

    def test_texts_of_strangers_are_one_line_without_what_a_terminal_obeys(self) -> None:
        told = {"at": "/a\x1b[31m", "expected": "x" * 9_000, "found": "new #0\n\u202ey\x07", "name": "BadShape", "refusal": 4}
        said = read_refusal(json.dumps(told).encode())
        assert said is not None
        self.assertTrue(said.startswith("BadShape: at /a\\u001b[31m: found new #0\\u000a\\u202ey\\u0007, expected xxx"))
        self.assertTrue(said.isprintable() and len(said) < 500)

    def test_other_lines_are_none(self) -> None:
        for told in (b"", b"{", b"[]", b"7", b'{"accepted":true}', b'{"at":1,"expected":"","found":"","name":""}', b"[" * 100_000):
            self.assertIsNone(read_refusal(told), told[:40])


if __name__ == "__main__":
    unittest.main()
