"""The JSON Schema of scripts: that it is made of the language, and that it says of each row what the program says.

EACH=K takes each K-th row alone.
"""

from __future__ import annotations

import importlib.util
import json
import os
import sys
import unittest
from collections import Counter
from typing import Any, Iterator, Tuple

from deferreds.checkout import TOP
from deferreds.language import LANGUAGE
from deferreds.script_schema import schema_of, text_of
from deferreds.twisted.rows import Expected, read_rows, row_files

_FILE = TOP / "docs" / "script.schema.json"

#: a script of more characters takes a validator in Python too long
_LONGEST = 5_000

#: the first version in which a name may stand for a body; a schema can't say that it may not before
_NAMES_SINCE = next(word.since for word in LANGUAGE.words if word.word == "run")

_HAS_VALIDATOR = importlib.util.find_spec("jsonschema") is not None


def _rows() -> Iterator[Expected]:
    each = int(os.environ.get("EACH", "1"))
    rows = (row for path in row_files() for row in read_rows(path))
    return (row for place, row in enumerate(rows) if place % each == 0)


def _refusal(row: Expected) -> str:
    """The name of the refusal that a row expects, or an empty text."""
    return row.errors.split()[-1] if row.status == 2 else ""


class OfTheSchema(unittest.TestCase):
    """docs/script.schema.json."""

    def test_it_is_made_of_the_language(self) -> None:
        self.assertEqual(_FILE.read_text(encoding="utf-8"), text_of(schema_of(LANGUAGE)), "python/make_schema")

    @unittest.skipUnless(_HAS_VALIDATOR, "jsonschema isn't here (Debian's python3-jsonschema)")
    def test_it_accepts_and_refuses_rows(self) -> None:
        from jsonschema import Draft202012Validator

        limit = sys.getrecursionlimit()
        sys.setrecursionlimit(30_000)
        self.addCleanup(sys.setrecursionlimit, limit)
        schema = json.loads(_FILE.read_text(encoding="utf-8"))
        Draft202012Validator.check_schema(schema)
        validator = Draft202012Validator(schema)
        without_names = Draft202012Validator(_without_names(schema))
        counts: "Counter[Tuple[str, bool]]" = Counter()
        for row in _rows():
            if len(row.script) > _LONGEST or _refusal(row) in ("TooLong", "NotJson"):
                continue
            script: Any = json.loads(row.script)
            is_valid = bool(validator.is_valid(script))
            refusal = _refusal(row)
            counts[refusal, is_valid] += 1
            with self.subTest(file=row.file, row=row.name):
                if not refusal:
                    self.assertTrue(is_valid, row.script)
                elif is_valid and refusal in ("BadVersion", "BadShape"):
                    is_early = script["version"] < _NAMES_SINCE and not without_names.is_valid(script)
                    self.assertTrue(is_early or _is_unsaid(script), row.script)
        for refusal in sorted({refusal for refusal, _ in counts}):
            said = counts[refusal, False]
            print(f"{refusal or 'accepted'}: {said} of {said + counts[refusal, True]} invalid", file=sys.stderr)


def _without_names(schema: Any) -> Any:
    """The schema in which no name may stand for a body."""
    body, _ = schema["$defs"]["body"]["anyOf"]
    return {**schema, "$defs": {**schema["$defs"], "body": body}}


def _is_unsaid(script: Any) -> bool:
    """Whether a script may be refused for what a schema can't say: a number as `1.0` is an integer there, and each version has all words
    and all comments."""
    words = {word.word for word in LANGUAGE.words if word.since > script["version"]}
    keys = {key.key for key in LANGUAGE.keys if key.since > script["version"]}
    text = json.dumps(script)
    later = [f'["{word}"' for word in words] + [f'"{key}":' for key in keys]
    return _has_whole_float(script) or any(part in text for part in later)


def _has_whole_float(value: Any) -> bool:
    if isinstance(value, dict):
        return any(map(_has_whole_float, value.values()))
    if isinstance(value, list):
        return any(map(_has_whole_float, value))
    return isinstance(value, float) and value.is_integer()


if __name__ == "__main__":
    unittest.main()
