"""`make_schema`: prints the JSON Schema of scripts (draft 2020-12), made from `language.json`.

An editor that has it completes and checks a script while it is typed. It says what the program refuses as BadShape, BadName and
TooMany, as far as a schema can. Left to the program are: which names are bound or declared; that `1.0` is no integer; words,
comments of bodies, keys of Cooperators, names in place of bodies, failures in values and marks in names that the version of the script
doesn't have; all advances together; the size of the whole text.
"""

from __future__ import annotations

import json
import sys
from typing import Any, Callable, Dict, List

from .ending import run_command
from .language import LANGUAGE, Form, Key, Language, Word

Schema = Dict[str, Any]

_DRAFT = "https://json-schema.org/draft/2020-12/schema"
_LEAST, _MOST = -(2**63), 2**63 - 1

#: what each text of a form is called where an editor shows it
_TITLES: Dict[str, str] = {
    "deferred": "the name of a Deferred",
    "lock": "the name of a lock or semaphore",
    "queue": "the name of a queue",
    "call": "the name of a delayed call",
    "loop": "the name of a loop",
    "task": "the name of a task",
    "pool": "the name of a pool",
    "body": "the name of a body",
    "cooperator": "the name of a Cooperator",
    "class": "the name of a class of failures",
}


def _ref(name: str) -> Schema:
    return {"$ref": f"#/$defs/{name}"}


class _Maker:
    """Makes the parts of the schema."""

    def __init__(self, language: Language) -> None:
        self._language = language
        self._forms: Dict[str, Callable[[Form], Schema]] = {
            "text": lambda form: {"type": "string"},
            "value": lambda form: _ref("value"),
            "boolean": lambda form: {"type": "boolean"},
            "number": _number,
            "bound": lambda form: {**_number(form), "type": ["integer", "null"]},
            "new": self._name,
            "found": self._found,
            "flag": lambda form: {"enum": form["words"]},
            "words": lambda form: _ref(form["of"]),
            "object": lambda form: _ref(form["of"]),
            "array": lambda form: {"type": "array", "items": self.form(form["of"])},
            "turns": lambda form: {"anyOf": [self.form(form["of"]), _some(self.form(form["of"]))]},
            "pair": lambda form: _fixed([self.form(part) for part in form["parts"]]),
        }

    def form(self, form: Form) -> Schema:
        """What a place asks for."""
        return self._forms[form["type"]](form)

    def _name(self, form: Form) -> Schema:
        return {"title": _TITLES[form["of"]], **_ref("name")}

    def _found(self, form: Form) -> Schema:
        other = {"deferred": "name-or-own", "class": "class"}.get(form["of"], "name")
        return {"title": _TITLES[form["of"]], **_ref(other)}

    def names(self) -> Dict[str, Schema]:
        """Names, and values."""
        name = f"[A-Za-z0-9_][A-Za-z0-9_.:-]{{0,{self._language.limits['name'] - 1}}}"
        scalars: List[Schema] = [
            {"type": ["null", "boolean", "string"]},
            {"type": "integer", "minimum": _LEAST, "maximum": _MOST},
        ]
        return {
            "name": {"type": "string", "pattern": f"^{name}$"},
            "name-or-own": {"type": "string", "pattern": f"^({name}|@)$"},
            "class": {"anyOf": [{"enum": list(self._language.classes)}, _ref("name")]},
            "value": {"anyOf": [*scalars, {"type": "array", "items": _ref("member")}]},
            "member": {"anyOf": [_ref("value"), _ref("failure")]},
        }

    def place(self, place: str) -> Schema:
        """The arrays of a word and its arguments that may stand at a place: the word says what has to follow."""
        forms: Dict[str, List[Word]] = {}
        for row in self._language.at(place):
            forms.setdefault(row.word, []).append(row)
        return {
            "type": "array",
            "prefixItems": [{"enum": list(forms)}],
            "minItems": 1,
            "allOf": [
                {"if": {"prefixItems": [{"const": word}]}, "then": self._rows(rows)}
                for word, rows in forms.items()
            ],
        }

    def _rows(self, rows: List[Word]) -> Schema:
        """The forms of a word, which differ in how many of the same arguments there are."""
        longest = max(rows, key=lambda row: len(row.arguments))
        parts = [{"const": longest.word}, *map(self.form, longest.arguments)]
        least = min(len(row.arguments) for row in rows) + 1
        return {"title": " or ".join(row.text for row in rows), **_fixed(parts), "minItems": least}

    def either(self, name: str) -> Schema:
        """What stands where an object is asked for: a body may be the name of one that is declared."""
        if name != "body":
            return self.object(name)
        return {"anyOf": [self.object(name), self._name({"of": name})]}

    def object(self, name: str) -> Schema:
        """An object of the language: the script, its `cooperator`, a body, a failure in a value."""
        keys = self._language.keys_of(name)
        return {
            "type": "object",
            "properties": {key.key: self._key(key) for key in keys},
            "required": [key.key for key in keys if key.needed],
            "additionalProperties": False,
            **(_first_error() if name == "failure" else {}),
        }

    def _key(self, key: Key) -> Schema:
        schema = self.form(key.value)
        limits = self._language.limits
        if key.of == "script" and key.key in limits:
            schema["maxItems"] = limits[key.key]
        if key.key == "callers":
            schema["items"]["maxItems"] = limits["posts"]
        if key.of == "script" and key.key in self._language.usual:
            schema["default"] = self._language.usual[key.key]
        return schema

    def later(self) -> Schema:
        """What a version doesn't have yet, but a later one: keys of the script, and a larger limit."""
        allof: List[Schema] = []
        for version in self._language.versions:
            keys = self._language.keys_of("script")
            properties: Dict[str, Any] = {key.key: False for key in keys if key.since > version}
            if version < self._language.smaller["before"]:
                properties["limit"] = {"maximum": self._language.most("limit", version)}
            if properties:
                condition = {"required": ["version"], "properties": {"version": {"const": version}}}
                allof.append({"if": condition, "then": {"properties": properties}})
        return {"allOf": allof}


def _first_error() -> Schema:
    """A failure of FirstError has another in it, and no message. No other failure has one."""
    is_first = {"required": ["fail"], "properties": {"fail": {"const": "FirstError"}}}
    return {
        "if": is_first,
        "then": {"required": ["index", "sub"], "properties": {"message": {"const": ""}}},
        "else": {"properties": {"index": False, "sub": False}},
    }


def _some(items: Schema) -> Schema:
    """An array of one or more of these."""
    return {"type": "array", "items": items, "minItems": 1}


def _number(form: Form) -> Schema:
    return {"type": "integer", "minimum": form["least"], "maximum": form["most"]}


def _fixed(parts: List[Schema]) -> Schema:
    """An array of exactly these parts."""
    return {"type": "array", "prefixItems": parts, "items": False, "minItems": len(parts)}


def schema_of(language: Language) -> Schema:
    """The schema of scripts."""
    maker = _Maker(language)
    places = dict.fromkeys(place for row in language.words for place in row.where)
    objects = dict.fromkeys(key.of for key in language.keys if key.of != "script")
    return {
        "$schema": _DRAFT,
        "title": "A script for deferreds",
        **maker.object("script"),
        **maker.later(),
        "$defs": {
            **maker.names(),
            **{name: maker.either(name) for name in objects},
            **{place: maker.place(place) for place in places},
        },
    }


def text_of(schema: Schema) -> str:
    """The schema as it is committed."""
    return json.dumps(schema, indent=1, ensure_ascii=False) + "\n"


def main() -> int:
    """The command."""
    sys.stdout.write(text_of(schema_of(LANGUAGE)))
    return 0


if __name__ == "__main__":
    run_command(main, "make_schema")
