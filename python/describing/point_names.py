"""Names by variables: a recorder names a Deferred by a function and a line, and a page by the variable which that line assigns."""

from __future__ import annotations

import ast
import re
from typing import Any, Dict, Iterator, Mapping, Optional

#: a name of a recorder: the kind of a thing, the function, the line, and a number if it isn't the first of that line
_NAME = re.compile(r"(?:(?P<kind>call|lock|loop|pool|queue|task)_)?(?P<function>\w+?)_(?P<line>\d+)(?:_\d+)?")
#: lines of a journal that make something with a name
_MADE = re.compile(r"(?:new|name) #\d+ (\w+)|(?:lock|semaphore|queue|loop|task) (\w+)(?: .*)?|later call (\w+) \d+")
#: the function of what a program does outside of any
_OUTSIDE = "line"


def names(source: str, script: Mapping[str, Any], journal: str, made: Mapping[str, int]) -> Dict[str, str]:
    """The new name of each name of a recording.

    `made` are the lines that made locks, semaphores and queues, which are named by the first use of each.
    """
    variables = assigned(source)
    found: Dict[str, str] = {}
    given: Dict[str, int] = {}
    for name in _all_names(script, journal):
        wanted = wanted_name(name, variables, made.get(name))
        if name not in found and wanted is not None:
            given[wanted] = given.get(wanted, 0) + 1
            found[name] = wanted if given[wanted] == 1 else f"{wanted}_{given[wanted]}"
    return found


def _all_names(script: Mapping[str, Any], journal: str) -> Iterator[str]:
    """The names that a run makes, in order."""
    for pool, _ in script.get("pools", []):
        yield str(pool)
    for line in journal.splitlines():
        matched = _MADE.fullmatch(line)
        if matched is not None:
            yield next(name for name in matched.groups() if name is not None)


def wanted_name(name: str, variables: Mapping[int, str], made_at: Optional[int]) -> Optional[str]:
    """The name that something wants: that of the variable, or else of its kind or its function. None if it keeps its own."""
    matched = _NAME.fullmatch(name)
    if matched is None:
        return None
    kind, function = matched["kind"], matched["function"]
    if kind in ("loop", "pool"):  # (the line has the name of its Deferred)
        return str(kind)
    variable = variables.get(made_at or int(matched["line"]))
    if variable is not None or kind is not None:
        return variable or kind
    return None if function == _OUTSIDE else function


def assigned(source: str) -> Dict[int, str]:
    """For each line of a program, the variable that its innermost statement assigns, or else the function that it schedules."""
    found: Dict[int, str] = {}
    for node in ast.walk(ast.parse(source)):  # (from the outermost inward)
        name = _named_by(node)
        if name is not None and isinstance(node, ast.stmt):
            found.update(dict.fromkeys(range(node.lineno, (node.end_lineno or node.lineno) + 1), name))
    return found


def _named_by(node: ast.AST) -> Optional[str]:
    """The name that a statement has for what it makes: `a` of `a = ..`, and `a_callback` of `clock.callLater(5, a.callback)`."""
    if isinstance(node, ast.Assign) and isinstance(node.targets[0], ast.Name):
        return node.targets[0].id
    if not isinstance(node, ast.Expr) or not isinstance(node.value, ast.Call) or len(node.value.args) < 2:
        return None
    called, scheduled = node.value.func, node.value.args[1]
    if not isinstance(called, ast.Attribute) or called.attr != "callLater":
        return None
    if isinstance(scheduled, ast.Attribute) and isinstance(scheduled.value, ast.Name):
        return f"{scheduled.value.id}_{scheduled.attr}"
    return scheduled.id if isinstance(scheduled, ast.Name) else None


def renamed(text: str, new_names: Mapping[str, str]) -> str:
    """A script or a journal with the new names."""
    if not new_names:
        return text
    old = "|".join(re.escape(name) for name in sorted(new_names, key=len, reverse=True))
    return re.sub(rf"\b(?:{old})\b", lambda found: new_names[found.group()], text)
