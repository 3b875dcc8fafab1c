"""The table of classes of failures: names, parents, and the Python classes that bear them."""

from __future__ import annotations

import re
from typing import Any, Callable, Dict, List, Optional, Tuple, Type

from twisted.internet import defer, error, task

from ..language import LANGUAGE

PyClass = Type[BaseException]

#: the class that each name of the table is in Python, parents first
BUILT_IN: Dict[str, PyClass] = {
    "Exception": Exception,
    "ValueError": ValueError,
    "TypeError": TypeError,
    "NameError": NameError,
    "AssertionError": AssertionError,
    "OverflowError": OverflowError,
    "RuntimeError": RuntimeError,
    "AlreadyCalledError": defer.AlreadyCalledError,
    "CancelledError": defer.CancelledError,
    "FirstError": defer.FirstError,
    "QueueOverflow": defer.QueueOverflow,
    "QueueUnderflow": defer.QueueUnderflow,
    "SchedulerError": task.SchedulerError,
    "AlreadyCalled": error.AlreadyCalled,
    "AlreadyCancelled": error.AlreadyCancelled,
    "TaskFinished": task.TaskFinished,
    "NotPaused": task.NotPaused,
    "TaskDone": task.TaskDone,
    "TaskStopped": task.TaskStopped,
    "TaskFailed": task.TaskFailed,
    "TimeoutError": defer.TimeoutError,
    "SchedulerStopped": task.SchedulerStopped,
}

_NAMES: Dict[PyClass, str] = {cls: name for name, cls in BUILT_IN.items()}

_LONGEST = 32
#: what names of classes are not made of
_OTHERS = re.compile("[^A-Za-z0-9_]")


def is_built_in(name: str, version: int) -> bool:
    """Whether scripts of this version have a class of this name without declaring it."""
    return name in BUILT_IN and LANGUAGE.classes_since.get(name, 1) <= version


class Classes:
    """The classes that one run knows, by their names in a script and by their classes in Python."""

    def __init__(self, version: int = LANGUAGE.versions[0]) -> None:
        self._version = version
        #: those that aren't built in
        self._by_name: Dict[str, PyClass] = {}
        self._names: Dict[PyClass, str] = {}
        #: the pairs of name and parent that a script has to declare, in order
        self.declared: List[Tuple[str, str]] = []

    def declare(self, name: str, parent: str) -> None:
        """Makes a class of this name below another."""
        self._add(name, type(name, (self.named(parent),), {"__init__": Exception.__init__}), parent)

    def get(self, name: str) -> Optional[PyClass]:
        """The class that has this name."""
        found = self._by_name.get(name)
        return BUILT_IN.get(name) if found is None else found

    def named(self, name: str) -> PyClass:
        """The class that has this name. Raises KeyError where there is none."""
        found = self._by_name.get(name)
        return BUILT_IN[name] if found is None else found

    def name_of(self, cls: PyClass) -> str:
        """The name of a class, which is declared below its nearest parent where it has none yet."""
        built_in = _NAMES.get(cls)
        if built_in is not None and is_built_in(built_in, self._version):
            return built_in
        known = self._names.get(cls)
        if known is not None:
            return known
        parent = self._parent_of(cls)
        is_free = built_in is not None and built_in not in self._by_name  # a later version has it
        name = built_in if is_free and built_in is not None else self._free_name(cls.__name__)
        self._add(name, cls, parent)
        return name

    def _parent_of(self, cls: PyClass) -> str:
        base = cls.__base__
        if base in (object, BaseException, None) or not issubclass(base, BaseException):
            return "Exception"
        return self.name_of(base)

    def _free_name(self, wanted: str) -> str:
        """A name in the form of names that nothing has yet, as near to this one as can be."""
        name = _OTHERS.sub("_", wanted)[: _LONGEST - 4] or "Error"
        free, number = name, 2
        while free in self._by_name or free in BUILT_IN:
            free, number = f"{name}_{number}", number + 1
        return free

    def _add(self, name: str, cls: PyClass, parent: str) -> None:
        self._by_name[name] = cls
        self._names[cls] = name
        self.declared.append((name, parent))

    def make(self, name: str, message: str) -> BaseException:
        """A failure of this class with this message, as a script says it."""
        cls = self.named(name)
        make: Callable[..., BaseException] = cls.__new__
        failure = make(cls, message)
        failure.args = (message,)
        set_message(failure, message)
        return failure


#: what an error has beside its message; a class of the program's may say something else of its `__dict__`
_attributes: Callable[[BaseException], Dict[str, Any]] = BaseException.__dict__["__dict__"].__get__

_MESSAGE = "_dv_message"


def set_message(failure: BaseException, message: str) -> None:
    """Has a failure that Twisted made show this message, where it shows none of its own yet."""
    _attributes(failure).setdefault(_MESSAGE, message)


def message_of(failure: BaseException, ask: Callable[[BaseException], str]) -> str:
    """The message that the journal shows for a failure, which is asked for once."""
    attributes = _attributes(failure)
    own = attributes.get(_MESSAGE)
    if own is None:
        own = attributes[_MESSAGE] = ask(failure)
    return str(own)


def plain_message(failure: BaseException) -> Optional[str]:
    """The message of a failure, where nothing but Python itself makes it, of a text or of nothing; None for others."""
    if type.__getattribute__(type(failure), "__str__") is not _str_of_error:
        return None
    args = _args_of(failure)
    if not args:
        return ""
    return args[0] if len(args) == 1 and type(args[0]) is str else None


#: the text of an error that has none of its own, and what that is made of
_str_of_error = BaseException.__str__
_args_of: Callable[[BaseException], Tuple[Any, ...]] = BaseException.__dict__["args"].__get__


def own_message(failure: BaseException) -> Optional[str]:
    """The message of a failure that isn't the text of its error; None, where it is that."""
    kind = type(failure)
    if issubclass(kind, RecursionError):
        return ""  # Python says where the stack ended, which is another place in each run
    if not _is_twisteds(kind):
        return None
    first = failure.args[0] if failure.args else ""
    return clean(first) if isinstance(first, str) else ""


def _is_twisteds(cls: PyClass) -> bool:
    """Whether it is a class of Twisted's in the table, whose texts aren't shown where Twisted made it."""
    return cls.__module__ != "builtins" and cls in BUILT_IN.values()


def clean(text: str) -> str:
    """The text, with a question mark in place of what UTF-8 can't say."""
    plain = str.__str__(text)
    if plain.isascii():
        return plain
    return plain.encode("utf-8", "replace").decode("utf-8")
