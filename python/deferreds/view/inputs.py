"""What a run is made of: a script that is run, a journal, what `./deferreds --json` has printed, the places of a program; and a script
that is run in every order of its posts, or in a sample of them."""

from __future__ import annotations

import json
import os
import sys
from pathlib import Path
from typing import TYPE_CHECKING, NamedTuple, Optional, Sequence, Tuple

from ..checkout import as_called, command_name
from ..ending import say
from ..program import NOT_RUN, NotRun, found
from .batches import Batches, text_of
from .names import PLACES, STANDARD
from .recordings import Recorded, recorded_beside
from .sources import Source

# (what reads a run, places or orders is imported where it is used)
if TYPE_CHECKING:
    from .orders import Orders
    from .run import Run

USAGE, NO_INPUT, NO_OUTPUT = 64, 66, 73
_STOPPED, _REFUSED, _BATCHES_REFUSED, _UNMET = 1, 2, 5, 8

_SCRIPT, _FACTS, _JOURNAL = (
    "it looks like a script, which is given without --journal and --json",
    "it looks like what ./deferreds --json prints, which is given with --json",
    "it looks like a journal, which is given with --journal",
)


class Failed(Exception):
    """The view can't be made: why, and with which status the command ends."""

    def __init__(self, status: int, why: str = "") -> None:
        super().__init__(why)
        self.status = status


class Inputs(NamedTuple):
    """What one run is made of, by the names of files: a script, a journal or facts, with the script of these, and places."""

    script: Optional[str]
    journal: Optional[str] = None
    facts: Optional[str] = None
    places: Optional[str] = None
    #: the batches in which the script is run, as text
    batches: Optional[str] = None

    @property
    def files(self) -> Tuple[str, ...]:
        """The names of the files that it is made of."""
        return tuple(name for name in self[:4] if name is not None and name != STANDARD)

    @property
    def main(self) -> str:
        """The one that names the run."""
        return self.journal or self.facts or self.script or STANDARD

    @property
    def recorded(self) -> Recorded:
        """What is known of the run, if it was recorded."""
        beside = recorded_beside(self.main)
        return beside if any(beside) else recorded_beside(self.script or STANDARD)

    def told(self) -> "Told":
        """What tells of the run: it is read, or the script is run. Raises Failed."""
        return self._told().beside(self.read_places(), self.recorded)

    def run(self) -> Run:
        """The run. Raises Failed."""
        return self.told().run()

    def _told(self) -> "Told":
        if self.journal is None and self.facts is None:
            name = self.script or STANDARD
            return run_script(_read(name), name, self.batches)
        script = _script(_read(self.script)) if self.script is not None else ""
        return Told(Source(_title(self.main), self.journal is not None, script), _read(self.main), self.main)

    def read_places(self) -> str:
        """The places that are given, or that stand beside the script or the journal, as JSON. What is wrong with the latter is a warning."""
        if self.places:
            return _given_places(self.places)
        source = self.script or self.main
        path = Path(source).with_suffix(PLACES)
        return _places_beside(path) if source != STANDARD and path.is_file() else ""


def _given_places(name: str) -> str:
    """The places of a file that is named. Raises Failed."""
    from .places import NotPlaces, read_places

    text = _text(_read(name), name)
    try:
        read_places(text)
    except NotPlaces as why:
        raise Failed(NO_INPUT, f"{name} doesn't tell places: {why}") from None
    return text


def _places_beside(path: Path) -> str:
    """The places of a file that stands beside a script or a journal, or an empty text with a warning."""
    from .places import NotPlaces, read_places

    try:
        text = path.read_text(encoding="utf-8")
        read_places(text)
        return text
    except (OSError, UnicodeDecodeError, NotPlaces) as why:
        reason = why.strerror if isinstance(why, OSError) else why
        say(f"{command_name('view')}: {path} isn't used, since it doesn't tell places: {reason}")
        return ""


class Told(NamedTuple):
    """What tells of a run: what is known of it, the bytes of the text, and the name of the file."""

    source: Source
    data: bytes
    name: str

    @property
    def text(self) -> str:
        """The text. Raises Failed."""
        return _text(self.data, self.name)

    def beside(self, places: str, recorded: Recorded) -> "Told":
        """The same, with what is known beside the text."""
        return self._replace(source=self.source._replace(places=places, tick=recorded.tick, shaken=recorded.shaken))

    def run(self) -> Run:
        """The run. A text of which most lines aren't known is no journal, and a run of no line has nothing to show. Raises Failed."""
        from .facts import NotFacts
        from .run import run_of

        is_given = self.source.is_journal and self.source.stopped is None
        if is_given and not self.text.strip():
            raise Failed(NO_INPUT, f"{shown_name(self.name)} is empty: a journal has at least a line")
        try:
            run = run_of(self.source, self.text)
        except NotFacts as error:
            raise Failed(NO_INPUT, _with_hint(f"{shown_name(self.name)}: {error}", self.text)) from None
        if is_given and 2 * run.unknown > run.read:
            why = "no line of it is known" if run.unknown == run.read else f"{run.unknown} of its {run.read} lines aren't known"
            raise Failed(NO_INPUT, _with_hint(f"{shown_name(self.name)} isn't a journal: {why}", self.text))
        return run


class InOrders:
    """A script that is performed in the orders of its posts that some words ask for, and then in some of them to be shown. It is read once."""

    def __init__(self, inputs: Inputs, words: Sequence[str]) -> None:
        self._name = inputs.main
        self._data = _read(self._name)
        self.title = _title(self._name)
        self.orders = _survey(self._data, self._name, words)
        self._places, self._recorded = inputs.read_places(), inputs.recorded

    def run(self, batches: Batches, label: str) -> Run:
        """The run in this order, which the label tells from others. Raises Failed."""
        told = run_script(self._data, self._name, text_of(batches))
        told = told._replace(source=told.source._replace(title=f"{self.title}, {label}"))
        return told.beside(self._places, self._recorded._replace(shaken="")).run()


def _survey(data: bytes, name: str, words: Sequence[str]) -> Orders:
    """Has `./deferreds` perform a script in the orders that these words ask for, and reads what it prints."""
    from ..survey import ONE_OUTCOME, SEVERAL_OUTCOMES, TOO_MANY
    from .orders import NotOrders, read_orders

    status, told = _deferreds(data, "--json", "--orders", *words)
    if status == TOO_MANY:  # it has said so, with their number
        raise Failed(status)
    if status == USAGE:
        raise Failed(NOT_RUN, f"the program that is found doesn't know {' '.join(['--orders', *words])}")
    if status not in (ONE_OUTCOME, SEVERAL_OUTCOMES, _UNMET):
        raise Failed(status, _why_not(status, data, name))
    try:
        return read_orders(_text(told, name))
    except NotOrders:
        raise Failed(NOT_RUN, f"what the program prints of the orders of {shown_name(name)} can't be read") from None


def read_any(name: str, batches: Optional[str] = None) -> Run:
    """The run of a script, in these batches if they are given, or else of a journal or of facts, whichever the file is."""
    data = _read(name)
    text = data.decode("utf-8", "replace")
    is_script = _bare(text).startswith("{") and not _begins_facts(text)
    if batches is not None and not is_script:
        raise Failed(USAGE, f"{shown_name(name)} isn't a script, and --batches is for scripts")
    if is_script:
        told = run_script(data, name, batches)
    else:
        told = Told(Source(_title(name), not _bare(text).startswith("{")), data, name)
    beside = Inputs(name)
    return told.beside(beside.read_places(), beside.recorded).run()


def _bare(text: str) -> str:
    """A text from its first sign on: a byte order mark is none, which the program refuses."""
    return text.lstrip("\ufeff \t\r\n")


def _begins_facts(text: str) -> bool:
    return '"type":"start"' in _bare(text).partition("\n")[0].replace(" ", "")


def shown_name(name: str) -> str:
    """The name of a file, as messages have it."""
    return "standard input" if name == STANDARD else name


def _title(name: str) -> str:
    return shown_name(name) if name == STANDARD else Path(name).name


def _read(name: str) -> bytes:
    """What the file holds. Raises Failed."""
    try:
        return sys.stdin.buffer.read() if name == STANDARD else Path(name).read_bytes()
    except OSError as error:
        raise Failed(NO_INPUT, f"{shown_name(name)} can't be read: {error.strerror}") from None
    except ValueError:
        raise Failed(NO_INPUT, f"{name!r} is no name of a file") from None


def _text(data: bytes, name: str) -> str:
    try:
        return data.decode("utf-8")
    except UnicodeDecodeError:
        raise Failed(NO_INPUT, f"{shown_name(name)} isn't UTF-8") from None


def _script(data: bytes) -> str:
    """The text of a script, as JSON is read from bytes; an empty one if it can't be read."""
    try:
        return data.decode(json.detect_encoding(data), "surrogatepass")
    except UnicodeDecodeError:
        return ""


def looks_like(text: str) -> str:
    """What a text looks like that isn't what it was given as; an empty text where it looks like nothing that is known."""
    from .lines import WORDS

    begins, _, _ = _bare(text).partition("\n")
    if begins.startswith("{"):
        return as_called(_FACTS if _begins_facts(text) else _SCRIPT)
    return _JOURNAL if begins.partition(" ")[0] in WORDS else ""


def _with_hint(why: str, text: str) -> str:
    hint = looks_like(text)
    return f"{why}; {hint}" if hint else why


def run_script(data: bytes, name: str, batches: Optional[str] = None) -> Told:
    """Runs a script, in these batches if they are given, by `./deferreds --json`. If the program doesn't know that option the journal is
    all that there is."""
    words = () if batches is None else ("--batches", batches)
    status, told = _deferreds(data, "--json", *words)
    is_exact = status != USAGE or batches is not None
    if not is_exact:
        status, told = _deferreds(data)
    if status == _BATCHES_REFUSED:
        raise Failed(status)
    if status not in (0, _STOPPED, _UNMET):
        raise Failed(status, _why_not(status, data, name))
    source = Source(_title(name), not is_exact, _script(data), stopped=None if is_exact else status == _STOPPED)
    return Told(source, told, name)


def _why_not(status: int, data: bytes, name: str) -> str:
    """Why a script was not run to its end: what `./deferreds --why` says, where it is refused."""
    from .refusals import read_refusal

    refusal = read_refusal(_deferreds(data, "--why", is_quiet=True)[1]) if status == _REFUSED else None
    if refusal is None:
        return f"{shown_name(name)} was not run to its end"
    hint = "" if _is_json(data) else looks_like(data.decode("utf-8", "replace"))
    return f"{shown_name(name)} is refused: {refusal}" + (f"; {hint}" if hint else "")


def _is_json(data: bytes) -> bool:
    try:
        json.loads(data)
        return True
    except RecursionError:
        return True
    except ValueError:
        return False


def _deferreds(data: bytes, *words: str, is_quiet: bool = False) -> Tuple[int, bytes]:
    """The status and the output of `./deferreds` with these words; what it says beside is shown, if it isn't to be quiet."""
    import subprocess

    errors = subprocess.DEVNULL if is_quiet else None
    try:
        program = os.fspath(found())
        ran = subprocess.run([program, *words], input=data, stdout=subprocess.PIPE, stderr=errors, check=False)
    except NotRun as why:
        raise Failed(NOT_RUN, f"deferreds isn't run: {why}") from None
    except OSError as error:
        raise Failed(NOT_RUN, f"{program} can't be run: {error.strerror}") from None
    return ran.returncode, ran.stdout
