"""`./record [OPTION..] PROGRAM [ARGS..]`: runs a program that uses Twisted, and writes its run as a script and a journal.

`-m MODULE` runs a module, and `--test MODULE.CLASS.METHOD` one test. All words after PROGRAM or MODULE are the program's. PROGRAM
is a file, a folder or a zip file with a __main__, or the name of a Python script on the PATH. The program runs as it is. Times are those
of the real reactor, unless `--virtual` puts another in its place; the command prints how long a tick of the script's clock is.

NAME.json is the script. NAME.journal is the journal and the outcomes by real Twisted. NAME.places.json says where in the program
it happened. `--view` also writes NAME.html, a page of the run. NAME.recording lists these files. Without -o, NAME is the name of
PROGRAM or MODULE, in the current folder; `-o FOLDER/` names another folder. A file of another origin is only overwritten with -f.
Only their owner can read the files. What no script can express is refused, with the reason and the place in the program; then
NAME.json is of the events before that, and NAME.whole.journal is the whole journal.

The run is also kept if the program ends by Ctrl-C, by a signal that it doesn't handle, or by os._exit. At SIGUSR1 the run so far is
written, and the program goes on. A forked child writes its own files, NAME.PID.json and so on. If a run is too long for a script, or
ends in the midst of an event, NAME.json is of its beginning, and NAME.whole.journal is its whole journal.

`--last N` is for a program that runs for days. NAME is of its last events, about N at most, and NAME.before of as many before these.
What was before that is forgotten. Each script begins with the Deferreds in their state at that time. Loops, delayed calls and tasks
from before are recorded as the Python that they are made of, and so are locks and queues.

`--shake N` runs the program N times in processes of their own, each shaken by another seed, and records the first run that fails as NAME;
docs/SHAKE.md describes it. The status is then 1 if a run failed, 0 if none did, and 2 if no plain run passes. `--seed K` without it
records one run that is shaken by this seed.

With `--notes` the run is also written into NAME.notes as it happens, and isn't kept in memory. If the process is killed, `--from
NAME.notes` makes the recording of all events before that. A run that ends writes the recording and removes the notes, which have what
the recording hides. They stay with `--keep-notes`, and if the recording can't be written.

If `./deferreds` is there, it runs the script, and its lines are compared with those of the run. If they differ behind an entry of
docs/TWISTED.md, real Twisted runs the script, and the script ends before the event in which it prints other lines. If they differ
without an entry, no script is kept.

The status is the program's own, and a program that is ended by a signal ends this command by it. If the program ended with status 0:
0: recorded; 65: refused; 66: nothing was recorded; 73: a file couldn't be written. With --test the status is 1 if the test failed.
If nothing was run: 4: the help can't be printed; 64: the arguments are wrong; 66: there is no such program; 70: Twisted isn't there
or isn't known; 73: a file can't be written.
"""

from __future__ import annotations

import argparse
import contextlib
import importlib.util
import os
import platform
import shutil
import sys
import tempfile
from importlib.machinery import PathFinder
from itertools import islice
from pathlib import Path
from time import time
from typing import List, Optional, Set, Tuple

import twisted

from ...arguments import USAGE, Parser
from ...checkout import as_called, command_name
from ...ending import ProgramStatus
from ...view.names import COMPARED, ORDERS_SCRIPT, PLACES

from ..instruments import install
from ..recording.agreeing import program
from ..recording.case import TestRun, record_test
from ..recording.endings import Endings
from ..recording.files import NoPlace, Place
from ..recording.hiding import CHOICES, SECRETS
from ..recording.keeper import Keeper
from ..recording.keeping import NOT_NOTED, Keeping, Status
from ..recording.last import LastRecorder
from ..recording.main_module import is_runnable, set_first_folder
from ..recording.messages import Messages
from ..recording.noted import header, noted
from ..recording.notes import NOTES, BadNotes, NotesFile, read_notes
from ..recording.noting import NotedRecorder
from ..recording.programs import LADDER, NotLoaded, record_program, tests_of
from ..recording.recorder import Recorder
from ..recording.saying import Said
from ..shaking.choices import Choices
from ..shaking.install import install as install_shaking
from ..shaking.options import TAKE_WORD, add_options, problem_of, settings_of, wanted_of
from ..shaking.plain import run_plain
from ..shaking.search import Program, Search
from ..shaking.shaker import Shaker
from ..shaking.stopping import stopped_by_signals
from ..shaking.tally import Tally
from ..shaking.tests import ShakenTest, has_reactor, names_of, record_one, run_test
from ..telling import KINDS

_NO_PROGRAM = 66

#: what the name of the notes ends with that an earlier run has left
_EARLIER = f".earlier{NOTES}"


class Refused(Exception):
    """Nothing is run: why, and with which status the command ends."""

    def __init__(self, status: int, why: str) -> None:
        super().__init__(why)
        self.status = status


def _arguments(words: List[str]) -> argparse.Namespace:
    """Parses the arguments. Raises SystemExit if they are wrong, with status 64, or ask for help."""
    parser = Parser(
        prog=command_name("record"),
        description=as_called(__doc__),
        formatter_class=argparse.RawDescriptionHelpFormatter,
        allow_abbrev=False,
    )
    add = parser.add_argument
    add("-o", dest="output", metavar="NAME", help="write NAME.json and NAME.journal; folders that aren't there are made")
    add("-f", dest="overwrites", action="store_true", help="also overwrite files that aren't those of a recording")
    add("-m", dest="module", nargs=argparse.REMAINDER, metavar="MODULE [ARGS..]", help="run a module")
    add("--test", metavar="MODULE.CLASS.METHOD", help="run one test")
    add("--view", action="store_true", help="also write NAME.html, a page of the run (docs/VIEW.md)")
    add("--last", type=_count, metavar="N", help="keep the last events: up to N of them as NAME, and the N before these as NAME.before")
    add("--virtual", action="store_true", help="run on a reactor whose time is virtual")
    add(
        "--plain",
        metavar="KIND,..",
        default="",
        help=f"record these as the Python that they are made of: {', '.join(sorted(KINDS))}",
    )
    add("--notes", action="store_true", help="write NAME.notes as it happens, which outlives SIGKILL, and keep little in memory")
    add("--keep-notes", action="store_true", help="likewise, and don't remove it when the recording is written")
    add("--from", dest="notes_of", metavar="NAME.notes", help="run nothing, and make the recording of these notes")
    add("--redact", metavar="WHAT", default=None, help="hide `all` values, those that look like `secrets` (the default), or `none`")
    add_options(parser)
    add("program", nargs=argparse.REMAINDER, metavar="PROGRAM [ARGS..]")
    parsed = parser.parse_args(_detached(words))
    if parsed.program and parsed.program[0] == "--":
        del parsed.program[0]
    return parsed


def _count(word: str) -> int:
    """A number of events. Raises ArgumentTypeError for others."""
    count = int(word)
    if count < 1:
        raise argparse.ArgumentTypeError("it isn't from 1 on")
    return count


def _detached(words: List[str]) -> List[str]:
    """The arguments, with `-mMODULE`, which Python accepts, as two of them."""
    takes_word = ("-o", "--test", "--plain", "--redact", "--last", "--from", *TAKE_WORD)
    before = ""
    for place, word in enumerate(words):
        if before not in takes_word:
            if not word.startswith("-") or word in ("-", "--", "-m"):
                break
            if word.startswith("-m"):
                return [*words[:place], "-m", word[2:], *words[place + 1 :]]
        before = word
    return words


def _check(arguments: argparse.Namespace) -> None:
    """Raises Refused where the words don't go together."""
    plain: Set[str] = set(filter(None, arguments.plain.split(",")))
    unknown = plain - KINDS
    if unknown:
        raise Refused(USAGE, f"--plain has no {', '.join(sorted(unknown))}: {', '.join(sorted(KINDS))}")
    if arguments.redact not in (None, *CHOICES):
        raise Refused(USAGE, f"--redact has no {arguments.redact}: {', '.join(CHOICES)}")
    if arguments.module == []:
        raise Refused(USAGE, "-m needs a MODULE")
    wanted = [bool(arguments.program), bool(arguments.module), bool(arguments.test)]
    if arguments.notes_of is not None:
        _check_from(arguments, any(wanted))
        return
    if not any(wanted):
        raise Refused(USAGE, "a PROGRAM, -m MODULE or --test MODULE.CLASS.METHOD is needed; --help says more")
    if arguments.test and arguments.last is not None:
        raise Refused(USAGE, "--last is for programs and modules, and not for --test")
    if (arguments.notes or arguments.keep_notes) and (arguments.test or arguments.last is not None):
        raise Refused(USAGE, "--notes is for whole runs of programs and modules, and goes neither with --test nor with --last")
    if wanted.count(True) > 1:
        raise Refused(USAGE, "one of PROGRAM, -m MODULE and --test MODULE.CLASS.METHOD is taken, and not two")
    problem = problem_of(arguments)
    if problem:
        raise Refused(USAGE, problem)


def _check_from(arguments: argparse.Namespace, has_program: bool) -> None:
    """Raises Refused if something stands beside --from that is decided when the notes are written."""
    others = [arguments.redact, arguments.plain, arguments.last, arguments.virtual, arguments.notes, arguments.keep_notes]
    others += [arguments.shake is not None, arguments.seed is not None]
    if has_program or any(others):
        raise Refused(USAGE, "--from runs nothing, and goes with -o, -f and --view alone: the notes say the rest")


def _refuse_module(name: str) -> None:
    """Raises Refused where no module of this name can be run."""
    try:
        spec = importlib.util.find_spec(name)
    except (ImportError, ValueError):
        spec = None
    if spec is None:
        raise Refused(_NO_PROGRAM, f"{name} isn't a module")
    folders = spec.submodule_search_locations
    if folders is not None and PathFinder.find_spec(f"{name}.__main__", folders) is None:
        raise Refused(_NO_PROGRAM, f"{name} is a package, and has no module __main__ that could be run")


def _target(arguments: argparse.Namespace) -> Tuple[str, List[str]]:
    """The module or the file that is run, and the words for it. Raises Refused where there is none."""
    target, *words = arguments.module or arguments.program
    if arguments.module:
        _refuse_module(target)
        return target, words
    if not is_runnable(target):
        found = shutil.which(target) if os.sep not in target else None
        if found is None or not _is_python(found):
            raise Refused(_NO_PROGRAM, f"{target} isn't a file" + (", nor a Python script on the PATH" if os.sep not in target else ""))
        target = found
    return target, words


def _is_python(path: str) -> bool:
    """Whether the first line of a file says that it is a Python script."""
    try:
        with open(path, "rb") as file:
            line = file.readline(256)
    except OSError:
        return False
    return line.startswith(b"#!") and b"python" in line


def _name(output: Optional[str], usual: str) -> str:
    """NAME: the one that is given, or the usual one, which stands in a folder that is given."""
    return os.path.join(output, usual) if output and output.endswith(os.sep) else output or usual


def _keeping(arguments: argparse.Namespace, name: str, messages: Messages) -> Keeping:
    """Where the recording is kept. Raises Refused where it can't be."""
    place = Place(name, arguments.overwrites)
    try:
        compared = [COMPARED, ORDERS_SCRIPT] if arguments.shake is not None else []
        place.check([".json", ".journal", PLACES, *([".html"] if arguments.view else []), *compared])
    except NoPlace as why:
        raise Refused(Status.NOT_WRITTEN, str(why)) from None
    return Keeping(place, messages, arguments.view, program())


def _usual_name(arguments: argparse.Namespace, target: str) -> str:
    """NAME of a recording of the module or the file."""
    return _name(arguments.output, target.split(".")[-1] if arguments.module else Path(os.path.abspath(target)).stem)


def _program(arguments: argparse.Namespace, messages: Messages) -> int:
    target, words = _target(arguments)
    status, kept = _record(arguments, messages, target, words, _usual_name(arguments, target))
    return ProgramStatus(status or kept)


def _record(arguments: argparse.Namespace, messages: Messages, target: str, words: List[str], name: str) -> Tuple[int, int]:
    """Records a run of a program. Gives its status, and what became of the recording."""
    kinds = KINDS - set(arguments.plain.split(","))
    keeping = _keeping(arguments, name, messages)
    redact = arguments.redact or SECRETS
    recorder: Recorder
    if arguments.notes or arguments.keep_notes:
        notes = _notes(keeping, arguments.overwrites, redact, messages)
        recorder = NotedRecorder(kinds, redact)
        keeper = Keeper(recorder, keeping, notes=notes, keeps_notes=arguments.keep_notes)
    elif arguments.last is None:
        recorder = Recorder(kinds, redact)
        keeper = Keeper(recorder, keeping)
    else:
        recorder = LastRecorder(kinds, redact, arguments.last, lambda following: keeper.take_over(following))
        keeper = Keeper(recorder, keeping, _keeping(arguments, f"{name}.before", messages))
    with Endings(keeper).watched():
        status = record_program(recorder, target, words, bool(arguments.module), arguments.virtual)
        kept = keeper.keep(f"status {status}")
    return status, kept


def _shake(arguments: argparse.Namespace, messages: Messages) -> int:
    """Runs a program many times, in processes of their own."""
    target, words = _target(arguments)
    is_module = bool(arguments.module)
    arguments.view = True
    keeping = _keeping(arguments, _usual_name(arguments, target), messages)

    def recorded(name: str) -> int:
        return _record(arguments, Messages(command_name("record")), target, words, name)[0]

    program = Program(lambda: run_plain(target, words, is_module), recorded)
    return Search(program, wanted_of(arguments), keeping.place, messages).run()


def _shake_tests(arguments: argparse.Namespace, messages: Messages) -> int:
    """Shakes each test of this name alone. Gives 1 if one of them failed, and else 2 if one fails unshaken."""
    try:
        names = names_of(arguments.test)
    except NotLoaded as why:
        raise Refused(_NO_PROGRAM, str(why)) from None
    reactor = arguments.reactor or ""
    if reactor and not has_reactor(reactor):
        raise Refused(USAGE, f"there is no reactor {reactor}")
    tally = Tally()
    with tempfile.TemporaryDirectory(prefix="deferreds.") as room:
        for name in names:
            messages.say(name)
            search = _search_of_test(arguments, messages, ShakenTest(name, room, reactor), len(names) == 1)
            tally.add(name, search.run(), search.met)
    if len(names) > 1:
        messages.say(tally.said)
    return tally.status


def _shaken_once(arguments: argparse.Namespace, messages: Messages) -> int:
    """Records one run of a program, which is shaken."""
    shaker = Shaker(Choices(settings_of(arguments)))
    install_shaking(shaker)
    try:
        return _program(arguments, messages)
    finally:
        if shaker.fast is not None:
            messages.say(shaker.fast.waits.said)


def _search_of_test(arguments: argparse.Namespace, messages: Messages, test: ShakenTest, is_only: bool) -> Search:
    """The search that shakes a test. Its recording has the name of its method, or that of its class, too, if it isn't the only one."""
    arguments.view = True
    parts = test.name.split(".")
    usual = parts[-1] if is_only else ".".join(parts[-2:])
    kinds = KINDS - set(arguments.plain.split(","))

    def recorded(name: str) -> int:
        install()
        recorder = Recorder(kinds, arguments.redact or SECRETS)
        keeper = Keeper(recorder, _keeping(arguments, name, Messages(command_name("record"))))
        with Endings(keeper).watched():
            status = record_one(test, recorder)
            keeper.keep("failed" if status else "passed")
        return status

    place = _keeping(arguments, _name(arguments.output, usual), messages).place
    return Search(Program(lambda: run_test(test), recorded, test.clear), wanted_of(arguments), place, messages)


def _notes(keeping: Keeping, overwrites: bool, redact: str, messages: Messages) -> NotesFile:
    """A new file of notes. What a run that was killed has left keeps its notes, under another name. Raises Refused where none can be made."""
    path = keeping.place.name_with(NOTES)
    if os.path.lexists(path):
        if _are_notes(path):
            os.replace(path, keeping.place.name_with(_EARLIER))
            messages.say(f"{keeping.place.shown(NOTES)} is of a run that didn't end well: it is {keeping.place.shown(_EARLIER)} now")
        elif overwrites and not path.is_dir():
            path.unlink()
        else:
            raise Refused(Status.NOT_WRITTEN, f"{keeping.place.shown(NOTES)} is there, and isn't a file of notes; -o NAME gives another name")
    try:
        file = NotesFile(path, messages.say)
    except OSError as error:
        raise Refused(Status.NOT_WRITTEN, f"{keeping.place.shown(NOTES)} can't be written: {error.strerror}") from None
    file.add(header(redact, str(twisted.__version__), platform.python_version(), time()))
    return file


def _are_notes(path: Path) -> bool:
    """Whether a file begins as notes do."""
    with contextlib.suppress(OSError, BadNotes):
        noted(list(islice(read_notes(path), 1)))
        return True
    return False


def _from_notes(arguments: argparse.Namespace, messages: Messages) -> int:
    """Makes the recording of notes."""
    path = Path(arguments.notes_of)
    stem = path.name[: -len(NOTES)] if path.name.endswith(NOTES) else path.name
    keeping = _keeping(arguments, _name(arguments.output, stem) if arguments.output else str(path.with_name(stem)), messages)
    try:
        found = noted(read_notes(path))
        said = Said(found.recorder, found.ended)
    except OSError as error:
        raise Refused(_NO_PROGRAM, f"{path} can't be read: {error.strerror}") from None
    except BadNotes as why:
        raise Refused(Status.REFUSED, f"{path} can't be read: {why}") from None
    except MemoryError:
        raise Refused(Status.NOT_WRITTEN, f"{path} can't be read: out of memory") from None
    except Exception as error:  # (notes that don't go together may have anything fail)
        raise Refused(Status.REFUSED, f"{path} can't be read: its notes don't go together ({type(error).__name__})") from None
    keeping.twisted, keeping.python = found.twisted, found.python
    try:
        return keeping.keep(said, found.how or NOT_NOTED)
    except Exception as error:
        raise Refused(Status.REFUSED, f"no recording can be made of {path} ({type(error).__name__})") from None


def _test(arguments: argparse.Namespace, messages: Messages) -> int:
    try:
        found = tests_of(arguments.test)
    except NotLoaded as why:
        raise Refused(_NO_PROGRAM, str(why)) from None
    if len(found) != 1:
        raise Refused(_NO_PROGRAM, f"{arguments.test} isn't one test")
    keeping = _keeping(arguments, _name(arguments.output, found[0][1]), messages)
    best: Optional[Tuple[TestRun, Said]] = None
    ladder = [KINDS - set(arguments.plain.split(","))] if arguments.plain else LADDER
    for kinds in ladder:
        run = record_test(*found[0], kinds, arguments.virtual, arguments.redact or SECRETS)
        said = Said(run.recorder)
        best = best or (run, said)
        if said.script is not None and len(said.problems) == len(said.too_large):
            best = run, said
            break
    assert best is not None
    run, said = best
    if not run.passed:
        messages.say(f"{arguments.test} has failed: {run.why}")
    kept = keeping.keep(said, "passed" if run.passed else "failed")
    return kept if run.passed else 1


def main(words: List[str]) -> int:
    """The command."""
    messages = Messages(command_name("record"))
    try:
        arguments = _arguments(words)
        _check(arguments)
        if arguments.notes_of is not None:
            return _from_notes(arguments, messages)
        if arguments.shake is None:
            install()
        if arguments.module or arguments.test:
            # modules are looked for as `python3 -m` does it, also where the command is installed
            set_first_folder(os.getcwd())
        if arguments.shake is not None:
            with stopped_by_signals():
                return _shake_tests(arguments, messages) if arguments.test else _shake(arguments, messages)
        if arguments.seed is not None:
            return _shaken_once(arguments, messages)
        return _test(arguments, messages) if arguments.test else _program(arguments, messages)
    except Refused as why:
        messages.say(str(why))
        return why.status
