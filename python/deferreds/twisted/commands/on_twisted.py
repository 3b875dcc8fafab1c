"""`on_twisted < SCRIPT`: runs the script on real Twisted, and prints journal and outcomes as `deferreds` does.

Status 0: all events ran; 1: the run stopped at the limit of its journal; 2: the script is refused, for the reason on
standard error; 4: standard input or output failed; 64: the arguments are wrong; 70: Twisted isn't there or isn't known.
"""

from __future__ import annotations

import argparse
import json
import sys
from typing import BinaryIO, List, Optional, Tuple

from ...arguments import Parser
from ...ending import writing
from .. import grammar
from ..instruments import install
from ..running import Batches, be_quiet, run, with_room
from ..script import Refused

Answer = Tuple[int, bytes, bytes]

#: the status if standard input can't be read, which is that of `deferreds`
_NOT_READ = 4


def answer(data: bytes, batches: Optional[Batches] = None, errors_end_advances: bool = False) -> Answer:
    """The exit status for a script, and what is written to standard output and standard error."""
    try:
        ran = run(data, batches, errors_end_advances)
    except Refused as refused:
        return 2, b"", f"{refused}\n".encode()
    return ran.status, ran.output.encode(), b""


def serve(reader: BinaryIO, writer: BinaryIO) -> int:
    """Answers script after script: `LENGTH [BATCHES]` and the script; `STATUS LENGTH LENGTH`, output and errors."""
    for line in iter(reader.readline, b""):
        length, _, batches = line.strip().partition(b" ")
        try:
            size, taken = int(length), batches_of(batches.decode()) if batches else None
        except ValueError:
            print("on_twisted: a line of --many is LENGTH [BATCHES], as docs/PORTING.md says", file=sys.stderr)
            return 64
        status, output, errors = answer(reader.read(max(size, 0)), taken)
        with writing():
            writer.write(b"%d %d %d\n" % (status, len(output), len(errors)) + output + errors)
            writer.flush()
    return 0


def batches_of(text: str) -> Batches:
    """The batches of posts that a JSON text holds. Raises ValueError where it holds something else."""
    try:
        held = json.loads(text)
    except RecursionError:
        raise ValueError("nested too deep") from None
    if not (_is_list(held) and all(map(_is_list, held)) and all(_is_post(post) for batch in held for post in batch)):
        raise ValueError("not an array of arrays of [CALLER,POST]")
    return [[(caller, post) for caller, post in batch] for batch in held]


def _batches(word: str) -> Batches:
    """The batches that a word of the command holds."""
    try:
        return batches_of(word)
    except ValueError:
        raise argparse.ArgumentTypeError("it isn't a JSON array of arrays of [CALLER,POST]") from None


def _is_list(value: object) -> bool:
    return isinstance(value, list)


def _is_post(value: object) -> bool:
    return isinstance(value, list) and len(value) == 2 and all(type(number) is int and number >= 0 for number in value)


def _arguments(words: List[str]) -> argparse.Namespace:
    parser = Parser(prog="on_twisted", description=__doc__.split("\n", 1)[0])
    parser.add_argument(
        "--batches",
        type=_batches,
        metavar="BATCHES",
        help="the posts that each drain takes, and those at the end: a JSON array of arrays of [CALLER,POST]",
    )
    parser.add_argument(
        "--errors-end-advances",
        action="store_true",
        help="an error of a delayed call ends the advance that runs it, as with Twisted's Clock; without this it is logged, and the advance "
        "goes on, as under a reactor",
    )
    parser.add_argument(
        "--many", action="store_true", help="answer script after script, as docs/PORTING.md says"
    )
    return parser.parse_args(words)


def _once(arguments: argparse.Namespace) -> int:
    """Answers the script of standard input."""
    try:
        data = sys.stdin.buffer.read(grammar.WIDEST_BYTES + 1)
    except OSError as error:
        return _not_read(error)
    status, output, errors = answer(data, arguments.batches, arguments.errors_end_advances)
    with writing():
        sys.stdout.buffer.write(output)
        sys.stdout.buffer.flush()
    sys.stderr.buffer.write(errors)
    return status


def _serve_all() -> int:
    """Answers all scripts of standard input."""
    try:
        return serve(sys.stdin.buffer, sys.stdout.buffer)
    except BrokenPipeError:
        raise
    except OSError as error:
        return _not_read(error)


def _not_read(error: OSError) -> int:
    print(f"on_twisted: standard input can't be read: {error.strerror}", file=sys.stderr)
    return _NOT_READ


def main(words: List[str]) -> int:
    """The command."""
    arguments = _arguments(words)
    be_quiet()
    install()
    return with_room(_serve_all if arguments.many else lambda: _once(arguments))
