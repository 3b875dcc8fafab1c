"""`check [STAGE ..]`: runs the checks that need no proof, on the program that is built or released for these sources.

Without arguments all stages run, two side by side. A stage that needs a tool which isn't here is left out, and the last lines name it.
Status 0: all that ran passed; 1: a stage failed; 4: standard output can't be written; 64: the arguments are wrong; 70: there is no program for these sources.
"""

from __future__ import annotations

import argparse
import os
import shutil
import subprocess
import sys
import time
from concurrent.futures import ThreadPoolExecutor
from typing import Callable, Dict, List, NamedTuple, Optional

from deferreds.arguments import USAGE, Parser
from deferreds.ending import run_command

from programs import TOP, program_here

_PYTHON = sys.executable
_MOST_SHOWN = 4_000


def nothing() -> Optional[str]:
    """What a stage that needs nothing lacks."""
    return None


def no_compiler() -> Optional[str]:
    """What the sweep of faults lacks."""
    return None if shutil.which(os.environ.get("CC", "cc")) else "a C compiler isn't here"


def no_mypy() -> Optional[str]:
    """What the checking of types lacks."""
    return None if shutil.which("mypy") else "mypy isn't here"


def twisted_python() -> Optional[str]:
    """A Python that has Twisted."""
    asked = subprocess.run(
        ["sh", "-c", '. python/find_python; printf "%s" "$python"'], cwd=TOP, capture_output=True, text=True, check=False
    )
    return asked.stdout if asked.returncode == 0 else None


def no_twisted() -> Optional[str]:
    """What the comparison with real Twisted lacks."""
    return None if twisted_python() else "no Python here has Twisted"


def no_compiler_or_twisted() -> Optional[str]:
    """The tools that the sweep of the recorder lacks."""
    return no_compiler() or no_twisted()


class Stage(NamedTuple):
    """Some checks: their name, what they show, their commands, and what they lack."""

    name: str
    shows: str
    commands: List[List[str]]
    lacks: Callable[[], Optional[str]] = nothing
    #: variables that its commands get
    variables: Dict[str, str] = {}


def unittests(folder: str, *words: str) -> List[str]:
    """The command that runs the tests of a folder."""
    return [_PYTHON, "-m", "unittest", "discover", "-s", folder, *words]


STAGES = [
    Stage("release", "the release is complete, and is of its version and sources", [["./make_release", "--check"]]),
    Stage("launcher", "./deferreds runs the right program, or says why it runs none", [unittests("checks")]),
    Stage("rows", "each row ends and prints as it says, also in given batches and in every order", [
        [_PYTHON, "checks/rows.py"], [_PYTHON, "checks/batches.py"], [_PYTHON, "checks/orders.py", "--random", "30"],
    ]),
    Stage("outputs", "each output that a page shows is what is printed", [[_PYTHON, "checks/documented.py"]]),
    Stage("reference", "each point of docs/reference, by its program on real Twisted and its script; and the pages",
          [["python/make_reference"]]),
    Stage("language", "the tables of pages, and the schema of scripts, are those of the language",
          [unittests("python/language_tests", "-t", "python")], variables={"EACH": "4"}),
    Stage("json", "runs as JSON agree with their journals, and with rows worked out by hand",
          [["python/check_json", "--each", "4", "--random", "500"]]),
    Stage("faults", "failed allocations, reads and writes, on a sample of scripts",
          [unittests("faults"), ["faults/sweep.py", "--sample"]], no_compiler),
    Stage("bench", "the measuring of speed, not the speed", [unittests("bench")]),
    Stage("view", "the view, except what needs a browser", [unittests("python/view_tests", "-t", "python")],
          variables={"CHROMIUM": ""}),
    Stage("packages", "the wheel and the Debian package install and run", [unittests("python/packaging_tests", "-t", "python")]),
    Stage("types", "the types of the Python package", [["python/check_types"]], no_mypy),
    Stage("recorder", "the recorder, and scripts on real Twisted", [[_PYTHON, "python/tests/side_by_side.py"]], no_twisted),
    Stage("keeping", "recordings are whole whatever fails while they are written, on a sample of programs",
          [[_PYTHON, "faults/recorder_sweep.py", "--sample", "--growths", "10"]], no_compiler_or_twisted),
    Stage("conform", "real Twisted agrees with all rows, and with random scripts", [
        ["./conform", "--rows", "--many", "--", "./on_twisted"],
        ["./conform", "--random", "500", "--seed", "1", "--many", "--", "./on_twisted"],
    ], no_twisted),
]


class Result(NamedTuple):
    """How a stage ended: what it lacked, or what it printed where it failed."""

    stage: Stage
    seconds: float
    lacks: Optional[str] = None
    failed: Optional[str] = None
    last: str = ""


def run_stage(stage: Stage) -> Result:
    """Runs a stage to its first command that fails."""
    began = time.monotonic()
    lacks = stage.lacks()
    if lacks is not None:
        return Result(stage, 0, lacks=lacks)
    last = ""
    environment = {**os.environ, **stage.variables}
    if stage.lacks is no_twisted:
        environment["PYTHON"] = twisted_python() or _PYTHON
    for command in stage.commands:
        words = [environment["PYTHON"], *command[1:]] if stage.lacks is no_twisted and command[0] == _PYTHON else command
        ran = subprocess.run(words, cwd=TOP, env=environment, stdout=subprocess.PIPE, stderr=subprocess.STDOUT, check=False)
        said = ran.stdout.decode("utf-8", "replace").strip()
        if ran.returncode != 0:
            return Result(stage, time.monotonic() - began, failed=f"{' '.join(command)}: status {ran.returncode}\n{said[-_MOST_SHOWN:]}")
        last = said.rsplit("\n", 1)[-1]
    return Result(stage, time.monotonic() - began, last=last)


def show(result: Result) -> None:
    """Prints how a stage ended, as soon as it has."""
    if result.failed is not None:
        print(f"{result.stage.name}: FAILED: {result.stage.shows}\n{result.failed}", flush=True)
    elif result.lacks is None:
        print(f"{result.stage.name}: passed in {result.seconds:.0f} s: {result.stage.shows} ({result.last})", flush=True)


def run_stages(stages: List[Stage]) -> List[Result]:
    """Runs stages, two side by side, and shows each as it ends."""
    results: List[Result] = []
    with ThreadPoolExecutor(2) as pool:
        for result in pool.map(run_stage, stages):
            show(result)
            results.append(result)
    return results


def main() -> int:
    parser = Parser(
        prog="check", description=__doc__, formatter_class=argparse.RawDescriptionHelpFormatter,
        epilog="stages:\n" + "\n".join(f"  {stage.name:10} {stage.shows}" for stage in STAGES),
    )
    parser.add_argument("stages", nargs="*", metavar="STAGE", help="a stage to run alone")
    asked = parser.parse_args()
    named = {stage.name: stage for stage in STAGES}
    for name in asked.stages:
        if name not in named:
            print(f"check: {name} is no stage: {', '.join(named)}", file=sys.stderr)
            return USAGE
    program_here()
    began = time.monotonic()
    results = run_stages([named[name] for name in asked.stages] or STAGES)
    left_out = [result for result in results if result.lacks is not None]
    for result in left_out:
        print(f"left out: {result.stage.name}: {result.lacks}")
    failed = sum(result.failed is not None for result in results)
    print(f"{len(results) - len(left_out) - failed} stages passed, {failed} failed, {len(left_out)} left out, in {time.monotonic() - began:.0f} s")
    return 1 if failed else 0


if __name__ == "__main__":
    run_command(main, "check")
