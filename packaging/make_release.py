"""`make_release VERSION`, `make_release --check`, `make_release --stamp`: makes a release of these sources, and checks one.

VERSION, as 0.1.0, has to have its section in CHANGELOG.md. The gate proves the sources and builds the program, which is put into
`release/x86_64-linux` beside its SHA-256 and the checksum of its sources. A wheel and a Debian package are made in `dist`.

`--check` says whether the release is whole, and names one version and its own sources. Where a program is built here of the sources
of the release, by the kit that it names, it has to be the released one, byte for byte: another kit may compile the same sources to
other bytes. `--stamp` has the program say, by `--version`, of which sources it is.

Status 0: made, or nothing is wrong; 1: something is wrong; 4: standard output can't be written; 64: the arguments are wrong;
70: a tool is missing or failed.
"""

from __future__ import annotations

import argparse
import filecmp
import hashlib
import re
import shutil
import subprocess
import sys
from pathlib import Path
from typing import List, Optional

from command import Parser, run_command

TOP = Path(__file__).resolve().parent.parent
RELEASED = TOP / "release" / "x86_64-linux"
BUILT = TOP / "crates" / "deferreds" / "out" / "deferreds"
STAMP = TOP / "crates" / "deferreds" / "src" / "version.rt"
CHANGELOG = TOP / "CHANGELOG.md"
PYPROJECT = TOP / "pyproject.toml"

_VERSION = re.compile(r"\d+\.\d+\.\d+")
_STAMPED = re.compile(r'"deferreds (\S+?)\\nsources (.*?)\\nkit (.*?)\\n"')


class Failed(Exception):
    """Why no release is made, as a line, and the status to end with."""

    def __init__(self, reason: str, status: int = 1) -> None:
        super().__init__(reason)
        self.status = status


def output_of(words: List[str]) -> str:
    """What a command prints, as a line."""
    try:
        ran = subprocess.run(words, cwd=TOP, stdout=subprocess.PIPE, text=True, check=False)
    except OSError as error:
        raise Failed(f"{words[0]} can't be run: {error.strerror}", 70) from None
    if ran.returncode != 0:
        raise Failed(f"{' '.join(words)} failed with status {ran.returncode}", 70)
    return ran.stdout.strip()


def run(words: List[str]) -> None:
    """Runs a command, which prints what it prints."""
    try:
        status = subprocess.run(words, cwd=TOP, check=False).returncode
    except OSError as error:
        raise Failed(f"{words[0]} can't be run: {error.strerror}", 70) from None
    if status != 0:
        raise Failed(f"{' '.join(words)} failed with status {status}", 70)


def sources() -> str:
    """The checksum of these sources."""
    return output_of([str(TOP / "deferreds"), "--sources"])


def sha256(path: Path) -> str:
    """The SHA-256 of a file, in hexadecimal."""
    return hashlib.sha256(path.read_bytes()).hexdigest()


def text_of(path: Path) -> str:
    """The text that a file of the repository holds."""
    try:
        return path.read_text(encoding="utf-8")
    except UnicodeDecodeError:
        raise Failed(f"{path.relative_to(TOP)} isn't UTF-8") from None


class Stamp:
    """What the program says by `--version`."""

    def __init__(self, version: str, of_sources: str, kit: str) -> None:
        self.version = version
        self.sources = of_sources
        self.kit = kit

    @staticmethod
    def read() -> "Stamp":
        """As it stands in the sources."""
        found = _STAMPED.search(text_of(STAMP))
        if found is None:
            raise Failed(f"{STAMP.relative_to(TOP)} doesn't have the form that --stamp writes")
        return Stamp(*found.groups())

    def write(self) -> None:
        """Has it stand in the sources, of which its file is no part."""
        text = text_of(STAMP)
        mine = f'"deferreds {self.version}\\nsources {self.sources}\\nkit {self.kit}\\n"'
        STAMP.write_text(_STAMPED.sub(lambda _: mine, text), encoding="utf-8")


def stamp(version: Optional[str] = None) -> None:
    """Stamps the sources with their checksum, the kit that is here, and a version, or the one that they have."""
    Stamp(version or Stamp.read().version, sources(), output_of(["rt", "version"])).write()


def has_section(version: str) -> bool:
    """Whether the CHANGELOG has a section for a version."""
    heading = re.compile(rf"## \[?{re.escape(version)}\b")
    return any(heading.match(line) for line in text_of(CHANGELOG).splitlines())


def faults() -> List[str]:
    """What is wrong with the release, a line each."""
    stamped, here = Stamp.read(), sources()
    found: List[str] = []
    if stamped.sources != here:
        found.append(f"{STAMP.relative_to(TOP)} names other sources than these: ./make_release --stamp writes it")
    if not has_section(stamped.version):
        found.append(f"CHANGELOG.md has no section for {stamped.version}")
    if f'version = "{stamped.version}"' not in text_of(PYPROJECT):
        found.append(f"pyproject.toml has another version than {stamped.version}")
    return found + faults_of_program(here, stamped.kit)


def faults_of_program(here: str, kit: str) -> List[str]:
    """What is wrong with the released program, which this kit has built of sources, a line each."""
    program, of_sources, sums = (RELEASED / name for name in ("deferreds", "sources", "SHA256SUMS"))
    for path in (program, of_sources, sums):
        if not path.is_file():
            return [f"{path.relative_to(TOP)} isn't there"]
    if text_of(sums) != f"{sha256(program)}  deferreds\n":
        return ["release/x86_64-linux/deferreds has another SHA-256 than SHA256SUMS says"]
    if text_of(of_sources).strip() != here:
        print("make_release: it is of other sources than these, so no program is compared with it")
        return []
    if not BUILT.is_file() or output_of([str(TOP / "deferreds"), "--program"]) != str(BUILT):
        print("make_release: no program is built here, so none is compared with it")
        return []
    if output_of(["rt", "version"]) != kit:
        print(f"make_release: it is of {kit}, and the program that is built here of another kit, so their bytes aren't compared")
        return []
    if not filecmp.cmp(BUILT, program, shallow=False):
        return ["the program that is built here isn't the released one, though the release says that it is of these sources"]
    print("make_release: the program that is built here is the released one, byte for byte")
    return []


def check() -> None:
    """Raises where something is wrong with the release."""
    found = faults()
    for line in found:
        print(f"make_release: {line}", file=sys.stderr)
    if found:
        raise Failed(f"{len(found)} wrong")


def make(version: str, gate: bool) -> None:
    """Makes the release of this version."""
    if _VERSION.fullmatch(version) is None:
        raise Failed(f"{version} is no version: 0.1.0 is one", 64)
    if not has_section(version):
        raise Failed(f"CHANGELOG.md has no section `## {version}`")
    run([sys.executable, "packaging/set_version.py", version])
    stamp(version)
    run(["rt", "ci"] if gate else [str(TOP / "deferreds"), "--build"])
    take_program()
    check()
    dist = TOP / "dist"
    dist.mkdir(exist_ok=True)
    for maker in ("wheel.py", "debian.py"):
        run([sys.executable, f"packaging/{maker}", str(dist)])
    for path in [RELEASED / "deferreds", *sorted(dist.glob(f"*{version}*"))]:
        print(f"{sha256(path)}  {path.relative_to(TOP)}")


def take_program() -> None:
    """Puts the program that is built here into the release."""
    built = Path(output_of([str(TOP / "deferreds"), "--program"]))
    if built != BUILT:
        raise Failed("no program is built from these sources", 70)
    RELEASED.mkdir(parents=True, exist_ok=True)
    shutil.copyfile(built, RELEASED / "deferreds")
    (RELEASED / "deferreds").chmod(0o755)
    (RELEASED / "sources").write_text(sources() + "\n", encoding="utf-8")
    (RELEASED / "SHA256SUMS").write_text(f"{sha256(built)}  deferreds\n", encoding="utf-8")


def main() -> int:
    parser = Parser(prog="make_release", description=__doc__, formatter_class=argparse.RawDescriptionHelpFormatter)
    what = parser.add_mutually_exclusive_group(required=True)
    what.add_argument("version", nargs="?", metavar="VERSION", help="make a release of this version")
    what.add_argument("--check", action="store_true", help="check the release in this repository")
    what.add_argument("--stamp", action="store_true", help="have the program say of which sources it is")
    parser.add_argument("--without-gate", action="store_true", help="prove what the program stands on alone, and not tests and laws")
    asked = parser.parse_args()
    try:
        if asked.check:
            check()
        elif asked.stamp:
            stamp()
        else:
            make(asked.version, not asked.without_gate)
    except Failed as failed:
        print(f"make_release: {failed}", file=sys.stderr)
        return failed.status
    except BrokenPipeError:
        raise
    except OSError as error:
        print(f"make_release: {error.filename} can't be read or written: {error.strerror}", file=sys.stderr)
        return 1
    except KeyboardInterrupt:
        print("make_release: interrupted", file=sys.stderr)
        return 130
    return 0


if __name__ == "__main__":
    run_command(main, "make_release")
