#!/usr/bin/env python3
"""Prints what a reader has to believe: the definitions that the headline rests on, as the table of crates/dv_definition/README.md.

The headline is `Prints` of dv_run. A definition rests on those that its text names, in its own module or by an import. Those of the
crates of the kit count too, so the kit has to be here. What is read off the Rust types (`specs.declared`) and the words of the
standard library are not counted; nor are imports, comments and blank lines.
"""

import re
import shutil
import subprocess
import sys
from dataclasses import dataclass, field
from functools import cache
from pathlib import Path

TOP = Path(__file__).resolve().parent.parent
HEADLINE = ("dv_run", "Headline", "Prints")

#: the crates of the kit whose words aren't counted: the standard library
STANDARD = {"core", "std"}

Module = tuple[str, str]
Name = tuple[str, str, str]

SIGNATURE = re.compile(r"^(?:(?:abbrev|unfoldable|pub) (?:pub )?(?:record |data )?|(?:record|data) )(\S+) ?[:({]")
NESTED = re.compile(r"^ +(?:(?:abbrev|unfoldable) (?:pub )?|(?:pub )?(?:record|data) )(\S+) ?[:({]")
MUTUAL = re.compile(r"^(?:(?:abbrev|unfoldable) )?mutual$")
IN_MUTUAL = re.compile(r"^  (?:pub )?(\S+) : ")
CONSTRUCTOR = re.compile(r"^ +(\S+) : ")
IMPORT = re.compile(r"^(?:pub )?use Rattle\.(\w+)\.specs\.(\w+)(?: as (\w+)|\.\{(.*)\})$")
WORD = re.compile(r"[^\s(){};,.λ]+(?:\.\w+)?")
LOCAL = re.compile(r"\blet (?:(\w+)|\(([\w, ]+)\)) =")


@dataclass
class Source:
    """A module: the names that it imports, with where each stands, its modules under other names, and its definitions."""

    imported: dict[str, Name] = field(default_factory=dict)
    aliases: dict[str, Module] = field(default_factory=dict)
    homes: dict[str, str] = field(default_factory=dict)
    #: whether the line that is read stands in a block of definitions that name each other
    is_mutual: bool = False
    texts: dict[str, list[str]] = field(default_factory=dict)


@cache
def kit() -> Path:
    """The folder of the kit's crates."""
    if shutil.which("rt") is None:
        sys.exit("believed.py: there is no rt here, so the crates of the kit can't be read")
    page = subprocess.run(["rt", "doc"], capture_output=True, text=True, check=True).stdout
    return Path(page.strip()).parent / "rattle"


def home(crate: str) -> Path | None:
    """The folder of a crate, of this repository or of the kit, if its words count."""
    places = (TOP / "crates" / crate, *([] if crate in STANDARD else [kit() / crate]))
    return next((place for place in places if place.is_dir()), None)


def plain(name: str) -> str:
    """A name as it is used: an operator without its places."""
    return name.strip("◌")


def add_import(source: Source, line: str) -> None:
    """Notes what an import brings, unless its words don't count."""
    match = IMPORT.match(line)
    if match is None or match[2] == "declared" or home(match[1]) is None:
        return
    module = (match[1], match[2])
    if match[3]:
        source.aliases[match[3]] = module
        return
    for part in match[4].split(", "):
        name, _, other = part.partition(" as ")
        source.imported[plain(other or name)] = (*module, plain(name))


def add_line(source: Source, current: str, line: str) -> str:
    """Adds a line to the definition that it is of, and answers which that is."""
    if not line.startswith(" "):
        source.is_mutual = MUTUAL.match(line) is not None
    begins = SIGNATURE.match(line) or NESTED.match(line) or (source.is_mutual and IN_MUTUAL.match(line))
    constructor = CONSTRUCTOR.match(line)
    if begins:
        current = plain(begins[1])
        source.homes[current] = current
    elif constructor:
        source.homes.setdefault(constructor[1], current)
    source.texts.setdefault(current, []).append(line)
    return current


@cache
def read(module: Module) -> Source:
    """A module, read from its file."""
    source, current = Source(), ""
    folder = home(module[0])
    assert folder is not None, "only modules whose words count are read"
    path = folder / "specs" / f"{module[1]}.antt"
    for line in path.read_text(encoding="utf-8").splitlines():
        if line.startswith(("use ", "pub use ")):
            add_import(source, line)
        elif line.strip() and not line.lstrip().startswith(("--", "infix")):
            current = add_line(source, current, line)
    return source


def resolve(module: Module, word: str) -> Name | None:
    """The definition that a word of a module names."""
    source = read(module)
    first, _, rest = word.partition(".")
    if first in source.aliases and rest in read(source.aliases[first]).homes:
        return (*source.aliases[first], read(source.aliases[first]).homes[rest])
    if first in source.imported:
        crate, other, name = source.imported[first]
        return resolve((crate, other), name)
    return (*module, source.homes[first]) if first in source.homes else None


def rests_on(name: Name) -> set[Name]:
    """The definitions that the text of one names. A name that the text itself gives to something is none of them."""
    module = name[:2]
    text = "\n".join(read(module).texts[name[2]])
    local = {name for one, several in LOCAL.findall(text) for name in (one, *several.split(", "))}
    words = [word for word in WORD.findall(text) if word.partition(".")[0] not in local]
    return {found for found in (resolve(module, word) for word in words) if found}


def all_below(first: Name) -> set[Name]:
    """A definition and all that it rests on."""
    seen, left = {first}, [first]
    while left:
        new = rests_on(left.pop()) - seen
        seen |= new
        left.extend(new)
    return seen


def main() -> int:
    ours = [line.split(":")[0] for line in (TOP / "crates.txt").read_text(encoding="utf-8").splitlines()]
    sizes: dict[Module, int] = {}
    for name in all_below(HEADLINE):
        sizes[name[:2]] = sizes.get(name[:2], 0) + len(read(name[:2]).texts[name[2]])
    print("| Crate | Modules, and the lines of each that the headline rests on | Lines |\n|---|---|---|")
    used = {module[0] for module in sizes}
    for crate in [*sorted(used.difference(ours)), *[name for name in ours if name in used]]:
        own = sorted((module[1], size) for module, size in sizes.items() if module[0] == crate)
        print(f"| `{crate}` | {', '.join(f'`{module}` {size}' for module, size in own)} | {sum(size for _, size in own)} |")
    print(f"\n{len(sizes)} modules, {sum(sizes.values())} lines.")
    return 0


if __name__ == "__main__":
    sys.exit(main())
