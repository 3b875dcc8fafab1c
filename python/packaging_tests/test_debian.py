"""Debian's package: its bytes, what it says of itself, and what runs from where it is unpacked."""

from __future__ import annotations

import gzip
import os
import sys
import tempfile
import unittest
from pathlib import Path
from typing import Optional

from deferreds.checkout import TOP

from .support import (
    JOURNAL,
    PROGRAM,
    PROJECT,
    RELEASED,
    SCRIPT,
    PackagingTest,
    Ran,
    copy_checkout,
    journal,
    needs_dpkg,
    needs_release,
    needs_twisted,
    run,
)

_AUTHOR = ("-c", "user.name=tests", "-c", "user.email=tests@localhost")


def _git(checkout: Path, *words: str) -> None:
    ran = run("git", *_AUTHOR, *words, cwd=checkout)
    if ran.status != 0:
        raise AssertionError(ran.errors)


def _build(checkout: Path, out: Path) -> Ran:
    return run(sys.executable, checkout / "packaging" / "debian.py", out, cwd=checkout)


@needs_dpkg
class DebianTest(PackagingTest):
    """The package of a copy of the checkout, unpacked into an empty root."""

    #: the program of the copy
    program: Optional[Path] = None

    checkout: Path
    package: Path
    root: Path

    @classmethod
    def setUpClass(cls) -> None:
        opened = tempfile.TemporaryDirectory()
        cls.addClassCleanup(opened.cleanup)
        room = Path(opened.name).resolve()
        cls.checkout, cls.root = room / "checkout", room / "root"
        cls.package = room / f"deferreds_{PROJECT.version}_amd64.deb"
        copy_checkout(cls.checkout, cls.program)
        _git(cls.checkout, "init", "-q")
        _git(cls.checkout, "add", "-A")
        _git(cls.checkout, "commit", "-q", "-m", "all")
        built = _build(cls.checkout, room)
        if built.output != f"{cls.package}\n":
            raise AssertionError(built.errors)
        unpacked = run("dpkg-deb", "-x", cls.package, cls.root, cwd=room)
        if unpacked.status != 0:
            raise AssertionError(unpacked.errors)


class Package(DebianTest):
    """What is in the file."""

    def test_it_is_the_same_bytes_for_the_same_commit(self) -> None:
        for path in self.checkout.rglob("*"):
            if ".git" not in path.parts:
                os.utime(path, (1, 1))
        self.assert_ran(_build(self.checkout, self.folder))
        self.assertTrue((self.folder / self.package.name).read_bytes() == self.package.read_bytes())

    def test_what_it_says_of_itself(self) -> None:
        for field, value in (
            ("Package", "deferreds"),
            ("Version", PROJECT.version),
            ("Architecture", "amd64"),
            ("Depends", "libc6 (>= 2.34), python3 (>= 3.9)"),
            ("Recommends", "python3-twisted"),
        ):
            self.assert_ran(run("dpkg-deb", "-f", self.package, field, cwd=self.empty), f"{value}\n")

    def test_its_sums_are_those_of_its_files(self) -> None:
        self.assert_ran(run("dpkg-deb", "-e", self.package, self.empty, cwd=self.folder))
        self.assert_ran(run("md5sum", "--check", "--quiet", self.empty / "md5sums", cwd=self.root), "")

    def test_where_its_files_lie(self) -> None:
        documents = self.root / "usr/share/doc/deferreds"
        for name in ("README.md", "CHANGELOG.md", "docs/SCRIPT.md", "examples/first.json"):
            self.assertEqual((documents / name).read_bytes(), (TOP / name).read_bytes())
        self.assertEqual((documents / "copyright").read_bytes(), (TOP / "LICENSE").read_bytes())
        manual = gzip.decompress((self.root / "usr/share/man/man1/deferreds.1.gz").read_bytes())
        self.assertEqual(manual, (TOP / "packaging/deferreds.1").read_bytes())
        executable = {path.name for path in (self.root / "usr/bin").iterdir() if os.access(path, os.X_OK)}
        self.assertEqual(executable, set(PROJECT.scripts))
        self.assertEqual((self.root / "usr/bin/deferreds").read_bytes(), (self.checkout / PROGRAM).read_bytes())

    def test_without_the_program_none_is_built(self) -> None:
        (self.checkout / PROGRAM).rename(self.folder / "aside")
        try:
            ran = _build(self.checkout, self.folder)
        finally:
            (self.folder / "aside").rename(self.checkout / PROGRAM)
        self.assert_refused(ran, 1, "no package is built", str(PROGRAM))

    def test_without_git_one_line_says_so(self) -> None:
        checkout = self.copy("other")
        ran = run(
            sys.executable, checkout / "packaging" / "debian.py", "out", cwd=checkout, path=str(self.empty)
        )
        self.assert_refused(ran, 1, "debian.py: git can't be run")


class Unpacked(DebianTest):
    """The commands, as they run in the root."""

    program = RELEASED

    def installed(self, name: str, *words: object, root: Optional[Path] = None) -> Ran:
        """Runs a command of the root, or of another path to it, from an empty folder."""
        root = root or self.root
        binaries = root / "usr/bin"
        python = root / "usr/lib/python3/dist-packages"
        command = [binaries / name, *words]
        if name != PROJECT.name:
            command.insert(0, Path(sys.executable))
        return run(*command, cwd=self.empty, path=f"{binaries}:{os.environ['PATH']}", python=python)

    def test_the_program(self) -> None:
        self.assert_ran(self.installed("deferreds", SCRIPT), journal())
        self.assert_ran(self.installed("deferreds", "--version"))

    def test_the_view_of_a_journal(self) -> None:
        ran = self.installed("deferreds-view", "--text", "--journal", JOURNAL)
        self.assert_ran(ran)
        self.assertIn("workers.journal: nothing is left unfired\n", ran.output)

    @needs_release
    def test_the_view_of_a_script_finds_the_program_on_the_path(self) -> None:
        ran = self.installed("deferreds-view", "--text", SCRIPT)
        self.assert_ran(ran)
        self.assertIn("workers.json: nothing is left unfired\n", ran.output)

    @needs_twisted
    def test_a_program_is_recorded_where_a_link_leads_to_the_package_too(self) -> None:
        link = self.folder / "link"
        link.symlink_to(self.root)
        example = self.root / "usr/share/doc/deferreds/examples/python/workers.py"
        for root in (self.root, link):
            self.assert_ran(self.installed("deferreds-record", "--virtual", example, root=root))
            for recorded in (SCRIPT, JOURNAL):
                self.assertEqual((self.empty / recorded.name).read_bytes(), recorded.read_bytes())
                (self.empty / recorded.name).unlink()

    @needs_twisted
    def test_an_implementation_is_compared_on_the_rows_and_on_random_scripts(self) -> None:
        words = ("--random", "20", "--ours", "true", "--", "true")
        self.assert_ran(self.installed("deferreds-conform", *words), "20 passed, 0 failed\n")
        ran = self.installed("deferreds-conform", "--rows", "--level", "core", "--", "true")
        self.assertEqual(ran.status, 1, ran.errors)
        self.assertRegex(ran.output.splitlines()[-1], "^[0-9]+ passed, [1-9][0-9]+ failed$")


if __name__ == "__main__":
    unittest.main()
