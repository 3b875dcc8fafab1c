"""How the program is found, and what is said where it can't be run."""

from __future__ import annotations

import os
import shutil
import signal
import sys
import unittest
from pathlib import Path
from typing import Optional
from unittest import mock

from deferreds import program
from deferreds.checkout import LAUNCHER, TOP

from .support import CAT, PackagingTest, Ran, run


class FoundTest(PackagingTest):
    """The package as it is installed, with a program or without one."""

    def setUp(self) -> None:
        super().setUp()
        self.site = self.folder / "site"
        shutil.copytree(
            TOP / "python" / "deferreds",
            self.site / "deferreds",
            ignore=shutil.ignore_patterns("__pycache__"),
        )
        self.packaged = self.site / "deferreds" / "bin" / "deferreds"
        self.bin = self.folder / "bin"
        self.bin.mkdir()

    def pack(self, text: str, mode: int = 0o755) -> None:
        """Puts a program into the package."""
        self.packaged.parent.mkdir()
        self.packaged.write_text(text, encoding="utf-8")
        self.packaged.chmod(mode)

    def deferreds(self, *words: str, stdin: Optional[Path] = None) -> Ran:
        """Runs the package's command."""
        command = (sys.executable, "-m", "deferreds", *words)
        return run(*command, cwd=self.empty, stdin=stdin, path=str(self.bin), python=self.site)


class Found(FoundTest):
    """Which program is run, and how."""

    def test_the_package_s_own_with_all_words_and_its_status(self) -> None:
        shutil.copy(CAT, self.bin / "deferreds")
        self.pack('#!/bin/sh\nprintf "%s|" "$@"\nread line\necho "$line" >&2\nexit 3\n')
        given = self.folder / "given"
        given.write_text("of standard input\n", encoding="utf-8")
        ran = self.deferreds("--json", "4", "a b", "", stdin=given)
        self.assertEqual(ran, Ran(3, "--json|4|a b||", "of standard input\n"))

    def test_it_takes_the_place_of_the_process_and_ignores_no_signal(self) -> None:
        self.pack("#!/bin/sh\necho $$\nwhile read name set; do [ $name != SigIgn: ] || echo $set; done </proc/$$/status\n")
        output = self.deferreds().output.split()
        self.assertEqual(int(output[1], 16) >> (signal.SIGPIPE - 1) & 1, 0)
        self.assertEqual(int(output[1], 16) >> (signal.SIGXFSZ - 1) & 1, 0)

    def test_the_one_on_the_path_where_the_package_has_none(self) -> None:
        shutil.copy(CAT, self.bin / "deferreds")
        given = self.folder / "given"
        given.write_text("a script", encoding="utf-8")
        self.assert_ran(self.deferreds(stdin=given), "a script")
        self.assert_ran(self.deferreds(os.fspath(given)), "a script")

    def test_never_a_script_which_may_be_its_own(self) -> None:
        script = self.bin / "deferreds"
        script.write_text(f"#!{sys.executable}\nimport sys\nfrom deferreds.__main__ import main\nsys.exit(main())\n", encoding="utf-8")
        script.chmod(0o755)
        ran = run(sys.executable, script, cwd=self.empty, path=str(self.bin), python=self.site)
        self.assert_refused(ran, 70, "no executable deferreds is on the PATH")

    def test_the_launcher_of_a_checkout(self) -> None:
        self.assertEqual(program.found(), LAUNCHER)

    def test_what_the_launcher_has_built(self) -> None:
        launcher = self.folder / "deferreds"
        with mock.patch.object(program, "LAUNCHER", launcher):
            launcher.write_text('#!/bin/sh\n[ "$*" = --program ] && echo "/a folder/deferreds"\n')
            launcher.chmod(0o755)
            self.assertEqual(program.built(), Path("/a folder/deferreds"))
            launcher.write_text("#!/bin/sh\nexit 70\n")
            with self.assertRaisesRegex(program.NotRun, "--build"):
                program.built()
            launcher.write_text("#!/no/interpreter\n")
            with self.assertRaisesRegex(program.NotRun, "can't be run: No such file"):
                program.built()


class NotRun(FoundTest):
    """Where the program can't be run, one line says why, and the status is 70."""

    def test_no_program(self) -> None:
        (self.bin / "deferreds").mkdir()
        self.assert_refused(self.deferreds(), 70, "deferreds: not run: this package holds no program")

    def test_one_that_isn_t_executable(self) -> None:
        self.pack("#!/bin/sh\n", 0o644)
        self.assert_refused(self.deferreds(), 70, f"{self.packaged} isn't executable")

    def test_one_that_is_no_program(self) -> None:
        self.pack("\0")
        self.assert_refused(self.deferreds(), 70, f"{self.packaged} can't be run: Exec format error")

    def refused(self) -> str:
        """Why the package's program isn't run."""
        with mock.patch.object(program, "PACKAGED", CAT), self.assertRaises(program.NotRun) as raised:
            program.found()
        return str(raised.exception)

    def test_another_system(self) -> None:
        with mock.patch("sys.platform", "darwin"):
            self.assertEqual(self.refused(), "the program is for Linux, and this is darwin")

    def test_another_processor(self) -> None:
        with mock.patch("platform.machine", lambda: "aarch64"):
            self.assertEqual(self.refused(), "the program is for x86_64, and this processor is aarch64")

    def test_an_older_c_library(self) -> None:
        for told, version in (("glibc 2.33", "2.33"), ("glibc 2.9", "2.9"), ("glibc 1.99.1", "1.99")):
            with mock.patch("os.confstr", return_value=told):
                self.assertEqual(
                    self.refused(), f"the program needs the GNU C library from 2.34 on, and this is {version}"
                )

    def test_another_c_library(self) -> None:
        for told in (None, "", "musl 1.2", "NPTL 2.36", "glibc", "glibc x.y"):
            with mock.patch("os.confstr", return_value=told):
                self.assertEqual(
                    self.refused(), "the program needs the GNU C library, from 2.34 on, which isn't here"
                )
        with mock.patch("os.confstr", side_effect=ValueError("unrecognized configuration name")):
            self.assertIn("which isn't here", self.refused())

    def test_a_c_library_that_is_new_enough(self) -> None:
        for told in ("glibc 2.34", "glibc 2.41.9000", "glibc 3.0"):
            with mock.patch("os.confstr", return_value=told), mock.patch.object(program, "PACKAGED", CAT):
                self.assertEqual(program.found(), CAT)


if __name__ == "__main__":
    unittest.main()
