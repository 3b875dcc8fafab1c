"""Tests of the sweep: it finds nothing in a program that is right, and finds each that is wrong on purpose."""
from __future__ import annotations

import contextlib
import io
import tempfile
import unittest
from dataclasses import replace
from pathlib import Path

from faults import End, Fault, Kind, is_right
from scripts import Script, all_scripts
from sweep import HERE, WORKERS, Findings, Program, compiled, compiled_shim, rows, sweep

LINES = b"a\nbc\ndef."
SCRIPT = Script("three_lines", LINES, LINES)
IN_ORDERS = replace(SCRIPT, status=6, words=("--orders",))
TOO_MANY = Script("too_many", LINES, b"", 7, b"too many\n", ("--orders", "--most", "1"))


class SweepOfStandIns(unittest.TestCase):
    """Sweeps of small programs that print what they read."""

    folder: Path
    shim: Path

    @classmethod
    def setUpClass(cls) -> None:
        folder = tempfile.TemporaryDirectory()
        cls.addClassCleanup(folder.cleanup)
        cls.folder = Path(folder.name)
        cls.shim = compiled_shim("cc", cls.folder)

    def sweep(self, wrong: str, script: Script = SCRIPT) -> Findings:
        """Sweeps the stand-in that does this wrong. One that hangs has a second; others have time on a busy machine, too."""
        seconds = 1 if wrong == "HANGS" else 20
        path = compiled("cc", HERE / "stand_in.c", self.folder / wrong.lower(), f"-DWRONG={wrong}")
        with contextlib.redirect_stdout(io.StringIO()):
            return sweep(Program(path, self.shim, seconds), [script], Findings())

    def test_nothing_is_found_in_a_program_that_is_right(self) -> None:
        found = self.sweep("NOTHING")
        self.assertEqual(found.wrong, 0)
        self.assertGreater(found.refused, 0)

    def test_what_is_wrong_on_purpose_is_found(self) -> None:
        for wrong in ("FORGETS_A_REFUSAL", "WRITES_ON", "HANGS", "HIDES_A_FAILED_READ", "WRITES_FIRST"):
            with self.subTest(wrong):
                self.assertGreater(self.sweep(wrong).wrong, 0)

    def test_a_script_is_run_with_its_words(self) -> None:
        found = self.sweep("NOTHING", IN_ORDERS)
        self.assertEqual(found.wrong, 0)
        self.assertGreater(found.refused, 0)
        self.assertGreater(self.sweep("NOTHING", replace(IN_ORDERS, words=())).wrong, 0)

    def test_what_is_wrong_in_every_order_is_found(self) -> None:
        for wrong in ("FORGETS_A_REFUSAL", "WRITES_ON", "HIDES_A_STATUS"):
            with self.subTest(wrong):
                self.assertGreater(self.sweep(wrong, IN_ORDERS).wrong, 0)

    def test_a_program_that_the_shim_does_not_reach_is_found(self) -> None:
        path = compiled("cc", HERE / "stand_in.c", self.folder / "static", "-static")
        with contextlib.redirect_stdout(io.StringIO()):
            self.assertGreater(sweep(Program(path, self.shim, 1), [SCRIPT], Findings()).wrong, 0)


class Ends(unittest.TestCase):
    """Which ends are right."""

    def assert_ends(
        self, kind: Kind, right: list[End], wrong: list[End], piece: int = 0, number: int = 3, script: Script = SCRIPT
    ) -> None:
        fault = Fault(kind, number, piece)
        for end in right:
            self.assertTrue(is_right(script, fault, end), f"{fault}: {end}")
        for end in wrong:
            self.assertFalse(is_right(script, fault, end), f"{fault}: {end}")

    def test_a_refused_growth(self) -> None:
        right = [End(3, b"a\n", b"out of memory\n", 1), End(3, b"", b"out of memory\n", 1), End(0, LINES, b"", 1)]
        wrong = [
            End(3, b"b", b"out of memory\n", 1),
            End(3, b"a\n", b"", 1),
            End(0, b"a\n", b"", 1),
            End(1, LINES, b"", 1),
            End(-11, b"a\n", b"", 1),
            End(None, b"a\n", b"", 1),
            End(3, b"a\n", b"out of memory\n", 0),
        ]
        self.assert_ends(Kind.GROWTH, right, wrong)
        self.assert_ends(Kind.GROWTHS, right, wrong)

    def test_a_failed_read(self) -> None:
        right = [End(4, b"", b"read failed\n", 1), End(0, LINES, b"", 0)]
        wrong = [End(4, b"a", b"read failed\n", 1), End(4, b"", b"write failed\n", 1), End(0, LINES, b"", 1)]
        self.assert_ends(Kind.READ_FAILS, right, wrong)

    def test_a_read_that_finds_nothing_left(self) -> None:
        refused = End(2, b"", b"script refused: 2 NotJson\n", 1)
        whole = End(0, LINES, b"", 1)
        self.assert_ends(Kind.READ_ENDS, [refused], [whole], piece=1, number=3)
        self.assert_ends(Kind.READ_ENDS, [whole], [refused], piece=1, number=10)
        self.assert_ends(Kind.READ_ENDS, [refused], [whole], number=1)
        self.assert_ends(Kind.READ_ENDS, [whole], [refused], number=2)

    def test_a_failed_write(self) -> None:
        for kind in (Kind.WRITE_FAILS, Kind.WRITE_TAKES_NOTHING):
            right = [End(4, b"a\n", b"write failed\n", 1)]
            wrong = [End(4, b"b", b"write failed\n", 1), End(0, b"a\n", b"", 1), End(3, b"a\n", b"out of memory\n", 1)]
            self.assert_ends(kind, right, wrong)
            self.assert_ends(kind, right, [End(4, b"a", b"write failed\n", 1)], piece=1)

    def test_a_refused_growth_in_every_order(self) -> None:
        right = [End(3, b"", b"out of memory\n", 1), End(3, b"a\n", b"out of memory\n", 1), End(6, LINES, b"", 1)]
        wrong = [
            End(0, LINES, b"", 1),
            End(6, b"a\n", b"", 1),
            End(3, b"bc\n", b"out of memory\n", 1),
            End(6, LINES, b"out of memory\n", 1),
        ]
        self.assert_ends(Kind.GROWTH, right, wrong, script=IN_ORDERS)

    def test_a_refused_growth_with_too_many_orders(self) -> None:
        right = [End(3, b"", b"out of memory\n", 1), End(7, b"", b"too many\n", 1)]
        wrong = [End(3, b"a\n", b"out of memory\n", 1), End(7, b"a\n", b"too many\n", 1), End(7, b"", b"", 1)]
        self.assert_ends(Kind.GROWTH, right, wrong, script=TOO_MANY)


class Scripts(unittest.TestCase):
    """The scripts of the folder, and their words."""

    def test_runs_in_every_order_take_no_number_of_workers(self) -> None:
        self.assertEqual(IN_ORDERS.words_with(2), ["--orders"])
        self.assertEqual({row.workers for row in rows([IN_ORDERS])}, {0})

    def test_other_runs_take_a_number_of_workers_last(self) -> None:
        self.assertEqual(replace(SCRIPT, words=("--json",)).words_with(2), ["--json", "2"])
        self.assertEqual({row.workers for row in rows([SCRIPT])}, set(WORKERS))

    def test_each_file_is_swept(self) -> None:
        plain = {script.name for script in all_scripts() if "--json" not in script.words}
        as_json = {script.name for script in all_scripts() if "--json" in script.words}
        for ending in ("json", "txt"):
            self.assertEqual({path.stem for path in (HERE / "scripts").glob(f"*.{ending}")}, plain)
        self.assertEqual({f"{path.stem} as JSON" for path in (HERE / "scripts").glob("*.jsonl")}, as_json)


if __name__ == "__main__":
    unittest.main()
