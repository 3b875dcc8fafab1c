"""Tests of the measuring, on a small program that runs nothing but notes, and on some that are wrong."""
from __future__ import annotations

import contextlib
import io
import sys
import tempfile
import unittest
from dataclasses import replace
from pathlib import Path

from bench import Wrong, all_measured, is_measured, main, measured
from figures import Figures, Measure
from measuring import HERE, End, Meter, NotMeasured, PeakMemory, Stopwatch, count_of, gnu_time
from workloads import Script, Workload, long_texts, nested_cancels, notes

STAND_IN = """\
#!{python} -IS
import json, sys
memory = bytearray({memory})
for word, text in json.load(sys.stdin)["events"]{some}:
    print(word, json.dumps(text))
print("#0 d unfired")
sys.exit({status})
"""
#: in place of GNU time, tells the next of the numbers that are left
TELLER = """\
#!/bin/sh
read -r next left <"$0.left"
echo "$left" >"$0.left"
echo "$next" >"$1"
shift
exec "$@"
"""
MEGABYTE = 1 << 20
PYTHON = PeakMemory((sys.executable, "-I", "-S", str(HERE / "peak.py")), "by a bare Python", runs=1)


def stand_in(folder: str, memory: int = 0, some: str = "", status: int = 0) -> Path:
    """A small program that runs notes."""
    path = Path(folder) / "program"
    path.write_text(STAND_IN.format(python=sys.executable, memory=memory, some=some, status=status))
    path.chmod(0o755)
    return path


class Ends(unittest.TestCase):
    """Which runs are as they are meant to be."""

    script = Script([], entries=2)

    def test_lines_of_deferreds_are_no_entries(self) -> None:
        self.assertEqual(End(0, b'new #0 d\nnote "#"\n#0 d unfired\n', b"").entries, 2)

    def test_a_run_as_it_is_meant_to_be(self) -> None:
        self.assertIsNone(End(0, b"new #0 d\nadd #0\n#0 d unfired\n", b"").mistake(self.script))

    def test_another_status_is_a_mistake(self) -> None:
        told = End(2, b"", b"script refused: 4 BadShape\n").mistake(self.script)
        self.assertEqual(told, "status 2 in place of 0: script refused: 4 BadShape")
        self.assertIsNotNone(End(0, 10 * b"cancel #0\n", b"").mistake(nested_cancels(10)))

    def test_another_number_of_entries_is_a_mistake(self) -> None:
        self.assertEqual(End(0, b"new #0 d\n#0 d unfired\n", b"").mistake(self.script), "1 entries in place of 2")


class Meters(unittest.TestCase):
    """What is measured."""

    def setUp(self) -> None:
        folder = tempfile.TemporaryDirectory()
        self.addCleanup(folder.cleanup)
        self.folder = folder.name

    def test_the_count_of_callgrind_is_read(self) -> None:
        self.assertEqual(count_of(b"==7== Collected : 12345\n==7== \n"), 12345)
        with self.assertRaises(NotMeasured):
            count_of(b"valgrind: command not found\n")

    def test_a_time_is_that_of_a_run(self) -> None:
        figure = measured(stand_in(self.folder), Workload("notes", notes, 3), 3, Stopwatch(runs=2))
        self.assertEqual((figure.workload, figure.size, figure.measure), ("notes", 3, Measure.TIME))
        self.assertTrue(0 < figure.value < 60)

    def assert_memory_is_measured(self, meter: PeakMemory) -> None:
        workload = Workload("notes", notes, 3)
        least, most = (
            measured(stand_in(self.folder, memory=size), workload, 3, meter).value for size in (0, 64 * MEGABYTE)
        )
        self.assertAlmostEqual((most - least) / MEGABYTE, 64, delta=4)

    def test_of_some_runs_the_memory_in_the_middle_is_taken(self) -> None:
        teller = Path(self.folder) / "teller"
        teller.with_suffix(".left").write_text("10 300 20\n")
        teller.write_text(TELLER)
        teller.chmod(0o755)
        meter = PeakMemory((str(teller),), "by what is left", runs=3)
        self.assertEqual(meter.of(stand_in(self.folder), notes(1).source)[1], 20 * 1024)

    def test_memory_by_a_bare_python(self) -> None:
        self.assert_memory_is_measured(PYTHON)

    def test_memory_by_gnu_time(self) -> None:
        meter = gnu_time()
        if meter is None:
            self.skipTest("GNU time isn't here")
        self.assert_memory_is_measured(replace(meter, runs=1))

    def test_memory_is_measured_of_a_run_that_ends_by_another_status_too(self) -> None:
        for meter in (PYTHON, gnu_time()):
            if meter is not None:
                end, value = meter.of(stand_in(self.folder, status=1), notes(2).source)
                self.assertEqual((end.status, end.entries), (1, 2))
                self.assertGreater(value, MEGABYTE)

    def test_a_program_that_loses_an_entry_is_wrong(self) -> None:
        with self.assertRaisesRegex(Wrong, "notes of 3: 2 entries in place of 3"):
            measured(stand_in(self.folder, some="[1:]"), Workload("notes", notes, 3), 3, Stopwatch(runs=1))

    def test_full_workloads_are_for_memory_alone(self) -> None:
        full = Workload("full", notes, 3, is_full=True)
        by: list[Meter] = [Stopwatch(runs=1), PYTHON]
        self.assertEqual([is_measured(full, meter) for meter in by], [False, True])
        figures = Figures(all_measured(stand_in(self.folder), [full, Workload("texts", long_texts, 3)], by, growing=True))
        self.assertEqual(figures.workloads(Measure.MEMORY), ["full", "texts"])
        self.assertEqual(figures.workloads(Measure.TIME), ["texts"])
        self.assertEqual(figures.sizes("texts", Measure.TIME), (3, 6, 12))


class Commands(unittest.TestCase):
    """The options."""

    def setUp(self) -> None:
        folder = tempfile.TemporaryDirectory()
        self.addCleanup(folder.cleanup)
        self.folder = folder.name
        self.saved = str(Path(self.folder) / "figures.json")

    def told(self, *words: str) -> tuple[int, str]:
        """How the command ends, and what it prints."""
        output, errors = io.StringIO(), io.StringIO()
        with contextlib.redirect_stdout(output), contextlib.redirect_stderr(errors):
            status = main(words)
        return status, output.getvalue() + errors.getvalue()

    def test_figures_are_saved_and_compared(self) -> None:
        program = str(stand_in(self.folder))
        status, output = self.told("--program", program, "--only", "long texts", "--memory", "--save", self.saved)
        self.assertEqual(status, 0)
        self.assertRegex(output, r"(?m)^long texts +48 +48 +[0-9.]+$")
        status, output = self.told("--measured", self.saved, "--against", self.saved, "--markdown")
        self.assertEqual(status, 0)
        self.assertIn("| geometric mean |  |  |  | 1.000 |", output)
        self.assertIn("| worst: long texts |", output)

    def test_a_run_that_is_wrong_saves_nothing(self) -> None:
        program = str(stand_in(self.folder, some="[2:]"))
        status, output = self.told("--program", program, "--only", "long texts", "--save", self.saved)
        self.assertEqual((status, Path(self.saved).exists()), (1, False))
        self.assertIn("long texts of 48: 46 entries in place of 48", output)

    def test_a_name_of_no_workload_is_told(self) -> None:
        with self.assertRaises(SystemExit) as left:
            self.told("--program", sys.executable, "--only", "nothing of that name")
        self.assertEqual(left.exception.code, "no workload has nothing of that name in its name")

    def test_a_program_that_is_not_there_is_told(self) -> None:
        with self.assertRaises(SystemExit) as left:
            self.told("--program", "nothing/here", "--only", "notes")
        self.assertEqual(left.exception.code, "there is no program nothing/here")


if __name__ == "__main__":
    unittest.main()
