"""Tests of the command conform: which program it takes for ours, what it prints of differences, and how long it waits."""

import contextlib
import io
import os
import signal
import subprocess
import sys
import tempfile
import time
import unittest
from pathlib import Path
from typing import List, NamedTuple, Optional
from unittest import mock

from deferreds.twisted.commands import conform
from deferreds.twisted.causes import key_of
from deferreds.twisted.comparing import Difference
from deferreds.twisted.conforming import Progress, Tally
from deferreds.twisted.programs import MOST_LATE, MOST_UNANSWERED, Lack

from .forked import environment, run

#: more than any of these tests takes
_LONG = 120

_ROWS = """\
== a note
{"version":1,"events":[["note","a"]]}
-- 0
note "a"

== two notes
{"version":1,"events":[["note","a"],["note","b"]]}
-- 0
note "a"
note "b"

== an unknown name
{"version":1,"events":[["note","x"],["pauseTask",7]]}
-- 2 script refused: 6 BadName

== a run that stops
{"version":1,"limit":0,"events":[["note","a"]]}
-- 1
"""

_MANY = """\
#!{python}
import sys
for line in sys.stdin.buffer:
    script = sys.stdin.buffer.read(int(line.split()[0]))
    {answer}
    sys.stdout.flush()
"""


#: in which ways a port starts processes: f forks, and the parent ends if it isn't the port itself; s makes a session
_LEAVING = ("f", "fs", "fsf", "fsfsf")

_LEAVES = """\
#!{python}
import os, time
for way in {ways}:
    leaf = False
    for step in way:
        if step == "s":
            if leaf: os.setsid()
        elif os.fork() == 0:
            leaf = True
        elif leaf:
            os._exit(0)
        else:
            break
    if leaf:
        for each in (0, 1, 2): os.close(each)
        with open({numbers!r}, "a") as file: file.write(f"{{os.getpid()}}\\n")
        time.sleep({seconds})
        os._exit(0)
while not os.path.exists({numbers!r}) or len(open({numbers!r}).read().split()) < len({ways}): time.sleep(0.01)
open({numbers!r} + ".all", "w").close()
os.execv("/bin/sh", ["sh", "-c", {then!r}])
"""


class Ran(NamedTuple):
    """How the command has ended, and what it has written."""

    status: int
    output: str
    errors: str


def conforming(*words: str) -> Ran:
    """Runs the command with these words."""
    output, errors = io.StringIO(), io.StringIO()
    with contextlib.redirect_stderr(errors), contextlib.redirect_stdout(output):
        status = conform.main(list(words))
    return Ran(status, output.getvalue(), errors.getvalue())


def is_running(process: int) -> bool:
    """Whether a process of this number runs, and isn't just waiting to be waited for."""
    try:
        return Path(f"/proc/{process}/stat").read_text(encoding="utf-8").rpartition(")")[2].split()[0] != "Z"
    except OSError:
        return False


class ConformTest(unittest.TestCase):
    """Tests that compare small commands on a few rows."""

    def assert_ends(self, process: int) -> None:
        """A process that was killed runs no more, or not for long: it ends when it is its turn."""
        until = time.monotonic() + _LONG / 2
        while is_running(process) and time.monotonic() < until:
            time.sleep(0.02)
        self.assertFalse(is_running(process))

    def setUp(self) -> None:
        room = tempfile.TemporaryDirectory()
        self.addCleanup(room.cleanup)
        self.folder = Path(room.name)
        rows = self.folder / "small.rows"
        rows.write_text(_ROWS, encoding="utf-8")
        patched = mock.patch("deferreds.twisted.conforming.row_files", return_value=[rows])
        patched.start()
        self.addCleanup(patched.stop)

    def command(self, text: str) -> str:
        """A command of this text."""
        path = self.folder / "command"
        path.write_text(text, encoding="utf-8")
        path.chmod(0o700)
        return str(path)

    def shell(self, text: str) -> str:
        """A command that a shell runs."""
        return self.command(f"#!/bin/sh\n{text}\n")

    def many(self, answer: str) -> str:
        """A command that takes `--many`, and answers in this way."""
        return self.command(_MANY.format(python=sys.executable, answer=answer))


class OursTest(ConformTest):
    """Random scripts are compared with our own program, which `./deferreds --program` names."""

    def test_without_a_program_of_ours_random_scripts_end_with_status_70(self) -> None:
        absent = subprocess.CompletedProcess(["deferreds"], 70, stdout="", stderr="")
        with mock.patch("subprocess.run", return_value=absent):
            ran = conforming("--random", "1", "--", "true")
        self.assertEqual(ran.status, 70)
        self.assertIn("./deferreds --build", ran.errors)

    def test_a_program_that_is_named_is_taken(self) -> None:
        ran = conforming("--random", "2", "--ours", "true", "--", "true")
        self.assertEqual((ran.status, ran.output), (0, "2 passed, 0 failed\n"))

    def test_the_script_of_a_file_is_compared(self) -> None:
        script = self.folder / "own.json"
        script.write_text('{"version":1,"events":[["note","a"]]}\n', encoding="utf-8")
        command = self.shell("cat >/dev/null; echo 'note \"b\"'")
        ran = conforming("--script", str(script), "--script", str(script), "--ours", "true", "--", command)
        self.assertEqual((ran.status, ran.output.splitlines()[-1]), (1, "0 passed, 2 failed"))
        self.assertIn(f"{script}: line 1 differs\n", ran.output)
        ran = conforming("--script", str(script), "--ours", command, "--", command)
        self.assertEqual((ran.status, ran.output), (0, "1 passed, 0 failed\n"))

    def test_a_script_that_can_not_be_read_is_told_in_a_line(self) -> None:
        latin = self.folder / "latin.json"
        latin.write_bytes(b"\xe4")
        for name in (str(self.folder / "none.json"), str(self.folder), str(latin)):
            ran = conforming("--script", name, "--ours", "true", "--", "true")
            self.assertEqual((ran.status, ran.output, ran.errors.count("\n")), (66, "", 1))
            self.assertIn("the file of a script can't be read: ", ran.errors)

    def test_a_command_that_is_missing_ends_with_status_70(self) -> None:
        for words in (["/nowhere/command"], ["--many", "--", "/nowhere/command"]):
            ran = conforming("--rows", *words)
            self.assertEqual((ran.status, ran.output), (70, ""))
            self.assertEqual(ran.errors, "conform: /nowhere/command can't be run: No such file or directory\n")

    def test_wrong_words_are_refused(self) -> None:
        for words in (
            ["--random", "-1"],
            ["--rows", "--timeout", "0"],
            ["--rows", "--timeout", "nan"],
            ["--rows", "--timeout", "soon"],
            ["--rows", "--progress", "-1"],
            ["--rows", "--show", "-1"],
            ["--rows", "--show", "some"],
            ["--rows", "--most", "2"],
            ["--rows", "--orders", "--most", "0"],
            ["--rows", "--orders", "--most", "1000001"],
            ["--rows", "--orders", "--most", "few"],
            ["--rows", "--sample", "2"],
            ["--rows", "--orders", "--sample", "0"],
            ["--rows", "--orders", "--sample", "2", "--most", "2"],
            ["--rows", "--orders", "--sample", "2", "--seed", "-1"],
            ["--orders"],
            [],
        ):
            with self.subTest(words=words), self.assertRaises(SystemExit) as ended:
                conforming(*words, "--", "true")
            self.assertEqual(ended.exception.code, 64)


class ShownTest(ConformTest):
    """What is printed of differences."""

    def differing(self, output: str) -> List[str]:
        """The names of the rows of which a difference is printed."""
        return [line.split(": ")[1] for line in output.splitlines() if line.startswith("small.rows: ")]

    def test_it_says_how_many_differences_it_does_not_show(self) -> None:
        command = self.shell("cat >/dev/null; echo other")
        ran = conforming("--rows", "--show", "1", "--", command)
        self.assertEqual((ran.status, self.differing(ran.output)), (1, ["a note"]))
        last = [
            "1 more differs as small.rows: a note does",
            "2 more differences, of 2 more causes, aren't shown; --show all shows each",
            "0 passed, 4 failed",
        ]
        self.assertEqual(ran.output.splitlines()[-3:], last)
        ran = conforming("--rows", "--show", "2", "--", command)
        self.assertIn("1 more difference, of one more cause, isn't shown; --show all shows each\n", ran.output)

    def test_all_are_shown_where_all_are_asked_for_or_fit(self) -> None:
        command = self.shell("cat >/dev/null; echo other")
        for words, shown in ((["--show", "all"], 4), (["--show", "3"], 3), ([], 3)):
            ran = conforming("--rows", *words, "--", command)
            self.assertEqual(len(self.differing(ran.output)), shown)
            self.assertNotIn("shown", ran.output)

    def test_differences_of_one_cause_are_counted(self) -> None:
        cases = (
            (('note "a"', "(the end)"), ('note "b"', "(the end)"), True),
            (("fire #0 ok 1", "fire #0 ok 2"), ("fire #3 ok [1,2]", 'fire #3 ok "x"'), False),
            (("fire #0 ok 1", "fire #0 ok 2"), ("fire #9 ok 5", "fire #9 ok 7"), True),
            (("fire #0 fail TypeError \"\"", "fire #0 fail ValueError \"\""), ("fire #1 fail TypeError \"a\"", "fire #1 fail KeyError \"a\""), False),
            (("later call answer 7", "later call answer 8"), ("later call other 9", "later call other 1"), True),
            (("later call answer 7", "later call other 7"), ("later call answer 7", "later call answer 8"), False),
            (("#0 backend ok 1", "#0 backend ok 2"), ("#1 x ok 3", "#1 x ok 4"), True),
            (('note "a"', "(ended by status 3; standard error ends with: x)"), ('note "b"', "(ended by status 3; standard error ends with: y)"), True),
            (('note "a"', "(ended by status 3)"), ('note "a"', "(ended by signal 11, SIGSEGV)"), False),
            (("(the end)", ""), ("(the end)", "y"), False),
        )  # fmt: skip
        for first, second, is_one in cases:
            keys = [key_of(Difference(1, *lines, None)) for lines in (first, second)]
            self.assertEqual(keys[0] == keys[1], is_one, (first, second))

    def test_refusals_can_be_left_out(self) -> None:
        ran = conforming("--rows", "--no-refusals", "--", self.shell("cat >/dev/null"))
        self.assertEqual(self.differing(ran.output), ["a note", "a run that stops"])
        self.assertTrue(ran.output.endswith("\n0 passed, 3 failed\n"))

    def test_what_is_expected_is_named(self) -> None:
        cases = (
            ("", "(the end)"),
            ("exit 2", "(ended by status 2)"),
            ("echo 'script refused: 4 BadShape' >&2; exit 2", "(refused, 4 BadShape)"),
            ("echo more >&2; echo 'KeyError: x' >&2; exit 1",
             "(stopped at the limit of the journal, status 1; standard error ends with: KeyError: x)"),
            ("exit 70", "(ended by status 70)"),
            ("kill -SEGV $$", "(ended by signal 11, SIGSEGV)"),
        )
        for text, said in cases:
            ran = conforming("--rows", "--", self.shell(f"cat >/dev/null\n{text}"))
            self.assertIn(
                "small.rows: an unknown name: line 1 differs\n"
                f"  deferreds: (refused, 6 BadName)\n  command:   {said}\n"
                '  {"version":1,"events":[["note","x"],["pauseTask",7]]}\n',
                ran.output,
            )

    def test_a_command_that_ends_early_is_told_with_what_it_had_printed(self) -> None:
        ran = conforming("--rows", "--", self.shell("cat >/dev/null; echo 'note \"a\"'; echo oops >&2; exit 3"))
        self.assertIn(
            'small.rows: two notes: line 2 differs\n  deferreds: note "b"\n'
            '  command:   (ended by status 3; standard error ends with: oops)\n'
            '  {"version":1,"events":[["note","a"],["note","b"]]}\n',
            ran.output,
        )

    def test_a_difference_that_is_gone_at_the_next_run_is_shown_all_the_same(self) -> None:
        seen = self.folder / "seen"
        command = self.shell(f"cat >/dev/null; [ -e {seen} ] || {{ : >{seen}; echo once; }}")
        ran = conforming("--random", "1", "--trials", "5", "--ours", "true", "--", command)
        self.assertIn("random script 0 of seed 1", ran.output)
        self.assertIn("\n  command:   once\n", ran.output)
        self.assertEqual((ran.status, ran.output.splitlines()[-1]), (1, "0 passed, 1 failed"))

    def test_output_that_can_not_be_written_ends_with_status_4(self) -> None:
        if not os.path.exists("/dev/full"):
            self.skipTest("there is no /dev/full")
        with open("/dev/full", "wb") as full:
            ran = self.as_process(["--random", "1", "--ours", "true", "--", "true"], full)
        self.assertEqual(ran.returncode, 4)
        said = b"conform: standard output can't be written: No space left on device\n"
        self.assertEqual(ran.stderr, said)

    def as_process(self, words: List[str], output: "Optional[io.BufferedWriter]" = None) -> "subprocess.CompletedProcess[bytes]":
        """Runs the command as a process of its own."""
        return subprocess.run(
            [sys.executable, "-m", "deferreds.twisted", "conform", *words],
            env={**os.environ, "PYTHONPATH": os.pathsep.join(filter(None, sys.path))},
            stdout=output,
            stderr=subprocess.PIPE,
            timeout=_LONG,
            check=False,
        )


class OrdersTest(ConformTest):
    """`--orders`: a script with posts is compared in every order."""

    #: answers with the batches that it was given, but otherwise in one order
    _WRONG = """cat >/dev/null; case $2 in '') echo 'note "a"';; '[[], [[1, 0], [0, 0]]]') echo other;; *) echo "$2";; esac"""

    def setUp(self) -> None:
        super().setUp()
        self.ours = self.folder / "ours"
        self.ours.write_text('#!/bin/sh\ncat >/dev/null\necho "$2"\n', encoding="utf-8")
        self.ours.chmod(0o700)
        text = (
            '== no posts\n{"version":1,"events":[["note","a"]]}\n-- 0\nnote "a"\n\n'
            '== two posts\n{"version":1,"callers":[[{}],[{}]],"events":[["drain",1]]}\n-- 0\ndrain\n'
        )
        (self.folder / "small.rows").write_text(text, encoding="utf-8")

    def in_orders(self, command: str, *words: str) -> Ran:
        """Compares in every order with what answers with its batches."""
        return conforming("--rows", "--orders", "--ours", str(self.ours), *words, "--", command)

    def test_a_difference_in_one_order_is_told_with_it(self) -> None:
        ran = self.in_orders(self.shell(self._WRONG))
        self.assertEqual(ran.status, 1)
        self.assertEqual(
            ran.output,
            "small.rows: two posts: line 1 differs\n  deferreds: [[], [[1, 0], [0, 0]]]\n  command:   other\n"
            "  --batches '[[],[[1,0],[0,0]]]'\n"
            '  {"version":1,"callers":[[{}],[{}]],"events":[["drain",1]]}\n'
            "1 script has posts, and was compared in every order\n1 passed, 1 failed\n",
        )

    def test_with_many_the_batches_are_handed_over_too(self) -> None:
        answer = """text = line.partition(b' ')[2] or b'note "a"\\n'; sys.stdout.buffer.write(b'0 %d 0\\n' % len(text) + text)"""
        ran = self.in_orders(self.many(answer), "--many")
        self.assertEqual(ran.output.splitlines()[-1], "2 passed, 0 failed")

    def test_of_more_orders_than_are_asked_for_some_are_compared(self) -> None:
        ran = self.in_orders(self.shell(self._WRONG), "--most", "2")
        self.assertEqual(
            ran.output.splitlines()[-2:],
            ["1 script has more than 2 orders, and was compared in 2 of them; --most N allows more", "1 passed, 1 failed"],
        )
        ran = self.in_orders(self.shell(self._WRONG), "--most", "1")
        self.assertEqual((ran.status, ran.output.splitlines()[-1]), (0, "2 passed, 0 failed"))

    def test_of_more_orders_than_are_drawn_a_sample_is_compared(self) -> None:
        last = ["1 script has more than 2 orders, and was compared in a sample of 2", "1 passed, 1 failed"]
        ran = self.in_orders(self.shell(self._WRONG), "--sample", "2", "--seed", "2")  # (which draws the third order, twice)
        self.assertEqual((ran.status, ran.output.splitlines()[-2:]), (1, last))
        ran = self.in_orders(self.shell(self._WRONG), "--sample", "2", "--seed", "1")  # (the second and the fourth)
        self.assertEqual((ran.status, ran.output.splitlines()[-1]), (0, "2 passed, 0 failed"))
        ran = self.in_orders(self.shell(self._WRONG), "--sample", "4", "--seed", "1")
        self.assertEqual(ran.output.splitlines()[-2], "1 script has posts, and was compared in every order")

    def test_a_random_script_is_cut_down_in_its_orders(self) -> None:
        words = ["--random", "2", "--seed", "1", "--orders", "--most", "3", "--trials", "30", "--ours", str(self.ours)]
        ran = conforming(*words, "--", self.shell("cat >/dev/null; [ -z \"$2\" ] && echo || echo other"))
        self.assertEqual(ran.status, 1)
        self.assertRegex(ran.output, r"\n  command:   other\n  --batches '\[\[.*\]\]'\n  \{")

    def test_our_program_is_needed_for_rows_too(self) -> None:
        absent = subprocess.CompletedProcess(["deferreds"], 70, stdout="", stderr="")
        with mock.patch("subprocess.run", return_value=absent):
            ran = conforming("--rows", "--orders", "--", "true")
        self.assertEqual((ran.status, ran.output), (70, ""))


class WaitingTest(ConformTest):
    """How long a command is waited for."""

    def test_a_command_that_never_answers_is_told_with_the_script(self) -> None:
        number = self.folder / "number"
        hangs = f"""*'"b"'*) echo 'note "a"'; sleep {_LONG} & echo $! >{number}; wait;;"""
        command = self.shell(f"""case $(cat) in {hangs} *) echo 'note "a"';; esac""")
        start = time.monotonic()
        ran = conforming("--rows", "--timeout", "5", "--", command)
        self.assertLess(time.monotonic() - start, _LONG / 2)
        self.assertEqual(ran.status, 1)
        self.assertIn(
            'small.rows: two notes: line 2 differs\n  deferreds: note "b"\n'
            '  command:   (no answer within 5 seconds)\n  {"version":1,"events":[["note","a"],["note","b"]]}\n',
            ran.output,
        )
        self.assert_ends(int(number.read_text(encoding="utf-8")))

    def test_after_some_in_a_row_no_more_are_asked(self) -> None:
        ran = conforming("--rows", "--timeout", "0.2", "--", self.shell(f"exec sleep {_LONG}"))
        self.assertEqual(
            ran.output.splitlines()[-2:],
            [f"1 of 4 runs are left out, since {MOST_LATE} scripts in a row weren't answered in time",
             f"0 passed, {MOST_LATE} failed"],
        )

    def test_a_random_script_that_is_not_answered_is_shown_as_it_is(self) -> None:
        start = time.monotonic()
        ran = conforming(
            "--random", "1", "--timeout", "0.2", "--ours", "true", "--", self.shell(f"exec sleep {_LONG}")
        )
        self.assertLess(time.monotonic() - start, _LONG / 2)
        self.assertIn("\n  command:   (no answer within 0.2 seconds)\n", ran.output)

    def test_output_without_an_end_is_told(self) -> None:
        with mock.patch("deferreds.twisted.children.MOST_BYTES", 1 << 20):
            ran = conforming("--random", "1", "--trials", "0", "--ours", "true", "--", self.shell("exec yes"))
        self.assertIn("line 1 differs\n  deferreds: (the end)\n  command:   y\n", ran.output)

    def test_a_command_that_does_not_read_is_no_failure_of_its_own(self) -> None:
        ran = conforming("--random", "2", "--ours", "true", "--", self.shell("exec <&-"))
        self.assertEqual((ran.status, ran.output), (0, "2 passed, 0 failed\n"))

    def test_what_it_has_started_ends_with_it_whatever_that_did_to_leave_it(self) -> None:
        for words, then in (([], "cat >/dev/null; exit 3"), (["--many"], "exit 3")):
            with self.subTest(words=words):
                ran = conforming("--random", "1", "--trials", "0", "--ours", "true", *words, "--", self.leaving(then))
                self.assertEqual(ran.status, 1)
                self.assert_all_end()

    def test_a_signal_ends_the_command_and_what_it_has_started(self) -> None:
        for number in (signal.SIGINT, signal.SIGTERM, signal.SIGHUP):
            with self.subTest(signal=number):
                self.assert_signal_ends(number, self.leaving(f"exec sleep {_LONG}"))

    @property
    def numbers(self) -> Path:
        """Where the processes that a port starts write their numbers."""
        return self.folder / "numbers"

    def leaving(self, then: str) -> str:
        """A port that has started processes in each way of _LEAVING, which hold none of its pipes, and goes on as a shell."""
        for name in ("numbers", "numbers.all"):
            (self.folder / name).unlink(missing_ok=True)
        return self.command(_LEAVES.format(python=sys.executable, ways=_LEAVING, numbers=str(self.numbers), seconds=_LONG, then=then))

    def assert_all_end(self) -> None:
        """All processes that a port has started run no more."""
        numbers = self.numbers.read_text(encoding="utf-8").split()
        self.assertEqual(len(numbers), len(_LEAVING))
        for number in numbers:
            self.assert_ends(int(number))

    def assert_signal_ends(self, by: int, port: str) -> None:
        """The command ends by this signal while it waits for a port, and so does what the port has started."""
        words = ["--random", "1", "--timeout", str(_LONG), "--ours", "true", "--", port]
        process = subprocess.Popen(
            [sys.executable, "-m", "deferreds.twisted", "conform", *words],
            env={**os.environ, "PYTHONPATH": os.pathsep.join(filter(None, sys.path))},
            stdout=subprocess.DEVNULL,
            stderr=subprocess.PIPE,
        )
        with process:
            self.addCleanup(process.kill)
            deadline = time.monotonic() + _LONG / 2
            while not (self.folder / "numbers.all").exists() and time.monotonic() < deadline:
                time.sleep(0.01)
            process.send_signal(by)
            assert process.stderr is not None
            errors = process.stderr.read()
            self.assertEqual(process.wait(_LONG / 2), -by)
        self.assertEqual(errors, b"")
        self.assert_all_end()

    def test_a_signal_that_is_ignored_stays_so(self) -> None:
        code = "import os, signal, sys\nsignal.signal(signal.SIGHUP, signal.SIG_IGN)\nos.execv(sys.argv[1], sys.argv[1:])"
        port = self.shell("cat >/dev/null; kill -HUP $PPID")
        words = ["-m", "deferreds.twisted", "conform", "--random", "1", "--ours", "true", "--", port]
        ran = subprocess.run(
            [sys.executable, "-c", code, sys.executable, *words],
            env={**os.environ, "PYTHONPATH": os.pathsep.join(filter(None, sys.path))}, capture_output=True, timeout=_LONG, check=False,
        )  # fmt: skip
        self.assertEqual((ran.returncode, ran.stdout), (0, b"1 passed, 0 failed\n"))

    def test_a_port_that_prints_valid_lines_for_ever_takes_little_memory(self) -> None:
        code = (
            "import sys\nfrom deferreds.twisted.commands import conform\nstatus = conform.main(sys.argv[1:])\n"
            "[most] = [line.split()[1] for line in open('/proc/self/status') if line.startswith('VmHWM:')]\n"
            "print(most, file=sys.stderr)\nsys.exit(status)"
        )
        port = self.shell("cat >/dev/null; exec yes 'note \"a\"'")
        for more in ([], ["--many"]):
            command = self.many("sys.stdout.write('0 999999999 0\\n'); [sys.stdout.write('note \"a\"\\n' * 1000) for _ in range(100_000)]") if more else port
            ran = subprocess.run(
                [sys.executable, "-c", code, "--random", "3", "--trials", "5", "--ours", "true", *more, "--", command],
                env={**os.environ, "PYTHONPATH": os.pathsep.join(filter(None, sys.path))}, capture_output=True, timeout=_LONG, check=False,
            )  # fmt: skip
            self.assertEqual(ran.returncode, 1, ran.stderr)
            self.assertLess(int(ran.stderr.split()[-1]), 150_000, "kibibytes")

    def test_ctrl_c_ends_the_command_too(self) -> None:
        number = self.folder / "number"
        # it is asked before it says its number, so that it has been started by then
        command = self.shell(f"head -c 1 >/dev/null; echo $$ >{number}.new; mv {number}.new {number}; exec sleep {_LONG}")
        words = ["--random", "1", "--timeout", str(_LONG), "--ours", "true", "--", command]
        process = subprocess.Popen(
            [sys.executable, "-m", "deferreds.twisted", "conform", *words],
            env={**os.environ, "PYTHONPATH": os.pathsep.join(filter(None, sys.path))},
            stdout=subprocess.DEVNULL,
            stderr=subprocess.PIPE,
        )
        with process:
            self.addCleanup(process.kill)
            deadline = time.monotonic() + _LONG / 2
            while not number.exists() and time.monotonic() < deadline:
                time.sleep(0.01)
            process.send_signal(signal.SIGINT)
            assert process.stderr is not None
            errors = process.stderr.read()
            self.assertEqual(process.wait(_LONG / 2), -signal.SIGINT)
        self.assertNotIn(b"Traceback", errors)
        self.assert_ends(int(number.read_text(encoding="utf-8")))


class ManyTest(ConformTest):
    """A command that is asked script after script."""

    def test_each_answer_is_taken(self) -> None:
        answer = """text = b'note "a"\\n'; sys.stdout.buffer.write(b'0 %d 0\\n' % len(text) + text)"""
        ran = conforming("--rows", "--many", "--", self.many(answer))
        self.assertEqual(ran.output.splitlines()[-1], "1 passed, 3 failed")
        self.assertIn('small.rows: two notes: line 2 differs\n  deferreds: note "b"\n  command:   (the end)\n', ran.output)

    def test_one_that_ends_early_is_told_with_the_script_and_started_again(self) -> None:
        answer = """sys.exit(3) if b'"b"' in script else print('0 9 0\\nnote "a"')"""
        ran = conforming("--rows", "--many", "--", self.many(answer))
        self.assertIn(
            'small.rows: two notes: line 1 differs\n  deferreds: note "a"\n'
            "  command:   (it has ended, by status 3, before it had answered)\n"
            '  {"version":1,"events":[["note","a"],["note","b"]]}\n',
            ran.output,
        )
        self.assertIn("small.rows: an unknown name: line 1 differs", ran.output)
        self.assertEqual(ran.output.splitlines()[-1], "1 passed, 3 failed")

    def test_one_that_never_answers_is_told_with_the_script(self) -> None:
        answer = f"""__import__('time').sleep({_LONG}) if b'"b"' in script else print('0 9 0\\nnote "a"')"""
        start = time.monotonic()
        ran = conforming("--rows", "--many", "--timeout", "10", "--", self.many(answer))
        self.assertLess(time.monotonic() - start, _LONG / 2)
        self.assertIn(
            "  command:   (no answer within 10 seconds)\n"
            '  {"version":1,"events":[["note","a"],["note","b"]]}\n',
            ran.output,
        )
        self.assertEqual(ran.output.splitlines()[-1], "1 passed, 3 failed")

    def test_a_wrong_line_is_told(self) -> None:
        for line, said in (("hello", "hello"), ("0 1", "0 1"), ("0 -1 0", "0 -1 0"), ("", "an empty one"),
                           ("1" * 200, "1" * 100)):
            ran = conforming("--rows", "--many", "--", self.many(f"print({line!r})"))
            self.assertIn(f"  command:   (a line that isn't three numbers: {said})\n", ran.output)

    def test_an_answer_without_an_end_is_told(self) -> None:
        answer = "sys.stdout.write('0 999999999 0\\n'); [sys.stdout.write('x' * 1_000_000) for _ in range(100)]"
        ran = conforming("--random", "1", "--trials", "0", "--many", "--ours", "true", "--", self.many(answer))
        self.assertRegex(ran.output, r"\n  command:   \(more than \d+ bytes of output\)\n")

    def test_none_are_asked_after_some_where_none_was_answered(self) -> None:
        ran = conforming("--random", "50", "--trials", "0", "--many", "--ours", "true", "--", self.shell("exit 64"))
        self.assertEqual(
            ran.output.splitlines()[-2:],
            [f"{50 - MOST_UNANSWERED} of 50 runs are left out, since none of the first {MOST_UNANSWERED} scripts was answered",
             f"0 passed, {MOST_UNANSWERED} failed"],
        )


class ProgressTest(ConformTest):
    """What is said while it runs."""

    def test_a_pipe_gets_a_line_now_and_then(self) -> None:
        ran = conforming("--rows", "--progress", "1e-9", "--", self.shell("cat >/dev/null"))
        lines = [f"conform: {runs} of 4 runs, {runs} failed" for runs in (1, 2, 3, 4)]
        self.assertEqual(ran.errors.splitlines(), lines)

    def test_with_0_seconds_none(self) -> None:
        ran = conforming("--rows", "--progress", "0", "--", self.shell("cat >/dev/null"))
        self.assertEqual(ran.errors, "")

    def test_cutting_down_is_told_too(self) -> None:
        ran = conforming("--random", "1", "--trials", "3", "--progress", "1e-9", "--ours", "true", "--", self.shell("echo x"))
        self.assertIn("conform: 1 of 1 runs, 1 failed; cuts a script down, 3 tried\n", ran.errors)

    def test_a_line_comes_each_so_many_seconds(self) -> None:
        now = [0.0]
        stream = io.StringIO()
        progress = Progress(stream, 9, 10.0, lambda: now[0])
        for runs, at in ((1, 4.0), (2, 10.0), (3, 15.0), (4, 21.0)):
            now[0] = at
            progress.say(runs, 0)
        progress.clear()
        self.assertEqual(stream.getvalue(), "conform: 2 of 9 runs, 0 failed\nconform: 4 of 9 runs, 0 failed\n")

    def test_a_terminal_has_one_line_that_is_cleared(self) -> None:
        now = [0.0]
        stream = io.StringIO()
        with mock.patch.object(stream, "isatty", return_value=True):
            progress = Progress(stream, 9, 10.0, lambda: now[0])
        now[0] = 1.0
        progress.say(1, 0)
        progress.clear()
        self.assertEqual(stream.getvalue(), "\r\x1b[Kconform: 1 of 9 runs, 0 failed\r\x1b[K")

    def test_late_runs_that_are_not_in_a_row_do_not_end_it(self) -> None:
        late = Difference(1, "", Lack("late", True).why, None, True, True)
        tally = Tally()
        for found in [late, late, None] * MOST_LATE:
            self.assertIsNone(tally.given_up())
            tally.count(found)
        self.assertEqual((tally.passed, tally.failed), (MOST_LATE, 2 * MOST_LATE))


class OnTwistedTest(unittest.TestCase):
    """The command on_twisted, where it is given something else than batches and lengths, and where it can't read or write."""

    def in_shell(self, words: str, redirected: str) -> "tuple[int, str]":
        """The status and the errors of the command, in a shell that redirects its standard streams."""
        ran = subprocess.run(
            ["sh", "-c", f'exec "$0" -m deferreds.twisted on_twisted {words} {redirected}', sys.executable],
            env={**os.environ, "PYTHONPATH": os.pathsep.join(filter(None, sys.path))},
            input='{"version":1,"events":[["note","a"]]}' if not words else '37\n{"version":1,"events":[["note","a"]]}',
            stdout=subprocess.DEVNULL,
            stderr=subprocess.PIPE,
            text=True,
            timeout=_LONG,
            check=False,
        )
        return ran.returncode, ran.stderr

    def test_what_can_not_be_read_or_written_is_told_in_a_line(self) -> None:
        for words in ("", "--many"):
            for redirected, why in (
                (">/dev/full", "standard output can't be written: No space left on device"),
                (">&-", "standard output can't be written: Bad file descriptor"),
                ("<&-", "standard input can't be read: Bad file descriptor"),
            ):
                self.assertEqual(self.in_shell(words, redirected), (4, f"on_twisted: {why}\n"), (words, redirected))

    def test_wrong_batches_and_lengths_end_with_status_64(self) -> None:
        cases = (
            (["--batches", "5"], ""),
            (["--batches", "[[0]]"], ""),
            (["--batches", "{"], ""),
            (["--many"], "x\n"),
            (["--many"], "2 {}\n{}"),
        )
        for words, script in cases:
            with self.subTest(words=words, script=script):
                ran = run(["-m", "deferreds.twisted", "on_twisted", *words], os.curdir, environment(), given=script)
                self.assertEqual(ran.returncode, 64, ran.stderr)
                self.assertNotIn("Traceback", ran.stderr)


if __name__ == "__main__":
    unittest.main()
