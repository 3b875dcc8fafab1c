"""`./record --shake`: the search for a run that fails, and what is kept of it."""

from __future__ import annotations

import html
import re
import signal
import subprocess
import sys
import unittest
from typing import Any, Dict

from deferreds.view.inputs import InOrders, Inputs

from .forked import environment
from .shaken_of import ShakenCase
from .test_shaken_programs import SHAKEN, TRIES, WRONG


#: how a program fails in some of its runs, which are counted in a file, whether it is shaken or not
_CHANCE = """
from twisted.internet import reactor, threads
threads.deferToThread(int).addBoth(lambda _: reactor.stop())
reactor.run()
with open("runs", "a+") as file:
    file.write(".")
    file.seek(0)
    raise SystemExit(len(file.read()) % 2 == 0)
"""


class SearchTest(ShakenCase):
    """A search for a run of a program."""

    def test_a_race_is_found_and_said_and_recorded(self) -> None:
        order = r"it fails if the result of job 1 of lost_update\.py:23 \(save\) comes after the result of job 2 of lost_update\.py:2[23] \((load|save)\)\n"
        for _ in range(TRIES):
            ended = self.shake("-f", "--shake", "9", "--shaken", "start", "--longest", "150", "races/lost_update.py")
            self.assertEqual((ended.status, ended.printed), (1, ""), ended.said)
            if re.search(order, ended.said) and "compared.html shows it beside" in ended.said:  # (which no run may do on a busy machine)
                break
        self.assertRegex(ended.said, order)
        self.assertRegex(ended.said, r"record: seed \d+ fails, after \d+ runs?, [\d.]+ s: its status is 1\n")
        self.assertEqual(self.scripts(), ["lost_update"])
        self.assertIn("lost_update.html", self.files())
        self.assert_goes_together("lost_update")
        facts = self.shaken_facts("lost_update")
        self.assertEqual((facts["fails"], list(facts["perturbations"])), ("its status is 1", ["start lost_update.py:23#1 1"]))
        self.assertIn(f"record: {facts['needs']}\n", ended.said)
        [again] = re.findall(r"again: (--seed (\d+) --longest 150 --only '(.*)')\n", ended.said)
        self.assertEqual(again, (facts["again"], str(facts["seed"]), *facts["perturbations"]))
        first = next(line for line in self.report("lost_update") if line.startswith("!!"))
        self.assertRegex(first, rf"^!! shaken    {re.escape(facts['needs'])}  \(line \d+\)$")
        self.assertRegex(self.text("lost_update.html"), r"<table class=report><tr class=bad><td>shaken</td><td><a href=#row=\d+>line")
        self.assertIn("record: lost_update.compared.html shows it beside a run that passes\n", ended.said)
        self.assert_beside("lost_update", facts)
        self.assertIn("lost_update.compared.html", self.facts("lost_update")["files"])

    def assert_beside(self, name: str, facts: Dict[str, Any]) -> None:
        """The first row of the page of both is the cause, and the run that passes hasn't met it."""
        rows = re.findall(r"<tr><td>(\w+)</td><td><bdi>(.*?)</bdi></td><td><bdi>(.*?)</bdi></td></tr>", self.text(f"{name}.compared.html"))
        self.assertEqual(rows[0][:2], ("shaken", f"{name}, which fails"))
        self.assertTrue(rows[0][2].startswith(html.escape(facts["needs"])), rows[0])
        self.assertIn(("shaken", f"{name}, which passes", f"it was shaken by seed {facts['seed']}, and met 0 perturbations"), rows)

    def test_one_run_is_shaken_again_by_its_seed_and_its_keys(self) -> None:
        seed, _, keys = WRONG["lost_update"]
        words = ["-f", "--seed", str(seed), "--longest", "150", *(word for key in keys for word in ("--only", key))]
        runs = (self.shake(*words, "races/lost_update.py") for _ in range(TRIES))
        self.assertTrue(any(one.status == 1 for one in runs))
        self.assert_goes_together("lost_update")
        self.assertEqual(list(self.shaken_facts("lost_update")["perturbations"]), list(keys))
        self.assertIn(f" - shaken    it was shaken by seed {seed}, and met 1 perturbation", self.report("lost_update"))

    def test_a_race_after_a_long_wait_is_found_by_a_clock_that_jumps(self) -> None:
        program = self.copied_of_races("lost_update").replace("    yield defer.gather", "    yield later(500, int)\n    yield defer.gather")
        (self.folder / "waiting.py").write_text(program, encoding="utf-8")
        for _ in range(TRIES):
            ended = self.record("-f", "--shake", "60", "--fast", "--no-cut", "--shaken", "start", "--longest", "150", "waiting.py")
            if self.scripts():
                break
        self.assertEqual((ended.status, self.scripts()), (1, ["waiting"]), ended.said)
        self.assertRegex(ended.said, r"record: --fast left out \d+ waits, of [\d,]+\.\d s in all; it waited \d+ times, [\d.]+ s in all, since a thread of a pool works \(\d+ times\)\n$")
        self.assert_goes_together("waiting")
        self.assertTrue(self.shaken_facts("waiting")["fast"])

    def test_chance_is_called_no_cause_and_what_is_kept_is_shown(self) -> None:
        (self.folder / "chance.py").write_text(_CHANCE, encoding="utf-8")
        ended = self.record("--shake", "60", "--shaken", "start", "chance.py")
        self.assertEqual(ended.status, 1, ended.said)
        chance = "what it needs can't be told: with the perturbation it fails in [23] of 5 runs, and with none in [23] of 5; the machine may be busy"
        self.assertRegex(ended.said, f"record: ({chance}|it fails with no perturbation, too: the machine is busy enough)\n")
        self.assertNotIn(" needed", ended.said)
        self.assertIn("record: chance.html shows the run that fails, and chance.recording lists its files\n", ended.said)
        self.assertIn("record: chance.compared.html shows it beside a run that passes\n", ended.said)
        self.assertIn("chance.compared.html", self.facts("chance")["files"])

    def test_a_mended_program_passes(self) -> None:
        ended = self.shake("--shake", "4", "mended/timeout_beats.py")
        self.assertEqual((ended.status, self.files()), (0, []), ended.said)
        self.assertRegex(ended.said, r"^record: none of 4 shaken runs failed, [\d.]+ s; they met \d+ perturbations\n$")

    def test_a_run_that_hangs_is_recorded_as_it_hangs(self) -> None:
        for seconds in ("3", "20"):  # (on a busy machine a run may take three seconds until it can be asked for its recording)
            ended = self.shake("--shake", "60", "--shaken", "start", "--longest", "200", "--within", seconds, "--no-cut", "hangs.py")
            self.assertEqual(ended.status, 1, ended.said)
            self.assertIn(f": it takes longer than {seconds} s\n", ended.said)
            if "hangs.recording" in self.files():
                break
        self.assertEqual(self.facts("hangs")["ended"], "asked by SIGUSR1")
        self.assertIn("hangs.compared.html", self.files())
        self.assertIn(" unfired\n", self.text("hangs.journal"))

    def test_what_is_left_counts_if_it_is_asked_for(self) -> None:
        words = ["--shaken", "start,job", "--longest", "200", "--no-cut"]
        ended = self.shake("--shake", "40", "--until", "left", *words, "quiet_lock_order.py")
        self.assertEqual(ended.status, 1, ended.said)
        self.assertIn("left at its end: a token of lock_work_", ended.said)

    def test_every_order_of_the_results_runs_where_these_alone_were_late(self) -> None:
        for _ in range(TRIES):
            ended = self.shake("-f", "--shake", "40", "--shaken", "start,job", "--longest", "200", "races/lock_order.py")
            self.assertEqual(ended.status, 1, ended.said)
            said = re.search(r"record: \./deferreds --orders (lock_order\.orders\.json) runs (\d+) orders of 2 results, of which (\d+) ends? as the run that fails\n", ended.said)
            if said:
                break
        assert said is not None, ended.said
        self.assertIn(said[1], self.facts("lock_order")["files"])
        orders = InOrders(Inputs(str(self.folder / said[1])), []).orders
        self.assertEqual((orders.total, len(orders.outcomes)), (int(said[2]), 2))
        self.assertIn(int(said[3]), [one.orders for one in orders.outcomes])
        waiting = [way.orders for one in orders.endings for way in one.ways if one.name.startswith("work_25") and way.state == "unfired"]
        self.assertEqual(waiting, [int(said[3])])

    def test_a_command_judges(self) -> None:
        ended = self.shake("--shake", "40", "--shaken", "start,job", "--longest", "200", "--no-cut", "--until", "grep -q 'balance 130'", "judged.py")
        self.assertEqual(ended.status, 1, ended.said)
        self.assertIn("`grep -q 'balance 130'` has status 1", ended.said)
        wrong = self.shake("--shake", "2", "--until", "false", "mended/lost_update.py")
        self.assertEqual(wrong.status, 2)
        self.assertIn("plain run 1 of 3 fails, which isn't shaken: `false` has status 1\n", wrong.said)
        self.assertIn("nothing is shaken, since no plain run passes\n", wrong.said)

    def test_a_program_that_serves_for_ever_is_told_to_end(self) -> None:
        (self.folder / "serves.py").write_text("from twisted.internet import reactor\nreactor.run()\n", encoding="utf-8")
        ended = self.record("--shake", "2", "--within", "0.5", "serves.py")
        self.assertEqual((ended.status, self.files()), (2, ["serves.py"]), ended.said)
        self.assertIn("plain run 3 of 3 fails, which isn't shaken: it takes longer than 0.5 s; --within S gives it longer\n", ended.said)
        self.assertIn("no plain run passes; a program that serves for ever needs an end, as a timer that stops the reactor\n", ended.said)

    def test_what_meets_nothing_is_given_up(self) -> None:
        (self.folder / "nothing.py").write_text("print(1)\n", encoding="utf-8")
        ended = self.record("--shake", "500", "nothing.py")
        self.assertEqual(ended.status, 0)
        self.assertIn("none of 12 shaken runs failed, ", ended.said)
        self.assertIn("they met nothing that is shaken, so no more are made\n", ended.said)

    def test_a_run_that_fails_without_being_shaken_is_said_and_not_kept(self) -> None:
        (self.folder / "tired.py").write_text("with open('runs', 'a') as file:\n    file.write('.')\nraise SystemExit(len(open('runs').read()) == 5)\n", encoding="utf-8")
        ended = self.record("--shake", "3", "tired.py")
        self.assertEqual((ended.status, self.files()), (0, ["runs", "tired.py"]), ended.said)
        self.assertIn("record: the run of seed 2 fails, and has met nothing that is shaken: its status is 1\n", ended.said)
        self.assertIn("record: none of 2 shaken runs failed, ", ended.said)

    def test_ctrl_c_ends_the_search_and_the_run(self) -> None:
        process = self.start("--shake", "9", "--within", "50", str(SHAKEN / "waits.py"))
        begun = self.folder / "begun"
        self.wait_for(begun.exists, "a run")
        process.send_signal(signal.SIGINT)
        ended = self.end(process)
        self.assertEqual(ended.status, -signal.SIGINT, ended.said)
        self.assertIn("stopped by Ctrl-C, after 1 run; nothing is kept", ended.said)

    def test_a_signal_ends_the_search_and_the_run_and_leaves_no_folder(self) -> None:
        rooms = self.folder / "rooms"
        rooms.mkdir()
        words = ["-m", "deferreds.twisted", "record", "--shake", "9", "--within", "50", str(SHAKEN / "waits.py")]
        with subprocess.Popen([sys.executable, *words], cwd=self.folder, env={**environment(), "TMPDIR": str(rooms)}, stderr=subprocess.PIPE, text=True) as process:
            self.wait_for((self.folder / "begun").exists, "a run")
            self.wait_for(lambda: any(rooms.iterdir()), "its folder")
            process.send_signal(signal.SIGTERM)
            _, said = process.communicate(timeout=60)
        self.assertEqual(process.returncode, -signal.SIGTERM, said)
        self.assertEqual(said, "record: stopped by SIGTERM, after 1 run; nothing is kept\n")
        self.assertEqual(list(rooms.iterdir()), [])

    def test_a_file_of_others_stops_the_search_before_it_begins(self) -> None:
        for name in ("waits.json", "waits.compared.html", "waits.orders.json"):
            (self.folder / name).write_text("mine", encoding="utf-8")
            ended = self.shake("--shake", "3", "waits.py")
            self.assertEqual((ended.status, self.text(name)), (73, "mine"), ended.said)
            self.assertFalse((self.folder / "begun").exists())
            (self.folder / name).unlink()

    def test_words_that_do_not_go_together_are_refused(self) -> None:
        rows = [
            (["--until", "left"], "--until is for --shake and --seed"),
            (["--seed", "3", "--within", "2"], "--until and --within are for --shake"),
            (["--fast"], "--fast is for --shake and --seed"),
            (["--shake", "3", "--shaken", "wind"], "--shaken has no wind: start, job, "),
            (["--shake", "3", "--virtual"], "needs a real reactor"),
            (["--shake", "3", "--last", "9"], "--shake and --last don't go together"),
            (["--shake", "0"], "0 isn't a number from 1 on"),
            (["--shake", "some"], "some isn't a number from 1 on"),
            (["--shake", "2", "--seed", "-1"], "-1 isn't a number from 0 on"),
            (["--shake", "2", "--longest", "nan"], "nan isn't a number of more than 0"),
            (["--shake", "2", "--reactor", "poll"], "--reactor is for --test; a program installs its own"),
        ]
        for words, said in rows:
            ended = self.shake(*words, "waits.py")
            self.assertEqual(ended.status, 64, words)
            self.assertIn(said, ended.said)
        self.assertEqual(self.files(), [])


if __name__ == "__main__":
    unittest.main()
