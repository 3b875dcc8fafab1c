"""The last events of a program, after what stood before them."""

from __future__ import annotations

import unittest

from .recording_of import RecordingCase


class Last(RecordingCase):
    """Two recordings: the last events, and as many before these."""

    def test_a_script_begins_with_what_stood(self) -> None:
        for count in (7, 21, 50):
            with self.subTest(count=count):
                name = f"last{count}"
                ended = self.record("-o", name, "--last", str(count), "goes_on.py", "40")
                self.assertEqual(ended.status, 0, ended.said)
                self.assertEqual(ended.said.count("./deferreds prints the same, line for line"), 2, ended.said)
                for each in (name, f"{name}.before"):
                    self.assert_goes_together(each)
                self.assertGreaterEqual(self.facts(f"{name}.before")["events"], count)

    def test_where_another_has_just_taken_over_there_is_one_recording(self) -> None:
        self.record("-o", "whole", "goes_on.py", "40")
        half = self.facts("whole")["events"] // 2
        self.assertEqual(self.record("-o", "last", "--last", str(half), "goes_on.py", "40").status, 0)
        self.assert_goes_together("last")
        has_rest = self.facts("whole")["events"] % 2 == 1
        self.assertEqual("last.before.json" in self.files(), has_rest)

    def test_a_deferred_that_stood_and_was_never_met_is_told(self) -> None:
        self.record("-o", "last", "--last", "10", "goes_on.py", "40")
        outcomes = [line for line in self.text("last.journal").splitlines() if line.startswith("#")]
        self.assertTrue(any(line.endswith(" unfired") for line in outcomes), outcomes)

    def test_with_fewer_events_it_is_the_whole_run(self) -> None:
        self.assertEqual(self.record("-o", "last", "--last", "1000", "goes_on.py", "4").status, 0)
        self.assertEqual(self.record("-o", "whole", "goes_on.py", "4").status, 0)
        for ending in (".json", ".journal"):
            self.assertEqual(self.text(f"last{ending}"), self.text(f"whole{ending}"))
        self.assertNotIn("last.before.json", self.files())

    def test_memory_is_bounded(self) -> None:
        ended = self.record("-o", "last", "--last", "300", "grows.py")
        self.assertEqual(ended.status, 0, ended.said)
        early, late = (int(line.split()[1]) for line in ended.printed.splitlines())
        self.assertLess(late - early, 2_000, "3,000 requests leave less than an object each")
        self.assert_goes_together("last")

    def test_what_a_seed_says(self) -> None:
        told = 0
        for seed in range(5):
            with self.subTest(seed=seed):
                name = f"seed{seed}"
                ended = self.record("-o", name, "--last", "25", "random_calls.py", str(seed), "120")
                self.assertNotIn("would be wrong", ended.said)
                self.assertIn(ended.status, (0, 65), ended.said)
                told += ended.said.count("prints the same, line for line")
        self.assertGreater(told, 5)

    def test_the_real_reactor(self) -> None:
        for count in (9, 40):
            with self.subTest(count=count):
                name = f"echo{count}"
                ended = self.record("-o", name, "--last", str(count), "echo.py")
                self.assertEqual(ended.status, 0, ended.said)
                self.assertGreater(self.facts(name)["earlier events"], 0)
                self.assertIn(f"{name}.json", self.files())
                kept = [each for each in (name, f"{name}.before") if f"{each}.json" in self.files()]  # one, where the last is full
                for each in kept:
                    self.assert_goes_together(each)
                self.assertIn("advance", [event[0] for each in kept for event in self.events(each)])

    def test_wrong_words(self) -> None:
        for words in (("--last", "0", "goes_on.py"), ("--last", "x", "goes_on.py"), ("--last", "5", "--test", "a.b.c")):
            self.assertEqual(self.record(*words).status, 64)


if __name__ == "__main__":
    unittest.main()
