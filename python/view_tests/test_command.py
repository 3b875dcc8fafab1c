"""The command `view`."""

from __future__ import annotations

import contextlib
import io
import json
import os
import subprocess
import tempfile
import unittest
from pathlib import Path
from typing import List, Tuple
from unittest import mock

from deferreds.checkout import TOP
from deferreds.view import command, inputs

from .stand_in import told

_JOURNAL = TOP / "examples" / "python" / "workers.journal"


class Command(unittest.TestCase):
    """What it reads and writes, and with which status it ends."""

    def setUp(self) -> None:
        folder = tempfile.TemporaryDirectory()
        self.addCleanup(folder.cleanup)
        self.folder = Path(folder.name)

    def run_view(self, *words: object) -> Tuple[int, str, str]:
        """Status, output and errors."""
        output, errors = io.StringIO(), io.StringIO()
        with contextlib.redirect_stdout(output), contextlib.redirect_stderr(errors):
            try:
                status = command.main([str(word) for word in words])
            except SystemExit as exit_:
                status = int(str(exit_.code))
        return status, output.getvalue(), errors.getvalue()

    def test_a_journal_as_a_text(self) -> None:
        status, output, _ = self.run_view("--text", "--journal", _JOURNAL)
        self.assertEqual(status, 0)
        self.assertTrue(
            output.startswith(
                "workers.journal: nothing is left unfired\n122 lines, 14 Deferreds, time 0 to 6\n"
            )
        )

    def test_one_deferred_as_a_text(self) -> None:
        for asked in ("2", "#2"):
            status, output, _ = self.run_view("--text", "--deferred", asked, "--journal", _JOURNAL)
            self.assertEqual((status, output.split(":")[0].split(" ")[0].split("·")[0]), (0, "#2"))
            self.assertIn("├ is made", output)
        status, output, errors = self.run_view("--text", "--deferred", "no\x1bone", "--journal", _JOURNAL)
        self.assertEqual((status, output, errors), (66, "", "view: workers.journal has no Deferred no\\u001bone\n"))
        for words in (["--deferred", "2"], ["--text", "--deferred", "2", "--compare", _JOURNAL, _JOURNAL]):
            self.assertEqual(self.run_view(*words, *([] if "--compare" in words else ["--journal", _JOURNAL]))[0], 64)

    def test_the_report_alone_as_a_text_or_as_json(self) -> None:
        status, output, _ = self.run_view("--text", "--report", "--journal", _JOURNAL)
        self.assertEqual((status, output), (0, "".join(self.run_view("--text", "--journal", _JOURNAL)[1].partition("\n\n")[0]) + "\n"))
        status, output, _ = self.run_view("--as-json", "--journal", _JOURNAL)
        told = json.loads(output)
        self.assertEqual((status, output.count("\n"), told["version"], told["lines"], told["tick"]), (0, 1, 1, 122, None))
        self.assertEqual((told["report"], told["made"]), ([], []))
        for words in (["--report"], ["--as-json", "--report"], ["--text", "--report", "--deferred", "2"], ["--as-json", "--open"], ["--as-json", "--text"]):
            self.assertEqual(self.run_view(*words, "--journal", _JOURNAL)[:2], (64, ""), words)
        self.assertEqual(self.run_view("--as-json", "--compare", _JOURNAL, _JOURNAL)[:2], (64, ""))

    def test_a_page_is_written_where_it_is_wanted(self) -> None:
        wanted = self.folder / "below" / "page.html"
        status, output, errors = self.run_view("--journal", _JOURNAL, "-o", wanted)
        self.assertEqual((status, output), (0, ""))
        self.assertIn("page.html: 122 lines", errors)
        self.assertTrue(wanted.read_text(encoding="utf-8").startswith("<!doctype html>"))
        self.run_view("--journal", _JOURNAL, "-o", self.folder)
        self.assertTrue((self.folder / "workers.html").is_file())

    def test_a_page_is_opened_where_that_is_wanted(self) -> None:
        with mock.patch("webbrowser.open") as opened:
            self.run_view("--journal", _JOURNAL, "-o", self.folder / "x.html")
            opened.assert_not_called()
            self.run_view("--journal", _JOURNAL, "-o", self.folder / "x.html", "--open")
            opened.assert_called_once_with((self.folder / "x.html").resolve().as_uri())

    def test_a_part(self) -> None:
        status, _, errors = self.run_view(
            "--journal", _JOURNAL, "--from", 20, "--to", 30, "-o", self.folder / "x.html"
        )
        self.assertEqual(status, 0)
        self.assertIn("of which the page has 20 to 30", errors)

    def test_facts(self) -> None:
        facts = self.folder / "facts"
        facts.write_text(told("new #0 d\nfire #0 ok 1\n#0 d ok 1\n", [0, 1]), encoding="utf-8")
        status, output, _ = self.run_view("--text", "--json", facts)
        self.assertEqual(
            (status, output.split("\n")[1]), (0, "2 lines, 1 Deferred, time 0 to 0, weight 2 of 2000")
        )

    def test_what_isn_t_of_the_form_is_refused(self) -> None:
        texts: List[bytes] = [
            b"",
            b"new #0 d\n",
            b"{}\n",
            b'{"type":"start","version":2}\n',
            b'{"type":"start","version":1}\n{"type":"entry"}\n',
            b'{"type":"start","version":1}\n{"type":"left","kind":"failure","deferred":{"number":"<b>"}}\n',
            b"\xff",
            b"[" * 100_000,
        ]
        for text in texts:
            facts = self.folder / "facts"
            facts.write_bytes(text)
            status, _, errors = self.run_view("--text", "--json", facts)
            self.assertEqual(status, 66, text[:80])
            self.assertIn("view: ", errors)

    def test_words_and_files_that_aren_t_known(self) -> None:
        for words in (
            ["--nope"],
            ["--from", "0"],
            ["--journal", "a", "--json", "b"],
            ["--journal", "a", "b", "c"],
            ["a", "b", "-o", "-"],
            ["a", "--open", "-o", "-"],
            ["-", "-"],
            ["--journal", "-", "-"],
        ):
            self.assertEqual(self.run_view(*words)[0], 64, words)
        self.assertEqual(self.run_view("--journal", self.folder / "none")[0], 66)
        self.assertEqual(self.run_view("--journal", _JOURNAL, "-o", _JOURNAL / "x.html")[0], 73)

    def test_a_script_that_is_refused_ends_with_its_status_and_the_next_is_shown(self) -> None:
        stand_in = self.folder / "deferreds"
        (self.folder / "facts").write_text(told("new #0 d\n#0 d unfired\n", [0]))
        stand_in.write_text(
            '#!/bin/sh\ngrep -q bad && exit 2\n[ "$1" = --json ] && cat "${0%deferreds}facts"\n'
        )
        stand_in.chmod(0o755)
        for name in ("bad", "good"):
            (self.folder / f"{name}.json").write_text(
                f'{{"version":1,"events":[["deferred","{name}"]]}}'
            )
        with mock.patch.object(inputs, "found", lambda: stand_in):
            status, _, errors = self.run_view(
                self.folder / "bad.json", self.folder / "good.json", "-o", self.folder / "pages"
            )
        self.assertEqual(status, 2)
        self.assertIn("bad.json was not run to its end", errors)
        self.assertEqual(errors.count("\n"), 2)
        self.assertEqual(os.listdir(self.folder / "pages"), ["good.html"])

    def test_what_is_said_of_a_script_that_is_refused_is_what_why_says(self) -> None:
        stand_in = self.folder / "deferreds"
        line = '{"at":"/events/0/1","expected":"a name","found":"7","name":"BadShape","refusal":4}'
        stand_in.write_text(f"#!/bin/sh\n[ $1 = --why ] && echo '{line}' && echo more >&2\nexit 2\n")
        stand_in.chmod(0o755)
        (self.folder / "bad.json").write_text("{}")
        (self.folder / "journal").write_text("new #0 d\n")
        with mock.patch.object(inputs, "found", lambda: stand_in):
            status, _, errors = self.run_view("--text", self.folder / "bad.json")
            hinted = self.run_view("--text", self.folder / "journal")[2]
        said = "bad.json is refused: BadShape: at /events/0/1: found 7, expected a name\n"
        self.assertEqual((status, errors[-len(said) :], errors.count("\n")), (2, said, 1))
        self.assertTrue(hinted.endswith("expected a name; it looks like a journal, which is given with --journal\n"))

    def test_a_program_that_tells_no_facts_tells_a_journal(self) -> None:
        stand_in = self.folder / "deferreds"
        stand_in.write_text(
            "#!/bin/sh\n[ $# -eq 0 ] || exit 64\nprintf 'new #0 d\\n#0 d unfired\\n'\nexit 1\n"
        )
        stand_in.chmod(0o755)
        (self.folder / "s.json").write_text("{}")
        with mock.patch.object(inputs, "found", lambda: stand_in):
            status, output, _ = self.run_view("--text", self.folder / "s.json")
        self.assertEqual(status, 0)
        self.assertIn("Read from a journal alone", output)
        self.assertIn("the run stopped at the limit", output)

    def test_a_text_that_is_no_journal_gives_no_page(self) -> None:
        script = (TOP / "examples" / "retried.json").read_text(encoding="utf-8")
        for text, why in (
            ("# A title\n\nA sentence.\n", "isn't a journal: no line of it is known"),
            ("hello\n", "isn't a journal"),
            ("", "is empty"),
            ("\n\n", "is empty"),
            ("a log\nnew #0 d\nof a program\n", "isn't a journal: 2 of its 3 lines aren't known"),
            (script, "it looks like a script, which is given without --journal"),
            (json.dumps(json.loads(script)), "it looks like a script"),
            (f"\ufeff{script}", "it looks like a script"),
            (told("new #0 d\n#0 d unfired\n", [0]), "which is given with --json"),
        ):
            path = self.folder / "page.md"
            path.write_text(text)
            status, _, errors = self.run_view("--journal", path, "-o", self.folder / "x.html")
            self.assertEqual((status, errors.count("\n")), (66, 1), text)
            self.assertIn(why, errors)
            self.assertFalse((self.folder / "x.html").exists())

    def test_a_journal_in_the_place_of_facts_is_told(self) -> None:
        status, _, errors = self.run_view("--text", "--json", _JOURNAL)
        self.assertEqual(status, 66)
        self.assertIn("it looks like a journal, which is given with --journal", errors)

    def test_a_page_on_standard_output(self) -> None:
        status, output, errors = self.run_view("--journal", _JOURNAL, "-o", "-")
        self.assertEqual((status, output[:15]), (0, "<!doctype html>"))
        self.assertTrue(output.endswith("</html>\n"))
        self.assertTrue(errors.startswith("view: standard output: 122 lines"))

    def test_a_trace(self) -> None:
        status, _, errors = self.run_view("--trace", "--journal", _JOURNAL, "-o", self.folder)
        self.assertEqual((status, errors.count("\n")), (0, 1))
        trace = json.loads((self.folder / "workers.trace.json").read_text(encoding="utf-8"))
        self.assertEqual(trace["otherData"]["title"], "workers.journal")
        self.assertEqual(json.loads(self.run_view("--trace", "--journal", _JOURNAL, "-o", "-")[1]), trace)
        for words in (["--text"], ["--open"]):
            self.assertEqual(self.run_view("--trace", "--journal", _JOURNAL, *words)[0], 64)

    def test_two_runs_beside_each_other(self) -> None:
        facts, journal = self.folder / "facts.jsonl", self.folder / "j.txt"
        facts.write_text(told("new #0 d\nfire #0 ok 1\n#0 d ok 1\n", [0, 1]), encoding="utf-8")
        journal.write_text("new #0 d\nfire #0 ok 2\n#0 d ok 2\n")
        stand_in = self.folder / "deferreds"
        stand_in.write_text('#!/bin/sh\ncat "${0%deferreds}facts.jsonl"\n')
        stand_in.chmod(0o755)
        (self.folder / "s.json").write_text("{}")
        with mock.patch.object(inputs, "found", lambda: stand_in):
            same = self.run_view("--text", "--compare", facts, self.folder / "s.json")
            page = self.run_view("-o", self.folder, "--compare", facts, journal)
        self.assertIn("the same: 2 lines, and all outcomes\n", same[1])
        target = self.folder / "facts_and_j.html"
        self.assertEqual(page, (0, "", f"view: {target}: line 2 is the first that differs; 1 outcome differs\n"))
        self.assertTrue(target.read_text(encoding="utf-8").startswith("<!doctype html>"))
        for words, status in (
            (["--compare", facts], 64),
            (["--compare", facts, journal, "more"], 64),
            (["--compare", facts, journal, "--trace"], 64),
            (["--compare", "-", "-"], 64),
            (["--compare", facts, self.folder / "none"], 66),
            (["--compare", facts, self.folder], 66),
            (["--compare", facts, journal, "-o", journal], 73),
        ):
            found = self.run_view(*words)
            self.assertEqual(found[0], status, words)
            self.assertEqual(journal.read_text()[:8], "new #0 d")

    def test_pages_of_one_name_don_t_overwrite_each_other(self) -> None:
        scripts = [self.folder / name / "s.json" for name in "abc"] + [self.folder / "s_2.json"]
        for place, script in enumerate(scripts):
            script.parent.mkdir(exist_ok=True)
            script.write_text(json.dumps({"version": 1, "events": [["note", f"script {place}"]]}))
        status, _, _ = self.run_view(*scripts, "-o", self.folder / "pages")
        self.assertEqual(status, 0)
        names = ("s.html", "s_2.html", "s_3.html", "s_2_2.html")
        self.assertEqual(set(os.listdir(self.folder / "pages")), set(names))
        for place, name in enumerate(names):
            self.assertIn(f"script {place}", (self.folder / "pages" / name).read_text(encoding="utf-8"))

    def test_a_page_doesn_t_overwrite_what_it_is_made_from(self) -> None:
        text = _JOURNAL.read_text(encoding="utf-8")
        journal, link = self.folder / "j.html", self.folder / "link.html"
        journal.write_text(text)
        link.symlink_to(journal)
        for words in ((), ("-o", journal), ("-o", link), ("-o", self.folder)):
            before = os.getcwd()
            os.chdir(self.folder)
            try:
                status, _, errors = self.run_view("--journal", journal, *words)
            finally:
                os.chdir(before)
            self.assertEqual((status, errors.count("\n")), (73, 1), words)
            self.assertEqual(journal.read_text(), text)

    def test_files_that_can_t_be_read_or_written(self) -> None:
        (self.folder / "file").write_text("")
        for words, status in (
            (["--journal", self.folder], 66),
            (["--json", self.folder], 66),
            ([self.folder], 66),
            (["--places", self.folder, "--journal", _JOURNAL], 66),
            (["--journal", "a\0b"], 66),
            (["--journal", _JOURNAL, "-o", self.folder / "file" / "x.html"], 73),
            (["--journal", _JOURNAL, "-o", "/dev/full"], 73),
            (["--journal", _JOURNAL, "-o", "a\0b"], 73),
        ):
            found = self.run_view(*words)
            self.assertEqual((found[0], found[2].count("\n"), found[2][:6]), (status, 1, "view: "), words)

    def test_a_chart_that_ends_before_it_begins_is_refused(self) -> None:
        status, _, errors = self.run_view("--journal", _JOURNAL, "--from", 5, "--to", 2)
        self.assertEqual((status, errors.count("\n")), (64, 1))

    def test_it_runs_from_the_top_and_ends_where_its_reader_does(self) -> None:
        view = subprocess.run(
            f"{TOP / 'view'} --text --journal {_JOURNAL} | head -n 1",
            shell=True,
            capture_output=True,
            text=True,
            check=True,
        )
        self.assertEqual((view.stdout, view.stderr), ("workers.journal: nothing is left unfired\n", ""))


if __name__ == "__main__":
    unittest.main()
