"""What pip installs: from the wheel, and from a checkout, into clean virtual environments without a network."""

from __future__ import annotations

import shutil
import sys
import tempfile
import unittest
from pathlib import Path
from typing import List

from .support import (
    JOURNAL,
    PROGRAM,
    PROJECT,
    RELEASED,
    SCRIPT,
    WHEEL,
    PackagingTest,
    Ran,
    build_wheel,
    contents,
    copy_checkout,
    journal,
    needs_release,
    needs_venv,
    run,
    virtual_environment,
)


_ROOM: "List[tempfile.TemporaryDirectory[str]]" = []


def setUpModule() -> None:
    """Makes one virtual environment, since that takes longer than all else; each class installs into it again."""
    _ROOM.append(tempfile.TemporaryDirectory())
    unittest.addModuleCleanup(lambda: _ROOM.pop().cleanup())
    virtual_environment(Path(_ROOM[0].name, "environment"))


class InstalledTest(PackagingTest):
    """The commands that are installed."""

    @property
    def bin(self) -> Path:
        """The folder of the virtual environment's commands."""
        return Path(_ROOM[0].name, "environment", "bin")

    def pip(self, *words: object, cwd: Path) -> Ran:
        """Runs the virtual environment's pip."""
        return run(self.bin / "python3", "-m", "pip", *words, cwd=cwd)


@needs_venv
class FromTheWheel(InstalledTest):
    """Each command runs from an empty folder."""

    @classmethod
    def setUpClass(cls) -> None:
        checkout = Path(_ROOM[0].name, "checkout")
        copy_checkout(checkout, RELEASED)
        wheel = build_wheel(checkout)
        pip = Path(_ROOM[0].name, "environment", "bin", "pip")
        installed = run(pip, "install", "--no-index", "--force-reinstall", wheel, cwd=wheel.parent)
        if installed.status != 0:
            raise AssertionError(installed.errors)

    def test_the_program_runs_a_script(self) -> None:
        self.assert_ran(run(self.bin / "deferreds", cwd=self.empty, stdin=SCRIPT), journal())
        self.assert_ran(run(self.bin / "deferreds", SCRIPT, cwd=self.empty), journal())
        python = self.bin / "python3"
        self.assert_ran(run(python, "-m", "deferreds", cwd=self.empty, stdin=SCRIPT), journal())

    def test_the_program_tells_its_version(self) -> None:
        ran = run(self.bin / "deferreds", "--version", cwd=self.empty)
        self.assert_ran(ran)
        self.assertTrue(ran.output)

    @needs_release
    def test_the_version_is_that_of_the_package(self) -> None:
        ran = run(self.bin / "deferreds", "--version", cwd=self.empty)
        self.assertIn(PROJECT.version, ran.output)

    def test_the_view_shows_a_journal(self) -> None:
        view = self.bin / "deferreds-view"
        ran = run(view, "--text", "--journal", JOURNAL, cwd=self.empty)
        self.assert_ran(ran)
        self.assertIn("workers.journal: nothing is left unfired\n", ran.output)
        page = run(view, "--journal", JOURNAL, cwd=self.empty)
        self.assertEqual((page.status, page.errors[:31]), (0, "deferreds-view: workers.html: 1"))
        self.assertEqual(contents(self.empty), ["workers.html"])

    @needs_release
    def test_the_view_runs_a_script(self) -> None:
        ran = run(self.bin / "deferreds-view", "--text", SCRIPT, cwd=self.empty)
        self.assert_ran(ran)
        self.assertIn("workers.json: nothing is left unfired\n", ran.output)

    def test_help_names_the_commands_as_they_are_installed(self) -> None:
        for name in ("deferreds-conform", "deferreds-view"):
            ran = run(self.bin / name, "--help", cwd=self.empty)
            self.assert_ran(ran)
            self.assertTrue(ran.output.startswith(f"usage: {name} "), ran.output)
            self.assertNotIn("./", ran.output)

    def test_where_twisted_is_missing_one_line_says_so(self) -> None:
        wanted = "needs Twisted, from 22.4 on: pip install 'deferreds[record]', or apt-get install python3-twisted"
        for words in (("deferreds-record", "--help"), ("deferreds-trial", "--help"), ("deferreds-conform", "--rows", "--", "true")):
            ran = run(self.bin / words[0], *words[1:], cwd=self.empty)
            self.assert_refused(ran, 70, f"{words[0]}: {wanted}\n")


@needs_venv
class FromACheckout(InstalledTest):
    """`pip install .`, with all that pip does where nothing else is said."""

    def test_it_needs_no_network_and_leaves_the_checkout_as_it_was(self) -> None:
        checkout = self.copy()
        before = contents(checkout)
        self.pip("uninstall", "-y", "deferreds", cwd=self.empty)
        self.assert_ran(self.pip("install", ".", cwd=checkout))
        self.assertEqual(contents(checkout), before)
        self.assert_ran(run(self.bin / "deferreds", cwd=self.empty, stdin=SCRIPT), SCRIPT.read_text(encoding="utf-8"))
        (checkout / PROGRAM).unlink()
        ran = self.pip("install", "--force-reinstall", ".", cwd=checkout)
        self.assertEqual(ran.status, 1)
        self.assertIn(f"no package is built: the program {PROGRAM} can't be read", ran.output + ran.errors)
        self.assertNotIn("Traceback", ran.output + ran.errors)

    def test_what_a_source_distribution_holds_is_enough(self) -> None:
        checkout = self.copy()
        program = "import sys; sys.path.insert(0, sys.argv[1]); import backend; print(backend.build_sdist('.'))"
        built = run(sys.executable, "-c", program, checkout / "packaging", cwd=self.folder)
        self.assert_ran(built, f"{PROJECT.stem}.tar.gz\n")
        shutil.unpack_archive(self.folder / built.output.strip(), self.empty)
        wheel = build_wheel(self.empty / PROJECT.stem)
        self.assertEqual(wheel.name, WHEEL)
        self.assertTrue(wheel.read_bytes() == build_wheel(checkout).read_bytes())

    def test_an_editable_install_runs_what_stands_in_the_checkout(self) -> None:
        checkout = self.copy()
        self.assert_ran(self.pip("install", "--force-reinstall", "-e", ".", cwd=checkout))
        module = checkout / "python" / "deferreds" / "__main__.py"
        module.write_text("def main() -> int:\n    return 41\n", encoding="utf-8")
        self.assertEqual(run(self.bin / "deferreds", cwd=self.empty).status, 41)


if __name__ == "__main__":
    unittest.main()
