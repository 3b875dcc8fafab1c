"""`./make_release --check` in trees that are broken: a line and a status, and no traceback."""

from __future__ import annotations

import os
import shutil
import subprocess
import tempfile
import unittest
from pathlib import Path

TOP = Path(__file__).resolve().parent.parent

#: what it reads, beside the release and what the checksum is of
_READ = ("make_release", "deferreds", "crates.txt", "HANDLES", "CHANGELOG.md", "pyproject.toml")


class BrokenTree(unittest.TestCase):
    """A copy of the repository in which a file is missing, or is no text."""

    def setUp(self) -> None:
        folder = tempfile.TemporaryDirectory()
        self.addCleanup(folder.cleanup)
        self.top = Path(folder.name)
        for name in _READ:
            shutil.copy2(TOP / name, self.top / name)
        shutil.copytree(TOP / "packaging", self.top / "packaging")
        shutil.copytree(TOP / "release", self.top / "release")
        (self.top / "crates/deferreds/src").mkdir(parents=True)
        shutil.copy2(TOP / "crates/deferreds/src/version.rt", self.top / "crates/deferreds/src/version.rt")

    def assert_says(self, line: str) -> None:
        """It ends with status 1, and says this."""
        ran = subprocess.run(
            [str(self.top / "make_release"), "--check"], capture_output=True, text=True, env=os.environ, check=False
        )
        self.assertEqual(ran.returncode, 1, ran.stderr)
        self.assertIn(line, ran.stderr)
        self.assertNotIn("Traceback", ran.stderr)

    def test_a_file_is_missing(self) -> None:
        for name in ("CHANGELOG.md", "pyproject.toml", "crates/deferreds/src/version.rt"):
            with self.subTest(name=name):
                path = self.top / name
                held = path.read_bytes()
                path.unlink()
                self.assert_says("can't be read or written: No such file or directory")
                path.write_bytes(held)

    def test_a_file_of_the_release_is_missing_or_no_text(self) -> None:
        sums = self.top / "release/x86_64-linux/SHA256SUMS"
        sums.write_bytes(b"\xff")
        self.assert_says("SHA256SUMS isn't UTF-8")
        sums.unlink()
        self.assert_says("SHA256SUMS isn't there")


if __name__ == "__main__":
    unittest.main()
