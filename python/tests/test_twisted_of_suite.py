"""What python/twisted_of_suite says where it can't do its work. No network is used."""

from __future__ import annotations

import os
import subprocess
import tempfile
import unittest
from pathlib import Path

COMMAND = Path(__file__).resolve().parents[1] / "twisted_of_suite"
KEYS = Path("/usr/share/keyrings/debian-archive-keyring.gpg")

#: an apt-get that names a mirror, and has no network
APT = """#!/bin/sh
case $* in
    indextargets*) printf 'main http://mirror.invalid/debian-security/\\nmain http://mirror.invalid/debian/\\n' ;;
    *update) printf 'W: a warning\\nE: no network\\nE: nothing more\\n' && exit 100 ;;
    *) exit 1 ;;
esac
"""


class TwistedOfSuiteTest(unittest.TestCase):
    """One line, and a status, for each reason."""

    def setUp(self) -> None:
        place = tempfile.TemporaryDirectory()
        self.addCleanup(place.cleanup)
        self.place = Path(place.name)
        self.put("apt-get", APT)
        self.put("dpkg-deb", "#!/bin/sh\nexit 1\n")

    def put(self, name: str, text: str) -> None:
        """A program that is found before the machine's own."""
        program = self.place / "bin" / name
        program.parent.mkdir(exist_ok=True)
        program.write_text(text, encoding="utf-8")
        program.chmod(0o755)

    def assert_says(self, status: int, text: str, *words: str) -> None:
        """With these words it ends so, and says this alone."""
        path = f"{self.place / 'bin'}:{os.environ['PATH']}"
        environment = {**os.environ, "PATH": path, "TMPDIR": str(self.place)}
        ran = subprocess.run([COMMAND, *words], env=environment, capture_output=True, text=True, check=False)
        self.assertEqual((ran.returncode, ran.stdout, ran.stderr), (status, "", text))
        self.assertEqual(list(self.place.glob("tmp.*")), [])

    def test_wrong_words(self) -> None:
        for words in ((), ("trixie",), ("", "folder"), ("trixie", "folder", "more")):
            self.assert_says(64, "usage: twisted_of_suite SUITE FOLDER\n", *words)

    @unittest.skipUnless(KEYS.is_file(), "Debian's keys aren't here")
    def test_what_apt_get_says_first_is_told(self) -> None:
        said = "twisted_of_suite: apt-get update has failed: no network\n"
        self.assert_says(70, said, "trixie", str(self.place / "new"))

    @unittest.skipUnless(KEYS.is_file(), "Debian's keys aren't here")
    def test_where_no_mirror_is_named(self) -> None:
        self.put("apt-get", "#!/bin/sh\nprintf 'main http://mirror.invalid/debian-security/\\n'\n")
        said = "twisted_of_suite: the sources of apt-get name no mirror of Debian\n"
        self.assert_says(70, said, "trixie", str(self.place / "new"))

    @unittest.skipUnless(KEYS.is_file(), "Debian's keys aren't here")
    def test_a_folder_that_isnt_empty_is_left_alone(self) -> None:
        kept = self.place / "kept"
        kept.mkdir()
        (kept / "file").touch()
        self.assert_says(70, f"twisted_of_suite: {kept} isn't empty\n", "trixie", str(kept))


if __name__ == "__main__":
    unittest.main()
