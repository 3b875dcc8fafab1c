"""How long a script may be, at the edge: too long a text for a row."""

from __future__ import annotations

import subprocess
import unittest

from deferreds.language import LANGUAGE
from deferreds.program import NotRun, built


class OfTheLength(unittest.TestCase):
    """The program's answers."""

    def setUp(self) -> None:
        try:
            self.program = str(built())
        except NotRun as why:
            self.skipTest(str(why))

    def test_each_version_has_as_many_bytes_as_the_language_says(self) -> None:
        for version in LANGUAGE.versions:
            script = f'{{"version":{version},"events":[]}}'.encode()
            most = LANGUAGE.most("bytes", version)
            for length, refusal in ((most, ""), (most + 1, "script refused: 1 TooLong")):
                with self.subTest(version=version, length=length):
                    ran = subprocess.run(
                        [self.program, "--why"], input=script.ljust(length), capture_output=True, check=False
                    )
                    self.assertEqual(ran.stderr.decode().strip(), refusal)


if __name__ == "__main__":
    unittest.main()
