"""The wheel: its bytes, what it holds, and where it isn't built."""

from __future__ import annotations

import base64
import configparser
import csv
import hashlib
import io
import os
import sys
import tempfile
import unittest
import zipfile
from email.parser import BytesParser
from pathlib import Path
from typing import Any, Dict, List

from deferreds.checkout import TOP

from .support import ABOUT, PROGRAM, PROJECT, WHEEL, PackagingTest, Ran, build_wheel, contents, copy_checkout, run

#: has the machine be another one, and builds the wheel
_ELSEWHERE = "import platform, sys; {change}; sys.path.insert(0, {folder!r}); import wheel; wheel.main(['out'])"


class Bytes(PackagingTest):
    """What is in the file."""

    room: "tempfile.TemporaryDirectory[str]"
    checkout: Path
    before: List[str]
    wheel: Path
    archive: zipfile.ZipFile

    @classmethod
    def setUpClass(cls) -> None:
        cls.room = tempfile.TemporaryDirectory()
        cls.addClassCleanup(cls.room.cleanup)
        cls.checkout = Path(cls.room.name, "checkout")
        copy_checkout(cls.checkout)
        cls.before = contents(cls.checkout)
        cls.wheel = build_wheel(cls.checkout)
        cls.archive = zipfile.ZipFile(cls.wheel)
        cls.addClassCleanup(cls.archive.close)

    def test_it_is_the_same_bytes_wherever_and_whenever_it_is_built(self) -> None:
        other = self.copy()
        for path in [*other.rglob("*"), other]:
            path.chmod(0o700)
            os.utime(path, (1, 1))
        wheel = build_wheel(other)
        self.assertEqual((self.wheel.name, wheel.name), (WHEEL, WHEEL))
        self.assertTrue(self.wheel.read_bytes() == wheel.read_bytes())

    def test_building_leaves_nothing_but_the_wheel(self) -> None:
        self.assertEqual(contents(self.checkout), sorted([*self.before, f"out/{WHEEL}"]))

    def test_its_record_has_each_file(self) -> None:
        rows = list(csv.reader(io.StringIO(self.archive.read(f"{ABOUT}/RECORD").decode())))
        self.assertEqual([row[0] for row in rows], self.archive.namelist())
        self.assertEqual(rows.pop(), [f"{ABOUT}/RECORD", "", ""])
        for name, digest, size in rows:
            data = self.archive.read(name)
            wanted = base64.urlsafe_b64encode(hashlib.sha256(data).digest()).decode().rstrip("=")
            self.assertEqual((digest, int(size)), (f"sha256={wanted}", len(data)), name)

    def test_the_program_alone_is_executable(self) -> None:
        modes = {info.filename: info.external_attr >> 16 for info in self.archive.infolist()}
        self.assertEqual(modes.pop("deferreds/bin/deferreds"), 0o100755)
        self.assertEqual(set(modes.values()), {0o100644})

    def test_each_file_of_the_package_is_in_it_and_the_rows(self) -> None:
        names = set(self.archive.namelist())
        wanted = {f"deferreds/{name}" for name in contents(TOP / "python" / "deferreds")}
        wanted |= {f"deferreds/rows/{path.name}" for path in (TOP / "crates/test_rows/data").glob("*.rows")}
        self.assertEqual(wanted - names, set())
        self.assertIn("deferreds/py.typed", names)

    def test_it_says_of_the_project_what_pyproject_says(self) -> None:
        try:
            import tomllib
        except ImportError:
            raise unittest.SkipTest("this Python reads no TOML: it is older than 3.11") from None
        pyproject: Dict[str, Any] = tomllib.loads((TOP / "pyproject.toml").read_text(encoding="utf-8"))
        project = pyproject["project"]
        said = BytesParser().parsebytes(self.archive.read(f"{ABOUT}/METADATA"))
        names = ("Name", "Version", "Summary", "Requires-Python", "License")
        keys = ("name", "version", "description", "requires-python", "license")
        self.assertEqual([said[name] for name in names], [project[key] for key in keys])
        self.assertEqual(said.get_all("Requires-Dist"), ['Twisted>=22.4; extra == "record"'])
        self.assertEqual(project["optional-dependencies"], {"record": ["Twisted>=22.4"]})
        points = configparser.ConfigParser(delimiters="=")
        points.read_string(self.archive.read(f"{ABOUT}/entry_points.txt").decode())
        groups = {"console_scripts": project["scripts"], **project["entry-points"]}
        self.assertEqual({name: dict(points[name]) for name in points.sections()}, groups)
        for target in project["entry-points"]["pytest11"].values():
            self.assertIn(f"{target.replace('.', '/')}.py", self.archive.namelist())
        self.assertEqual(pyproject["build-system"]["requires"], [])


class Version(PackagingTest):
    """The version stands in one place, and is set there."""

    def set_version(self, checkout: Path, *words: str) -> Ran:
        """Runs the command on a copy of the checkout."""
        return run(sys.executable, checkout / "packaging" / "set_version.py", *words, cwd=self.empty)

    def test_the_wheel_has_the_version_that_is_set(self) -> None:
        checkout = self.copy()
        self.assert_ran(self.set_version(checkout, "1.20.3"), "")
        wheel = build_wheel(checkout)
        self.assertEqual(wheel.name, WHEEL.replace(PROJECT.version, "1.20.3"))
        with zipfile.ZipFile(wheel) as archive:
            said = archive.read("deferreds-1.20.3.dist-info/METADATA")
        self.assertIn(b"\nVersion: 1.20.3\n", said)

    def test_what_is_no_version_is_refused(self) -> None:
        checkout = self.copy()
        before = (checkout / "pyproject.toml").read_bytes()
        for words in ([], ["1.2"], ["1.2.3.4"], ["1.02.3"], ['1.2.3"'], ["1.2.3", "1.2.4"]):
            self.assert_refused(self.set_version(checkout, *words), 64, "usage: ")
        self.assertEqual((checkout / "pyproject.toml").read_bytes(), before)


class NotBuilt(PackagingTest):
    """Where no wheel can be built, one line says so."""

    def test_without_the_program(self) -> None:
        checkout = self.copy()
        (checkout / PROGRAM).unlink()
        ran = run(sys.executable, checkout / "packaging" / "wheel.py", "out", cwd=checkout)
        self.assert_refused(ran, 1, "no package is built", str(PROGRAM))

    def test_on_another_machine(self) -> None:
        folder = str(self.copy() / "packaging")
        for change, said in (
            ("platform.machine = lambda: 'aarch64'", "on aarch64"),
            ("sys.platform = 'darwin'; platform.system = lambda: 'Darwin'", "Darwin on "),
        ):
            program = _ELSEWHERE.format(change=change, folder=folder)
            ran = run(sys.executable, "-c", program, cwd=self.empty)
            self.assert_refused(ran, 1, "for Linux on x86-64", said)

    def test_where_its_folder_can_t_be_written(self) -> None:
        ran = run(sys.executable, self.copy() / "packaging" / "wheel.py", "/dev/null/out", cwd=self.empty)
        self.assert_refused(ran, 1, "/dev/null/out can't be written")

    def test_a_value_that_is_no_json_is_named(self) -> None:
        checkout = self.copy()
        pyproject = checkout / "pyproject.toml"
        pyproject.write_text(pyproject.read_text(encoding="utf-8").replace('"MIT"', "'MIT'"), encoding="utf-8")
        ran = run(sys.executable, checkout / "packaging" / "wheel.py", "out", cwd=checkout)
        self.assert_refused(ran, 1, "pyproject.toml:", "JSON")


if __name__ == "__main__":
    unittest.main()
