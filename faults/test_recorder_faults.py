"""Tests of what is right of a recorder under a fault: nothing is wrong with ends that are right, and each wrong one is found."""
from __future__ import annotations

import json
import unittest
from dataclasses import replace
from typing import Dict

from recorder_faults import KILLED, End, Fault, Kind, Program, digest, wrongs
from recorder_sweep import earlier

PRINTED = b"what the program prints\n"
PROGRAM = Program("program.py", 0, PRINTED, earlier())
STAYS = "record: the recording that was there is as it was: run\n"
FAILS, KILLS, GROWS = Fault(Kind.WRITE, 1), Fault(Kind.CALL, 1, True), Fault(Kind.GROWTH, 1)


def recording(**halves: bytes) -> Dict[str, bytes]:
    """The files of a new recording, some of which are halves still."""
    files = {"run.json": b"a script\n", "run.journal": b"a journal\n"}
    listed = {"halves": "1.abcdefabcdef.tmp", "files": {name: digest(data) for name, data in files.items()}}
    found = {f".{name}.1.abcdefabcdef.tmp" if name[4:] in halves else name: data for name, data in files.items()}
    return {**found, "run.recording": json.dumps(listed).encode()}


CLEAN = End(0, PRINTED, "record: run.json and run.journal: 2 lines, 1 Deferred\n", False, recording())
KEPT = replace(CLEAN, status=73, said=f"record: run.json can't be written: No space left on device\n{STAYS}", met=True, files=earlier())


class Right(unittest.TestCase):
    """Ends that are right."""

    def test_nothing_is_wrong_with_them(self) -> None:
        named = "record: run.json can't get its name, and is in .run.json.1.abcdefabcdef.tmp: Permission denied\n" + CLEAN.said
        for fault, end in (
            (FAILS, CLEAN),
            (FAILS, KEPT),
            (GROWS, replace(KEPT, status=-11, said="")),
            (FAILS, replace(KEPT, said="record: run.7.json and run.7.journal: 2 lines, 1 Deferred\n")),
            (FAILS, replace(CLEAN, status=73, said=named, files=recording(json=b""))),
            (KILLS, replace(CLEAN, status=KILLED, said="", met=True)),
            (KILLS, replace(KEPT, status=KILLED, printed=b"", said="")),
            (KILLS, replace(CLEAN, status=KILLED, said="", met=True, files=recording(json=b"", journal=b""))),
        ):
            with self.subTest(end=end):
                self.assertEqual(wrongs(PROGRAM, fault, end, CLEAN), [])


class Wrong(unittest.TestCase):
    """Ends that are wrong in one way."""

    def test_each_is_found(self) -> None:
        mixed = {**earlier(), "run.json": b"a script\n"}
        without = {name: data for name, data in recording().items() if name != "run.journal"}
        for fault, end, found in (
            (FAILS, replace(CLEAN, status=None), "it hangs"),
            (FAILS, replace(CLEAN, printed=b""), "it prints b''"),
            (FAILS, replace(CLEAN, status=1), "its status is 1"),
            (FAILS, replace(CLEAN, said=f"Traceback (most recent call last):\n{CLEAN.said}"), "it has a traceback"),
            (FAILS, replace(KEPT, files=mixed), "neither the earlier recording nor the new one is whole"),
            (KILLS, replace(KEPT, status=KILLED, files=without), "neither the earlier recording nor the new one is whole"),
            (KILLS, replace(KEPT, status=0), "killed, it has status 0, and has printed b'what the program prints\\n'"),
            (FAILS, replace(KEPT, status=-11), "its status is -11"),
            (GROWS, replace(KEPT, status=-11, files=mixed), "neither the earlier recording nor the new one is whole"),
            (FAILS, replace(CLEAN, said=KEPT.said), "the new recording is there, and nothing says so"),
            (FAILS, replace(KEPT, said=CLEAN.said + STAYS), "it says that the new recording is there"),
            (FAILS, replace(KEPT, said=STAYS.replace("run", "other")), "the new recording isn't there, and nothing says so"),
            (FAILS, replace(KEPT, said=KEPT.said.replace(STAYS, "")), "nothing says that the earlier recording is as it was"),
            (FAILS, replace(KEPT, files={**earlier(), ".run.json.1.tmp": b""}), "['.run.json.1.tmp'] are left"),
        ):
            with self.subTest(found=found):
                self.assertIn(found, wrongs(PROGRAM, fault, end, CLEAN))


if __name__ == "__main__":
    unittest.main()
