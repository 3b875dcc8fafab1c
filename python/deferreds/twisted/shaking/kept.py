"""A recording of a run that fails: written into a folder of its own first, and to its place only if the run has failed."""

from __future__ import annotations

import contextlib
import json
import shutil
import tempfile
from pathlib import Path
from typing import Any, Dict, Optional

from ...view.names import RECORDING
from ..recording.files import ENDINGS, Place, Written
from .beside import Recording

#: what the list of files says of the files, which is said anew where they get their place
_OF_FILES = ("written by", "halves", "files", "replaced")


def clear_folder(folder: Path) -> None:
    """Removes what is in a folder, as far as it may."""
    for path in folder.iterdir():
        if path.is_dir() and not path.is_symlink():
            shutil.rmtree(path, ignore_errors=True)
        else:
            with contextlib.suppress(OSError):
                path.unlink()


class Room:
    """A folder in which runs are recorded."""

    def __init__(self, place: Place) -> None:
        self._place = place
        self._folder = Path(tempfile.mkdtemp(prefix="deferreds."))
        self.name = self._folder / place.name.name

    def clear(self) -> None:
        """Removes what the run before has left."""
        clear_folder(self._folder)

    @property
    def facts(self) -> Optional[Dict[str, Any]]:
        """What the list of the recording says; None, if none is there."""
        try:
            facts: Dict[str, Any] = json.loads(self.name.with_name(self.name.name + RECORDING).read_text(encoding="utf-8"))
        except (OSError, ValueError):
            return None
        return facts

    def is_written(self) -> bool:
        """Whether the recording is whole: its list gets its name before the other files do."""
        facts = self.facts
        return facts is not None and all((self._folder / file).is_file() for file in facts["files"])

    def recording(self) -> Optional[Recording]:
        """The recording that is there; None, if there is none."""
        facts = self.facts
        if facts is None:
            return None
        texts = {ending: self.name.with_name(self.name.name + ending) for ending in ENDINGS}
        return Recording({ending: path.read_text(encoding="utf-8") for ending, path in texts.items() if path.is_file()}, facts)

    def keep(self, recording: Recording) -> Written:
        """Gives a recording its place."""
        said = {key: value for key, value in recording.facts.items() if key not in _OF_FILES}
        return self._place.write(recording.files, said)

    def close(self) -> None:
        """Removes the folder."""
        shutil.rmtree(self._folder, ignore_errors=True)
