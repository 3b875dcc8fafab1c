"""Tests of deferreds.twisted, by unittest: `python3 -m unittest discover -t python -s python/tests` at the top."""

import os
import signal
import sys
import tempfile

# A process ignores what its parent ignores, as under nohup, and the programs that are tested here are sent these signals. A handler
# is none of theirs, and one that does nothing leaves this process as it was.
for _number in (signal.SIGINT, signal.SIGHUP, signal.SIGTERM):
    if signal.getsignal(_number) is signal.SIG_IGN:
        signal.signal(_number, lambda *_: None)

# Nothing is written beside the sources. So that no process has to compile again what another one has imported, it is kept elsewhere.
if sys.pycache_prefix is None:
    _compiled = tempfile.TemporaryDirectory(prefix="deferreds-tests-")
    sys.pycache_prefix = os.environ["PYTHONPYCACHEPREFIX"] = _compiled.name
    sys.dont_write_bytecode = False
    os.environ.pop("PYTHONDONTWRITEBYTECODE", None)
