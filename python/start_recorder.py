"""What `./record` runs: the command. A program that it records finds neither this folder nor a setting of it in its environment."""

import os
import sys

_FOLDER = os.path.dirname(os.path.abspath(__file__))

if getattr(sys.flags, "safe_path", False):
    sys.path.insert(0, _FOLDER)
    from deferreds.commands import record

    sys.path.remove(_FOLDER)
else:  # Python has put the folder there, and the command takes it away
    from deferreds.commands import record

if __name__ == "__main__":
    sys.exit(record())
