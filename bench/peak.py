"""peak.py FILE WORD..: runs a program, and writes to the file how many kibibytes that had resident at the most.

It ends with the program's status. It has a Python of its own, so that what is measured isn't what the one has that asks.
"""
import resource
import subprocess
import sys

status = subprocess.call(sys.argv[2:])
with open(sys.argv[1], "w", encoding="ascii") as told:
    told.write(f"{resource.getrusage(resource.RUSAGE_CHILDREN).ru_maxrss}\n")
sys.exit(status)
