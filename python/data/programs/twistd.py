"""What the command `twistd` runs."""

from twisted.scripts.twistd import run

run()
