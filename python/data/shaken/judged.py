"""races/lost_update.py, which ends with status 0 whatever it prints."""
import os
import runpy
import sys

try:
    runpy.run_path(os.path.join(os.path.dirname(os.path.abspath(__file__)), "races", "lost_update.py"), run_name="__main__")
except SystemExit:
    sys.exit(0)
