"""A program that makes a file, and waits for long."""
import time

open("begun", "w").close()
time.sleep(60)
