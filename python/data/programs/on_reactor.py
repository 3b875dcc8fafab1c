"""Runs a program on a reactor: the words are the name of the reactor, as `asyncio`, and the program with its own words."""

import importlib
import runpy
import sys

name, *sys.argv = sys.argv[1:]
importlib.import_module(f"twisted.internet.{name}reactor").install()
runpy.run_path(sys.argv[0], run_name="__main__")
