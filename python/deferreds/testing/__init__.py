"""Recordings of tests: of each that failed, or left something behind. `pytest_plugin` is for pytest, and `trial` for trial."""
