"""The Python beside `deferreds`: the program itself, the view of a run, and what records and compares real Twisted."""
