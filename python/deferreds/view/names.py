"""The names of the files that a view is made from, and of those that it writes."""

from __future__ import annotations

import os

#: the name of standard input, and of standard output
STANDARD = "-"

#: what the names of traces end with, and those of pages of every order or of a sample of them
TRACE, ORDERS_PAGE, SAMPLE_PAGE = ".trace.json", ".orders.html", ".sample.html"

#: what the names of files end with that stand beside a script or a journal: its places, and the list of its recording; and the journal of
#: a whole run, if the script is of its beginning
PLACES, RECORDING, WHOLE_JOURNAL = ".places.json", ".recording", ".whole.journal"
#: what the names end with of the page on which the run of a recording stands beside another, and of the script of which every order can run
COMPARED, ORDERS_SCRIPT = ".compared.html", ".orders.json"


def page_name(name: str, ending: str) -> str:
    """The name of the page of a file, or of what else is written of it: it stands in the folder where the command is given."""
    return os.path.splitext(os.path.basename(name))[0] + ending
