"""`python3 -m view_tests.pictures PAGE[#PLACE] PICTURE WIDTH HEIGHT`: makes a picture of a page, as those of
docs/VIEW.md.
"""

from __future__ import annotations

import sys
from pathlib import Path
from typing import List

from .browser import Browser


def main(words: List[str]) -> int:
    """The command."""
    page, _, place = words[0].partition("#")
    browser = Browser(int(words[2]), int(words[3]))
    try:
        browser.open(Path(page), f"#{place}" if place else "")
        browser.settle()
        browser.shot(Path(words[1]))
    finally:
        browser.close()
    return 0


if __name__ == "__main__":
    sys.exit(main(sys.argv[1:]))
