"""A headless Chromium, driven over its own protocol (DevTools) by a pair of pipes."""

from __future__ import annotations

import atexit
import base64
import fcntl
import functools
import json
import os
import select
import shutil
import signal
import tempfile
import time
from pathlib import Path
from typing import Any, Dict, List, Optional

_NAMES = ("chromium", "chromium-browser", "google-chrome")
_FLAGS = (
    "--headless",
    "--no-sandbox",
    "--disable-gpu",
    "--disable-dev-shm-usage",
    "--disable-background-networking",
    "--hide-scrollbars",
    "--no-first-run",
    "--remote-debugging-pipe",
)
_SECONDS = 60

Json = Dict[str, Any]


class Broken(Exception):
    """The browser isn't there, has ended, or refuses what it is asked."""


def found() -> Optional[str]:
    """Where a Chromium is: the one that CHROMIUM names, or one on the PATH; none where CHROMIUM is empty."""
    if os.environ.get("CHROMIUM") == "":
        return None
    for name in (os.environ.get("CHROMIUM"), *_NAMES):
        path = shutil.which(name) if name else None
        if path is not None:
            return path
    return None


def _stat(process: str) -> List[str]:
    """What Linux says of a process, from its state on; nothing if it has ended."""
    try:
        return Path("/proc", process, "stat").read_text(encoding="utf-8", errors="replace").rpartition(")")[2].split()
    except OSError:
        return []


def _below(process: int) -> List[int]:
    """The processes that this one has started, and those that they have."""
    found = [int(name) for name in os.listdir("/proc") if name.isdigit() and _stat(name)[1:2] == [str(process)]]
    return found + [one for child in found for one in _below(child)]


def _is_of_pages(process: int) -> bool:
    return b"--type=renderer" in Path("/proc", str(process), "cmdline").read_bytes()


def _seconds(process: int) -> float:
    """How many seconds of the processor the main thread of a process has taken."""
    try:
        return int(Path(f"/proc/{process}/task/{process}/schedstat").read_text(encoding="utf-8").split()[0]) / 1e9
    except OSError:
        return 0.0


@functools.lru_cache(maxsize=None)
def shared() -> "Browser":
    """The one browser of all tests of a process, which it ends with."""
    browser = Browser()
    atexit.register(browser.close)
    return browser


class Browser:
    """A browser with one page."""

    def __init__(self, width: int = 1360, height: int = 1000) -> None:
        program = found()
        if program is None:
            raise Broken("no Chromium is on the PATH; CHROMIUM=/path/to/it names one")
        self._folder = tempfile.mkdtemp(prefix="view")
        self._answers = b""
        self._asked = 0
        #: what the browser has told by itself: console messages, requests, exceptions
        self.events: List[Json] = []
        self._pid = self._start(program, width, height)
        self._session = ""
        targets = self._call("Target.getTargets")["targetInfos"]
        page = next(target["targetId"] for target in targets if target["type"] == "page")
        self._session = self._call("Target.attachToTarget", targetId=page, flatten=True)["sessionId"]
        for domain in ("Page", "Runtime", "Log", "Network", "DOM"):
            self._call(f"{domain}.enable")
        self.resize(width, height)

    def _start(self, program: str, width: int, height: int) -> int:
        """Starts the browser, which reads what it is asked from 3, and writes its answers to 4."""
        reads, self._writer = os.pipe()
        self._reader, writes = os.pipe()
        # above 3 and 4, so that neither is closed by the other's coming
        high = [fcntl.fcntl(end, fcntl.F_DUPFD_CLOEXEC, 10) for end in (reads, writes)]
        flags = [
            *_FLAGS,
            f"--user-data-dir={self._folder}",
            f"--window-size={width},{height}",
            "about:blank",
        ]
        nothing = os.open(os.devnull, os.O_RDWR)
        pid = os.posix_spawn(
            program,
            [program, *flags],
            os.environ,
            file_actions=[
                (os.POSIX_SPAWN_DUP2, nothing, 1),
                (os.POSIX_SPAWN_DUP2, nothing, 2),
                (os.POSIX_SPAWN_DUP2, high[0], 3),
                (os.POSIX_SPAWN_DUP2, high[1], 4),
            ],
        )
        for end in (reads, writes, nothing, *high):
            os.close(end)
        return pid

    def _call(self, method: str, **parameters: Any) -> Json:
        """Asks, and waits for the answer."""
        self._asked += 1
        asked: Json = {"id": self._asked, "method": method, "params": parameters}
        if self._session:
            asked["sessionId"] = self._session
        os.write(self._writer, json.dumps(asked).encode() + b"\0")
        while True:
            told = self._next()
            if told.get("id") != self._asked:
                self.events.append(told)
                continue
            if "error" in told:
                raise Broken(f"{method}: {told['error']['message']}")
            answer: Json = told["result"]
            return answer

    def _next(self) -> Json:
        while b"\0" not in self._answers:
            if not select.select([self._reader], [], [], _SECONDS)[0]:
                raise Broken(f"the browser has told nothing for {_SECONDS} seconds")
            part = os.read(self._reader, 1 << 20)
            if not part:
                raise Broken("the browser has ended")
            self._answers += part
        told, _, self._answers = self._answers.partition(b"\0")
        read: Json = json.loads(told)
        return read

    def resize(self, width: int, height: int) -> None:
        """Changes the size of what is seen."""
        self._call(
            "Emulation.setDeviceMetricsOverride",
            width=width,
            height=height,
            deviceScaleFactor=1,
            mobile=False,
        )

    def look(self, dark: bool = False, printed: bool = False) -> None:
        """Light or dark; on a screen, or as it is printed."""
        scheme = {"name": "prefers-color-scheme", "value": "dark" if dark else "light"}
        self._call("Emulation.setEmulatedMedia", media="print" if printed else "", features=[scheme])

    def scripts(self, on: bool) -> None:
        """Whether scripts of pages run."""
        self._call("Emulation.setScriptExecutionDisabled", value=not on)

    def open(self, path: Path, fragment: str = "") -> float:
        """Opens a file, waits until it is there, and tells how many seconds that took."""
        if fragment:  # (another fragment alone wouldn't load the page again)
            self._go("about:blank")
        return self._go(path.resolve().as_uri() + fragment)

    def _go(self, address: str) -> float:
        self.events.clear()
        begun = time.monotonic()
        self._call("Page.navigate", url=address)
        while not any(event.get("method") == "Page.loadEventFired" for event in self.events):
            if time.monotonic() - begun > _SECONDS:
                raise Broken(f"{address} isn't there after {_SECONDS} seconds")
            self.events.append(self._next())
        return time.monotonic() - begun

    def busy(self) -> Dict[int, float]:
        """How many seconds of the processor the thread has taken that runs the scripts of pages, and draws them: by process, since its start."""
        return {child: _seconds(child) for child in _below(self._pid) if _is_of_pages(child)}

    def ask(self, expression: str) -> Any:
        """What an expression of JavaScript gives."""
        answer = self._call(
            "Runtime.evaluate", expression=expression, returnByValue=True, awaitPromise=True
        )
        if "exceptionDetails" in answer:
            raise Broken(json.dumps(answer["exceptionDetails"])[:500])
        return answer["result"].get("value")

    def forget(self) -> None:
        """Empties the history: one of 50 steps is full, and then a step that no click has made may be dropped."""
        self._call("Page.resetNavigationHistory")

    def settle(self) -> None:
        """Waits until what is seen is drawn."""
        self.ask(
            "new Promise(done => requestAnimationFrame(() => requestAnimationFrame(() => done(0))))"
        )

    def press(self, key: str) -> None:
        """Presses a key."""
        text = {"text": key} if len(key) == 1 else {"text": "\r"} if key == "Enter" else {}
        codes = {"Enter": 13, "Escape": 27, "Tab": 9}
        code = codes.get(key, ord(key.upper()[0]))
        self._call("Input.dispatchKeyEvent", type="keyDown", key=key, windowsVirtualKeyCode=code, **text)
        self._call("Input.dispatchKeyEvent", type="keyUp", key=key, windowsVirtualKeyCode=code)

    def click(self, selector: str) -> None:
        """Clicks the middle of the first element that the selector finds."""
        place = self.ask(
            f"(() => {{ const e = document.querySelector({json.dumps(selector)}); e.scrollIntoView({{block: 'center'}});"
            " const r = e.getBoundingClientRect(); return [r.x + r.width / 2, r.y + r.height / 2]; })()"
        )
        for kind in ("mousePressed", "mouseReleased"):
            self._call(
                "Input.dispatchMouseEvent",
                type=kind,
                x=place[0],
                y=place[1],
                button="left",
                clickCount=1,
            )

    def shot(self, path: Path, height: Optional[int] = None, width: Optional[int] = None) -> None:
        """Writes what is seen as a PNG; with a height, as much of the page from its top."""
        parameters: Json = {}
        if height is not None:
            wide = width or int(self.ask("innerWidth"))
            parameters = {
                "captureBeyondViewport": True,
                "clip": {"x": 0, "y": 0, "width": wide, "height": height, "scale": 1},
            }
        self.settle()
        path.write_bytes(base64.b64decode(self._call("Page.captureScreenshot", **parameters)["data"]))

    def print(self, path: Path) -> None:
        """Writes the page as a PDF."""
        answer = self._call("Page.printToPDF", preferCSSPageSize=True, printBackground=True)
        path.write_bytes(base64.b64decode(answer["data"]))

    def close(self) -> None:
        """Ends the browser, and waits for that."""
        self._session = ""
        try:
            self._call("Browser.close")
        except (Broken, OSError):
            os.kill(self._pid, signal.SIGTERM)
        os.waitpid(self._pid, 0)
        os.close(self._reader)
        os.close(self._writer)
        shutil.rmtree(self._folder, ignore_errors=True)
