"""Perturbs threads: they sleep themselves.

What a thread did before is done then, and it does nothing else meanwhile. So no order results that these threads couldn't have had by
themselves, as one would if what they post were kept back while they go on.
"""

from __future__ import annotations

import threading
from typing import Any, Callable, Optional

from twisted.internet import base
from twisted.python import threadable, threadpool

from .naming import Counts, Name, cleaned, name_of_function, place_of_program
from .shaker import Shaker


class _Here(threading.local):
    """What a thread of a pool is about."""

    #: the job that it does
    job: Optional[Name] = None
    #: the job whose result it hands over
    handing: Optional[Name] = None


class _Job:
    """The work of a job, in its thread."""

    __slots__ = ("_threads", "_work", "_name")

    def __init__(self, threads: _Threads, work: Callable[..., Any], name: Name) -> None:
        self._threads = threads
        self._work: Optional[Callable[..., Any]] = work
        self._name = name

    def __call__(self, *args: Any, **kwargs: Any) -> Any:
        work, self._work = self._work, None
        name, shaker, here = self._name, self._threads.shaker, self._threads.here
        assert work is not None
        shaker.pause("start", name.key, 1, f"the thread slept for {{}} before {name.words} began")
        here.job, here.handing = name, None
        try:
            return work(*args, **kwargs)
        finally:
            del work, args, kwargs
            shaker.pause("job", name.key, 1, f"the thread slept for {{}} when {name.words} had ended, before its result was handed over")
            here.job, here.handing = None, name


class _Posted:
    """What a thread has posted, as the reactor calls it."""

    __slots__ = ("_shaker", "_call", "_what", "_words")

    def __init__(self, shaker: Shaker, call: Callable[..., Any], what: str, words: str) -> None:
        self._shaker, self._call, self._what, self._words = shaker, call, what, words

    def __call__(self, *args: Any, **kwargs: Any) -> Any:
        self._shaker.come(self._what, self._words)
        return self._call(*args, **kwargs)

    def __getattr__(self, name: str) -> Any:
        return getattr(self._call, name)


class _Threads:
    """The threads of a run."""

    def __init__(self, shaker: Shaker) -> None:
        self.shaker = shaker
        self.here = _Here()
        self._jobs = Counts()
        self._posts = Counts()

    def job(self, work: Callable[..., Any]) -> _Job:
        """A job that the program asks for."""
        place = place_of_program()
        called = name_of_function(work)
        which = place or cleaned(called)
        number = self._jobs.next(which)
        words = f"job {number} of {place} ({called})" if place else f"job {number} of Twisted's {called}"
        return _Job(self, work, Name(f"{which}#{number}", words))

    def posted(self, call: Callable[..., Any]) -> Callable[..., Any]:
        """What is posted for a call: this thread may sleep before."""
        shaker = self.shaker
        if _is_reactors():
            return call
        handing, self.here.handing = self.here.handing, None
        if handing is not None:
            what, words = f"result {handing.key}", f"the result of {handing.words}"
        else:
            poster = self.here.job or _name_of_thread()
            number = self._posts.next(poster.key)
            shaker.pause("post", poster.key, number, f"the thread slept for {{}} before post {number} of {poster.words}")
            what, words = f"post {poster.key} {number}", f"post {number} of {poster.words}"
        if not shaker.follows:
            return call
        return _Posted(shaker, call, what, words)


def _name_of_thread() -> Name:
    name = threading.current_thread().name
    return Name(f"thread-{cleaned(name)}", f"the thread {name}")


def _is_reactors() -> bool:
    """Whether this is the reactor's thread."""
    known = threadable.ioThread
    return threading.get_ident() == known if known is not None else threading.current_thread() is threading.main_thread()


def shake(shaker: Shaker) -> None:
    """Perturbs the threads of pools, and those that post."""
    threads = _Threads(shaker)
    submit: Callable[..., None] = threadpool.ThreadPool.callInThreadWithCallback

    def callInThreadWithCallback(self: Any, onResult: Any, func: Any, *args: Any, **kw: Any) -> None:
        job = threads.job(func)
        del func
        submit(self, onResult, job, *args, **kw)

    setattr(threadpool.ThreadPool, "callInThreadWithCallback", callInThreadWithCallback)
    for reactors in [base.ReactorBase, *_with_own_posts()]:
        _shake_posts(threads, reactors)


def _with_own_posts() -> list[Any]:
    """The reactors that have a callFromThread of their own."""
    try:
        from twisted.internet.asyncioreactor import AsyncioSelectorReactor
    except ImportError:
        return []
    return [AsyncioSelectorReactor] if "callFromThread" in vars(AsyncioSelectorReactor) else []


def _shake_posts(threads: _Threads, reactors: Any) -> None:
    post: Callable[..., None] = reactors.callFromThread

    def callFromThread(self: Any, f: Callable[..., Any], *args: Any, **kwargs: Any) -> None:
        post(self, threads.posted(f), *args, **kwargs)

    reactors.callFromThread = callFromThread
