"""Names descriptors, and perturbs how much a read of TCP gives and a write takes."""

from __future__ import annotations

import socket
from typing import Any, Callable, Optional

from twisted.internet import abstract, tcp, udp

from .naming import Counts, Name, cleaned, ordinal, place_of_program
from .shaker import Shaker

#: the families of sockets whose bytes go by a network
_FAMILIES = (socket.AF_INET, socket.AF_INET6)

#: which share of the parts of a read is its first byte, and which is all but the last
_ONE, _ALL_BUT_ONE = 0.25, 0.75

_MISSING = object()


def name_of(thing: Any) -> Optional[Name]:
    """The name of a descriptor, if it has one."""
    name: Optional[Name] = getattr(thing, "_shake_name", None)
    return name


def words_of(thing: Any) -> str:
    """What a descriptor is called in words, with its protocol."""
    name = name_of(thing)
    protocol = getattr(thing, "protocol", None)
    protocol = getattr(protocol, "_wrappedProtocol", protocol)  # (that of an endpoint's client)
    kind = "" if protocol is None else f" ({type(protocol).__name__})"
    return f"{name.words if name is not None else type(thing).__name__}{kind}"


def is_of_network(thing: Any) -> bool:
    """Whether it is a socket of TCP or UDP, or a port: what comes by it comes as late as the network pleases."""
    if not isinstance(thing, (tcp.Connection, tcp.Port, udp.Port)) or name_of(thing) is None:
        return False
    try:
        return getattr(thing, "socket").family in _FAMILIES
    except AttributeError:  # (it is closed)
        return False


class _Names:
    """The names of the descriptors of a run."""

    def __init__(self) -> None:
        self._counts = Counts()

    def made(self, thing: Any) -> Name:
        """The name of a descriptor that is being made, by the place that asked for it."""
        kind, place = cleaned(type(thing).__name__), place_of_program()
        which = f"{kind}@{place}" if place else kind
        number = self._counts.next(which)
        asked = f"made at {place}" if place else "of Twisted's own"
        return Name(f"{which}#{number}", f"{_kind_of(thing)} {number} {asked}")

    def accepted(self, thing: Any, port: Any) -> Name:
        """The name of a connection that a port has accepted."""
        by = name_of(port)
        assert by is not None
        number = self._counts.next(f"accepted {by.key}")
        return Name(f"{cleaned(type(thing).__name__)}<{by.key}#{number}", f"connection {number} accepted by {by.words}")


def _kind_of(thing: Any) -> str:
    for kinds, words in ((tcp.Port, "port"), (udp.Port, "UDP port"), (tcp.Connection, "connection")):
        if isinstance(thing, kinds):
            return words
    return type(thing).__name__


def shake(shaker: Shaker) -> None:
    """Names all descriptors that are made from now on, and perturbs reads and writes of TCP."""
    _name_all()
    _cut_reads(shaker)
    _shorten_writes(shaker)


def _name_all() -> None:
    names = _Names()
    make: Callable[..., None] = abstract.FileDescriptor.__init__
    accept: Callable[..., None] = tcp.Server.__init__

    def __init__(self: Any, *args: Any, **kwargs: Any) -> None:
        make(self, *args, **kwargs)
        self._shake_name = names.made(self)

    def accepted(self: Any, *args: Any, **kwargs: Any) -> None:
        accept(self, *args, **kwargs)
        port = getattr(self, "server", None)
        if name_of(port) is not None:
            self._shake_name = names.accepted(self, port)

    setattr(abstract.FileDescriptor, "__init__", __init__)
    setattr(tcp.Server, "__init__", accepted)


def _cut_reads(shaker: Shaker) -> None:
    read: Callable[[Any], Any] = tcp.Connection.doRead
    counts = Counts()

    def doRead(self: Any) -> Any:
        few = _part_of_read(shaker, counts, self) if is_of_network(self) else None
        if few is None:
            return read(self)
        before = vars(self).get("bufferSize", _MISSING)
        self.bufferSize = few
        try:
            return read(self)
        finally:
            if before is _MISSING:
                vars(self).pop("bufferSize", None)
            else:
                self.bufferSize = before

    setattr(tcp.Connection, "doRead", doRead)


def _part_of_read(shaker: Shaker, counts: Counts, connection: Any) -> Optional[int]:
    """How many bytes the next read gives, if it isn't all that are there."""
    name = connection._shake_name
    number = counts.next(name.key)
    size = shaker.size("cut", name.key, number)
    if size is None:
        return None
    try:
        there = len(connection.socket.recv(connection.bufferSize, socket.MSG_PEEK))
    except (OSError, AttributeError, TypeError, ValueError):
        return None
    if there < 2:
        return None
    between = 1 + int((size - _ONE) / (_ALL_BUT_ONE - _ONE) * (there - 1))
    few = 1 if size < _ONE else there - 1 if size > _ALL_BUT_ONE else min(between, there - 1)
    shaker.meet("cut", name.key, number, f"the {ordinal(number)} read of {words_of(connection)} gave {few} of {there} bytes")
    return few


def _shorten_writes(shaker: Shaker) -> None:
    send: Callable[[Any, Any], Any] = tcp.Connection.writeSomeData
    counts = Counts()

    def writeSomeData(self: Any, data: Any) -> Any:
        if len(data) < 2 or not is_of_network(self):
            return send(self, data)
        name = self._shake_name
        number = counts.next(name.key)
        size = shaker.size("short", name.key, number)
        if size is None:
            return send(self, data)
        few = 1 + int(size * (len(data) - 1))
        shaker.meet("short", name.key, number, f"the {ordinal(number)} write of {words_of(self)} took {few} of {len(data)} bytes")
        return send(self, data[:few])

    setattr(tcp.Connection, "writeSomeData", writeSomeData)
