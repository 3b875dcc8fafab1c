"""JSON over lines, with a client that takes answers in part, too."""

import json
from itertools import count

from twisted.internet import defer, protocol
from twisted.protocols.basic import LineReceiver


class RemoteError(Exception):
    """The other side answered with an error."""


class JsonLines(LineReceiver):
    delimiter = b"\n"

    def send(self, message):
        self.sendLine(json.dumps(message).encode())

    def lineReceived(self, line):
        self.received(json.loads(line))


class Client(JsonLines):
    """Asks questions, each with an id; answers may come in any order."""

    def __init__(self):
        self.ids = count(1)
        self.pending = {}

    def ask(self, method, **arguments):
        ident = next(self.ids)
        answer = self.pending[ident] = defer.Deferred()
        self.send({"id": ident, "method": method, **arguments})
        return answer

    def received(self, message):
        answer = self.pending.pop(message["id"])
        status = message.get("status")
        if status in ("ok", "partial"):
            answer.callback(message.get("value"))
        elif status == "error":
            answer.errback(RemoteError(message["reason"]))


class Server(JsonLines):
    """Answers by the methods of its factory, each of which may return a Deferred."""

    def received(self, message):
        method = getattr(self.factory, "do_" + message["method"])
        arguments = {key: value for key, value in message.items() if key not in ("id", "method")}
        work = defer.maybeDeferred(method, **arguments)
        work.addCallbacks(self.answer, self.refuse, callbackArgs=(message["id"],), errbackArgs=(message["id"],))

    def answer(self, value, ident):
        if isinstance(value, dict) and "status" in value:
            self.send({"id": ident, **value})
        else:
            self.send({"id": ident, "status": "ok", "value": value})

    def refuse(self, failure, ident):
        self.send({"id": ident, "status": "error", "reason": failure.getErrorMessage()})


class ServerFactory(protocol.Factory):
    protocol = Server
