"""Shows a password before anything says that it is one, and again in other texts after that."""

from twisted.internet import defer, task

PASSWORD = "Hq7hZ2mWx9"


def asked(value):
    print(f"asked with {value}")
    return [value, f"/users/{PASSWORD}/keys"]


def fails(value):
    raise ValueError(f"refused: {value}")


clock = task.Clock()
deferred = defer.Deferred()
deferred.addCallback(asked)
deferred.callback(PASSWORD)
loop = task.LoopingCall(lambda: PASSWORD)
loop.clock = clock
loop.start(1).addErrback(fails)
clock.advance(1)
header = defer.succeed(f"Cookie: theme=dark; session={PASSWORD}")
header.addCallback(lambda text: text.encode())
clock.advance(1)
failed = defer.succeed(PASSWORD)
failed.addCallback(fails)
failed.addErrback(lambda failure: str(failure.value))
loop.stop()
print(PASSWORD.encode(), defer.succeed({"a": PASSWORD}).result)
