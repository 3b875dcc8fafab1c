"""A server that stores uploads, and lists them (the callback that saves one doesn't return its Deferred, so it is listed unsaved)."""

import time

from twisted.internet import defer, endpoints, task, threads
from twisted.internet.protocol import Factory

from wire import Client, RemoteError, ServerFactory

FILES = {"report.txt": "forty lines", "photo.jpg": "many bytes", "notes.md": "a few words", "plan.txt": "two pages"}


class Disk:
    """A slow disk, which other threads use."""

    def __init__(self):
        self.files = {}

    def check(self, text):
        time.sleep(0.01)
        if not text:
            raise ValueError("an empty file")
        return text

    def write(self, name, text):
        time.sleep(0.06)
        self.files[name] = text
        return len(text)


class Uploads(ServerFactory):
    """Takes files, and has a list of them."""

    def __init__(self, disk):
        self.disk = disk
        self.sizes = {}

    def do_upload(self, name, text):
        done = threads.deferToThread(self.disk.check, text)
        done.addCallback(self.save, name)
        done.addCallback(self.list, name)
        return done

    def save(self, text, name):
        threads.deferToThread(self.disk.write, name, text)

    def list(self, size, name):
        self.sizes[name] = size
        return f"{name}: {size} bytes"

    def do_download(self, name):
        if name not in self.disk.files:
            raise KeyError(name)
        return self.disk.files[name]


async def share(client, name, text):
    """Uploads a file, and has a friend download it at once."""
    print(await client.ask("upload", name=name, text=text))
    try:
        print(await client.ask("download", name=name))
    except RemoteError as error:
        print(f"{name} isn't there: {error}")


async def main(reactor):
    disk = Disk()
    port = await endpoints.TCP4ServerEndpoint(reactor, 0, interface="127.0.0.1").listen(Uploads(disk))
    where = endpoints.TCP4ClientEndpoint(reactor, "127.0.0.1", port.getHost().port)
    client = await where.connect(Factory.forProtocol(Client))
    for name, text in FILES.items():
        await share(client, name, text)
    await task.deferLater(reactor, 0.1, lambda: None)
    print(f"{len(disk.files)} files in the end")


if __name__ == "__main__":
    task.react(lambda reactor: defer.ensureDeferred(main(reactor)))
