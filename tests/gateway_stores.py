"""What gateway_links.py tries the gateway with: devices at its links, and stores that do what a trial says."""
import contextlib
import os
import select
import shutil
import signal
import socket
import subprocess
import threading
from pathlib import Path

from gateway_parts import CLOSE, DATA, HEAD, OPEN, PATIENCE, Gateway, frame, received, until

WAIT = 3
PING = b"*1\r\n$4\r\nPING\r\n"
PONG = b"+PONG\r\n"
# A store may be silent for a second.
SHORT = ("--far-timeout", "1")


class Device:
    """The end of a link that the server has."""

    def __init__(self, folder, number):
        self.paths = [folder / f"requests{number}", folder / f"replies{number}"]
        for path in self.paths:
            os.mkfifo(path)

    def join(self):
        self.output = os.open(self.paths[0], os.O_WRONLY)
        self.input = os.open(self.paths[1], os.O_RDONLY)
        for end in (self.output, self.input):
            os.set_blocking(end, False)

    def sendall(self, data):
        data = memoryview(data)
        while data:
            assert select.select([], [self.output], [], PATIENCE)[1], "the link takes nothing"
            data = data[os.write(self.output, data):]

    def open(self, number):
        self.sendall(frame(OPEN, number))

    def ask(self, number, data):
        self.sendall(frame(DATA, number, data) + frame(WAIT, number))

    def received(self, count):
        parts = bytearray()
        while len(parts) < count:
            assert select.select([self.input], [], [], PATIENCE)[0], "nothing comes from the link"
            part = os.read(self.input, count - len(parts))
            assert part, "the link has ended"
            parts += part
        return bytes(parts)

    def take(self, number):
        """Gives kind and data of the next packet of this number, and passes over others."""
        while True:
            kind, of, length = HEAD.unpack(self.received(HEAD.size))
            data = self.received(length)
            assert kind in (DATA, CLOSE) and 0 <= length <= 65536 and (kind == DATA) == bool(length), (kind, of, length)
            if of == number:
                return kind, data

    def reply(self, number, count):
        """Takes so many bytes, with a wait before each packet but the first."""
        parts = bytearray()
        while True:
            kind, data = self.take(number)
            assert kind == DATA, f"closed behind {len(parts)} bytes"
            parts += data
            if len(parts) >= count:
                return bytes(parts)
            self.sendall(frame(WAIT, number))

    def joins(self, links, number):
        """Opens a number, and gives that of these ends of the store to which it leads. The gateway gets a spare a moment later than
        the store has greeted it, and until then it closes the number."""
        link = None
        while link is None:
            self.open(number)
            self.sendall(frame(DATA, number, b"?"))
            link = self.reached(links, number)
        assert received(link, 1) == b"?"
        return link

    def reached(self, links, number):
        """The first of these at which something comes, None if the number is closed."""
        while True:
            ready = select.select([*links, self.input], [], [], PATIENCE)[0]
            assert ready, "nothing comes of an open"
            if ready[0] in links:
                return ready[0]
            kind, of, length = HEAD.unpack(self.received(HEAD.size))
            self.received(length)
            if (kind, of) == (CLOSE, number):
                return None

    def is_quiet(self, seconds):
        return not select.select([self.input], [], [], seconds)[0]


class Store:
    """A store that answers greetings, and gives the connections to a trial, or each to a thread of `serve`."""

    made = 0

    def __init__(self, work="", port=0, greeting=((PING, PONG),), serve=None):
        Store.made += 1
        if work:
            self.address = f"{work}/store{Store.made}"
            self.listener = socket.create_server(self.address, family=socket.AF_UNIX)
        else:
            self.listener = socket.create_server(("127.0.0.1", port))
            self.port = self.listener.getsockname()[1]
            self.address = f"127.0.0.1:{self.port}"
        self.greeting, self.serve = greeting, serve
        # All that came, and those that were greeted.
        self.came, self.greeted = [], []
        self.closes = False
        threading.Thread(target=self.greet, daemon=True).start()

    def greet(self):
        # Closing the listener ends it.
        with contextlib.suppress(OSError):
            while True:
                link = self.listener.accept()[0]
                link.settimeout(PATIENCE)
                self.came.append(link)
                with contextlib.suppress(OSError):
                    self.greet_one(link)

    def greet_one(self, link):
        for request, reply in self.greeting:
            asked = b""
            while len(asked) < len(request):
                part = link.recv(len(request) - len(asked))
                if not part:
                    return
                asked += part
            assert asked == request, asked
            link.sendall(reply)
        if self.closes:
            link.close()
        self.greeted.append(link)
        if self.serve:
            threading.Thread(target=self.serve, args=(link,), daemon=True).start()

    def link(self, number):
        """Gives a connection, from 0, once it was greeted."""
        until(lambda: len(self.greeted) > number, f"connection {number}")
        return self.greeted[number]

    def close(self):
        with contextlib.suppress(OSError):
            self.listener.shutdown(socket.SHUT_RDWR)
        self.listener.close()
        for link in self.came:
            link.close()

    def __enter__(self):
        return self

    def __exit__(self, *_):
        self.close()


class Redis:
    """redis-server, with a password where one is given."""

    def __init__(self, work, port=0, unix=None, password=None):
        words = ["redis-server", "--port", str(port), "--bind", "127.0.0.1", "--save", "", "--dir", work, "--loglevel", "warning"]
        words += ["--unixsocket", unix] if unix else []
        words += ["--requirepass", password] if password else []
        self.at = (socket.AF_UNIX, unix) if unix else (socket.AF_INET, ("127.0.0.1", port))
        self.process = subprocess.Popen(words, stdin=subprocess.DEVNULL, stdout=subprocess.DEVNULL)

    def listens(self):
        with socket.socket(self.at[0]) as client, contextlib.suppress(OSError):
            client.settimeout(PATIENCE)
            client.connect(self.at[1])
            client.sendall(PING)
            return client.recv(100)[:1] in (b"+", b"-")
        return False

    def stop(self):
        self.process.send_signal(signal.SIGSTOP)

    def go_on(self):
        self.process.send_signal(signal.SIGCONT)

    def __enter__(self):
        until(self.listens, "redis-server")
        return self

    def __exit__(self, *_):
        self.process.kill()
        self.process.wait()


class FarGateway(Gateway):
    """A gateway with a link for each of so many devices, beside its workers."""

    def __init__(self, work, address, *words, links=1, **options):
        folder = Path(work) / f"links{Gateway.made}"
        folder.mkdir()
        self.devices = [Device(folder, number) for number in range(links)]
        self.device = self.devices[0]
        pipes = [word for device in self.devices for word in ("--far-link", *device.paths)]
        super().__init__(work, "--far-resp", address, *words, *pipes, **options)

    def open_workers(self):
        for device in self.devices:
            device.join()
        super().open_workers()


def joined(gateway, store):
    """Opens number 1 at each device, and gives the store's ends of their connections, in order."""
    for at, device in enumerate(gateway.devices):
        device.open(1)
        device.sendall(frame(DATA, 1, b"%02d" % at))
    links = {received(link, 2): link for link in (store.link(at) for at in range(len(gateway.devices)))}
    return [links[it] for it in sorted(links)]


def opened(device, store, number, at):
    """Opens a number, and gives the store's end, which is the connection at this place."""
    return device.joins([store.link(at)], number)


def exchange(device, link, number, request=b"a request", reply=b"a reply"):
    device.ask(number, request)
    assert received(link, len(request)) == request
    link.sendall(reply)
    assert device.reply(number, len(reply)) == reply


def has_redis():
    return shutil.which("redis-server") is not None


def free_port():
    with socket.create_server(("127.0.0.1", 0)) as free:
        return free.getsockname()[1]
