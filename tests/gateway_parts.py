"""What gateway.py tries the gateway with: a gateway in a process, workers in threads, and clients."""
import contextlib
import os
import resource
import socket
import struct
import subprocess
import threading
import time
from pathlib import Path

DATA, OPEN, CLOSE, WAKE, LET_IN, LET_OUT, NOTE, HOLDS = range(8)
HEAD = struct.Struct(">BQI")
MEBIBYTE = 1 << 20
# Figures that the first worker is told whenever they change.
FIGURES = (b"clients_memory ", b"clients_closed ", b"resident_bytes ")
# How long anything may take that has to come, also on a machine that has much else to do.
PATIENCE = 60


def frame(kind, connection=0, data=b""):
    """The bytes of a packet, or of as many as the data needs."""
    pieces = [data[at:at + MEBIBYTE] for at in range(0, len(data), MEBIBYTE)] or [b""]
    return b"".join(HEAD.pack(kind, connection, len(it)) + it for it in pieces)


def until(is_so, what):
    end = time.monotonic() + PATIENCE
    while not is_so():
        assert time.monotonic() < end, f"it did not come: {what}"
        time.sleep(0.005)


def resident(pid):
    """Bytes of a process that are resident."""
    return int(Path(f"/proc/{pid}/statm").read_text().split()[1]) * os.sysconf("SC_PAGE_SIZE")


class Worker(threading.Thread):
    """A worker that answers a line with a command: it keeps the packets that came, and can wait with reading and with closes. It lets
    each client in at once."""

    def __init__(self, folder, number, replies_first):
        super().__init__(daemon=True)
        self.paths = [folder / f"requests{number}", folder / f"replies{number}"]
        self.replies_first = replies_first
        self.frames, self.halves, self.closing, self.withheld = [], {}, set(), []
        # Each value that a figure had.
        self.figures = {it.strip(): [] for it in FIGURES}
        self.reads = threading.Event()
        self.reads.set()
        self.closes = True
        # The greatest number that was opened.
        self.last = -1
        self.lock = threading.Lock()
        for path in self.paths:
            os.mkfifo(path)

    def open(self):
        order = [(1, os.O_WRONLY), (0, os.O_RDONLY)] if self.replies_first else [(0, os.O_RDONLY), (1, os.O_WRONLY)]
        opened = {which: os.open(self.paths[which], how) for which, how in order}
        self.input, self.output = opened[0], opened[1]

    def run(self):
        with contextlib.suppress(BrokenPipeError, EOFError), open(self.input, "rb", 0) as requests:
            while True:
                self.reads.wait()
                kind, connection, length = HEAD.unpack(self.exactly(requests, HEAD.size))
                data = self.exactly(requests, length)
                if kind == NOTE and data.startswith(FIGURES):
                    name, value = data.split()
                    self.figures[name].append((time.monotonic(), int(value)))
                else:
                    self.frames.append((kind, connection, data))
                    self.obey(kind, connection, data)
        with contextlib.suppress(OSError):
            os.close(self.output)

    @staticmethod
    def exactly(requests, count):
        parts = bytearray()
        while len(parts) < count:
            part = requests.read(count - len(parts))
            if not part:
                raise EOFError
            parts += part
        return bytes(parts)

    def send(self, data):
        with self.lock:
            while data:
                data = data[os.write(self.output, data):]

    def obey(self, kind, connection, data):
        if kind == OPEN:
            assert connection == self.last + 1, f"{connection} was opened after {self.last}"
            self.last = connection
            self.halves[connection] = b""
            self.welcome(connection)
        elif kind == CLOSE:
            del self.halves[connection]
            if connection in self.closing:
                self.closing.remove(connection)
            elif self.closes:
                self.send(frame(CLOSE, connection))
            else:
                self.withheld.append(connection)
        elif kind == NOTE:
            self.take_note(data)
        elif kind == DATA and connection not in self.closing:
            self.take(connection, data)

    def welcome(self, connection):
        self.send(frame(LET_IN, connection))

    def take_note(self, text):
        if text == b"news":
            # No worker has to answer.
            return
        word, number = text.split()
        if word == b"sync":
            self.send(frame(NOTE, 0, b"synced " + number))

    def take(self, connection, data):
        *lines, self.halves[connection] = (self.halves[connection] + data).split(b"\n")
        for line in lines:
            if connection not in self.closing:
                self.answer(connection, *line.split(b" ", 1))

    def answer(self, connection, command, value=b""):
        if command == b"PING":
            self.send(frame(DATA, connection, b"+PONG\r\n"))
        elif command == b"ECHO":
            self.send(frame(DATA, connection, value + b"\n"))
        elif command == b"BIG":
            self.send(frame(DATA, connection, b"x" * int(value)))
        elif command == b"LATE":
            time.sleep(float(value))
            self.send(frame(DATA, connection, b"late\n"))
        elif command == b"WAKE":
            self.send(frame(WAKE))
        elif command == b"RAW":
            self.send(bytes.fromhex(value.decode()))
        elif command == b"QUIT":
            self.send(frame(DATA, connection, b"+OK\r\n") + frame(CLOSE, connection))
            self.closing.add(connection)
        elif command == b"HOLD":
            self.send(frame(HOLDS, connection, int(value).to_bytes(8, "big")))
        elif command == b"DIE":
            os.close(self.output)
            raise EOFError

    def count(self, kind):
        return sum(it[0] == kind for it in list(self.frames))

    def notes(self):
        return [data for kind, _, data in list(self.frames) if kind == NOTE]


class Gateway:
    """A gateway in a process, with as many workers, of a class."""

    made = 0

    def __init__(self, work, *words, workers=1, limits=(), port="0", unix=False, kind=Worker):
        Gateway.made += 1
        self.folder = Path(work) / f"trial{Gateway.made}"
        self.folder.mkdir()
        self.workers = [kind(self.folder, number, replies_first=number % 2 == 1) for number in range(workers)]
        self.path = Path(unix) if isinstance(unix, (str, Path)) else self.folder / "socket"
        command = [Path(work) / "gateway", *words]
        command += ["--port", port] if port else []
        command += ["--unix", self.path] if unix else []
        for worker in self.workers:
            command += ["--worker", *worker.paths]

        def limit():
            for which, value in limits:
                resource.setrlimit(which, (value, value))

        pipes = {"stdout": subprocess.PIPE, "stderr": subprocess.PIPE}
        self.process = subprocess.Popen(command, stdin=subprocess.DEVNULL, preexec_fn=limit, **pipes)
        self.clients = []

    def open_workers(self):
        for worker in reversed(self.workers):
            worker.open()
            worker.start()

    def __enter__(self):
        threading.Thread(target=self.open_workers, daemon=True).start()
        limit = threading.Timer(PATIENCE, self.process.kill)
        limit.start()
        self.ready = self.process.stdout.readline().decode()
        limit.cancel()
        if not self.ready.startswith("ready "):
            self.process.kill()
            raise AssertionError(f"it is not ready: {self.process.stderr.read().decode()}")
        self.address = self.ready.split()[1]
        return self

    def __exit__(self, *_):
        self.process.kill()
        self.process.wait()
        self.process.stdout.close()
        self.process.stderr.close()
        for client in self.clients:
            client.close()
        for worker in self.workers:
            worker.reads.set()

    def client(self, unix=False):
        client = socket.socket(socket.AF_UNIX if unix else socket.AF_INET)
        client.settimeout(PATIENCE)
        host, port = self.address.rsplit(":", 1) if not unix else ("", "")
        client.connect(str(self.path) if unix else (host, int(port)))
        self.clients.append(client)
        return client

    def ended(self, status):
        """Gives what standard error has, once the gateway has ended with this status."""
        assert self.process.wait(PATIENCE) == status, self.process.returncode
        return self.process.stderr.read().decode()

    def memory(self):
        """Bytes that are resident."""
        return resident(self.process.pid)

    def most_memory(self):
        """The most bytes that ever were resident."""
        status = Path(f"/proc/{self.process.pid}/status").read_text()
        return 1024 * int(status.partition("VmHWM:")[2].split()[0])

    def figure(self, name):
        """The last value that the first worker was told."""
        return next((value for _, value in reversed(self.workers[0].figures[name])), 0)

    def rests(self, times=8):
        """Says whether it takes next to no processor time in a while, once it has done what it still had to do."""
        def ticks():
            return sum(map(int, Path(f"/proc/{self.process.pid}/stat").read_text().rpartition(")")[2].split()[11:13]))

        def is_idle():
            before = ticks()
            time.sleep(0.5)
            return ticks() - before <= 5
        return any(is_idle() for _ in range(times))


def received(client, count):
    """Gives the next bytes that came, and fewer only at the end."""
    parts = bytearray()
    while len(parts) < count:
        part = client.recv(min(count - len(parts), 1 << 20))
        if not part:
            break
        parts += part
    return bytes(parts)


def asked(client, line, reply):
    client.sendall(line + b"\n")
    told = received(client, len(reply))
    assert told == reply, (line, told[:80], reply[:80])


def pong(client):
    asked(client, b"PING", b"+PONG\r\n")


def is_closed(client):
    try:
        return client.recv(1 << 20) == b""
    except ConnectionResetError:
        return True


@contextlib.contextmanager
def sender(client, data):
    """Sends beside what is done meanwhile."""
    thread = threading.Thread(target=client.sendall, args=(data,), daemon=True)
    thread.start()
    yield
    thread.join(PATIENCE)
    assert not thread.is_alive(), "it was not all taken"


def fill(client, data, most):
    """Sends the data again and again, until it is not taken, and says how many bytes were."""
    client.settimeout(0.5)
    sent = 0
    with contextlib.suppress(TimeoutError):
        while sent < most * len(data):
            sent += client.send(data[sent % len(data):])
    assert sent < most * len(data), "all was taken"
    client.settimeout(PATIENCE)
    return sent
