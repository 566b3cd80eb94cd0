"""What server.py tries: bin/farserve, or redis-server in its place, and a client that gives replies as they came."""
import contextlib
import os
import signal
import socket
import subprocess
import threading
import time
from pathlib import Path

ROOT = Path(__file__).resolve().parent.parent
# How long anything may take that has to come, in seconds, also on a machine that has much else to do.
PATIENCE = 60
MEBIBYTE = 1 << 20
PONG = b"+PONG\r\n"
OK = b"+OK\r\n"
NONE = b"$-1\r\n"


def until(is_so, what):
    end = time.monotonic() + PATIENCE
    while not is_so():
        assert time.monotonic() < end, f"it did not come: {what}"
        time.sleep(0.01)


def request(*arguments):
    """The bytes of a request with these arguments, each bytes, a text or a number."""
    parts = [it if isinstance(it, bytes) else str(it).encode() for it in arguments]
    return b"*%d\r\n" % len(parts) + b"".join(b"$%d\r\n%b\r\n" % (len(it), it) for it in parts)


def bulk(value):
    """The reply that is this value, bytes or None."""
    return NONE if value is None else b"$%d\r\n%b\r\n" % (len(value), value)


class Client:
    """A connection, whose replies are given as the bytes that came."""

    def __init__(self, address, patience=PATIENCE):
        self.socket = socket.socket(socket.AF_INET if isinstance(address, tuple) else socket.AF_UNIX)
        self.socket.settimeout(patience)
        self.socket.connect(address)
        self.input = self.socket.makefile("rb")

    def __enter__(self):
        return self

    def __exit__(self, *_):
        self.close()

    def close(self):
        self.input.close()
        self.socket.close()

    def send(self, data):
        self.socket.sendall(data)

    def reply(self):
        """The next reply, whole. EOFError where the connection ends before."""
        line = self.input.readline()
        if not line.endswith(b"\r\n"):
            raise EOFError(line)
        assert line[:1] in b"+-:$*", f"no reply: {line!r}"
        count = int(line[1:]) if line[:1] in b"$*" else 0
        if line[:1] == b"*":
            return line + b"".join(self.reply() for _ in range(count))
        if line[:1] == b"$" and count >= 0:
            value = self.input.read(count + 2)
            if len(value) < count + 2:
                raise EOFError(line)
            assert value.endswith(b"\r\n"), f"no end of a string: {line!r}"
            return line + value
        return line

    def ask(self, *arguments):
        self.send(request(*arguments))
        return self.reply()

    def ask_all(self, asked):
        """The replies to these in one piece, each a tuple of arguments."""
        self.send(b"".join(request(*it) for it in asked))
        return [self.reply() for _ in asked]

    def number(self, *arguments):
        told = self.ask(*arguments)
        assert told[:1] == b":", (arguments, told)
        return int(told[1:])

    def value(self, *arguments):
        """The string of the reply, or None."""
        told = self.ask(*arguments)
        assert told[:1] == b"$", (arguments, told[:80])
        return None if told == NONE else told[told.index(b"\n") + 1:-2]

    def info(self, *sections):
        """What INFO tells, by its names."""
        return dict(line.split(":", 1) for line in self.value("INFO", *sections).decode().split("\r\n") if ":" in line)

    def strings(self, *arguments):
        """The strings of the reply, an array that has only strings and such arrays."""
        self.send(request(*arguments))
        return self.items()

    def items(self):
        line = self.input.readline()
        count = int(line[1:])
        assert line[:1] in b"*$" and count >= 0, line
        if line[:1] == b"*":
            return [self.items() for _ in range(count)]
        return self.input.read(count + 2)[:-2]

    def is_ended(self):
        """Reads on, and says whether the connection ends."""
        try:
            while self.input.read1(1 << 16):
                pass
            return True
        except ConnectionResetError:
            return True
        except TimeoutError:
            return False


def children(pid):
    with contextlib.suppress(OSError):
        return [int(it) for it in Path(f"/proc/{pid}/task/{pid}/children").read_text().split()]
    return []


class Process:
    """A server in a process of its own, with clients of it."""

    def __init__(self, words, prepare=None):
        pipes = {"stdin": subprocess.DEVNULL, "stdout": subprocess.PIPE, "stderr": subprocess.PIPE}
        self.process = subprocess.Popen([str(it) for it in words], start_new_session=True, preexec_fn=prepare, **pipes)
        self.address = None
        self.clients = []
        # What it says is read all along, so that it never waits for it to be.
        self.said = []
        self.reader = threading.Thread(target=self.read_said, daemon=True)
        self.reader.start()

    def read_said(self):
        with contextlib.suppress(ValueError, OSError):
            for line in self.process.stderr:
                self.said.append(line.decode(errors="replace"))

    def __enter__(self):
        return self

    def __exit__(self, *_):
        for client in self.clients:
            client.close()
        if self.process.poll() is None:
            self.process.terminate()
            with contextlib.suppress(subprocess.TimeoutExpired):
                self.process.wait(PATIENCE)
        with contextlib.suppress(OSError):
            os.killpg(self.process.pid, signal.SIGKILL)
        self.process.wait()
        self.process.stdout.close()

    def client(self, address=None):
        client = Client(address or self.address)
        self.clients.append(client)
        return client

    def port(self):
        return self.address[1]

    def answers(self):
        """Tries that somebody new is answered."""
        with Client(self.address) as client:
            assert client.ask("PING") == PONG

    def text(self):
        return "".join(self.said)

    def ended(self, status):
        """Gives what it said, once it has ended with this status."""
        told = self.process.wait(PATIENCE)
        self.reader.join(PATIENCE)
        assert told == status, (told, self.text())
        return self.text()


class Farserve(Process):
    """bin/farserve, with these options behind --memory and a port."""

    def __init__(self, work, *options, memory="64m", far="far", prepare=None):
        words = [ROOT / "bin/farserve", "--memory", memory, "--port", 0, *options]
        if far:
            # A name in the folder of the trials, or a path.
            far = Path(work) / far
            far.mkdir(exist_ok=True)
            words += ["--far", far]
        super().__init__(words, prepare)

    def __enter__(self):
        limit = threading.Timer(600, self.process.kill)
        limit.start()
        ready = self.process.stdout.readline().decode()
        limit.cancel()
        if not ready.startswith("ready "):
            self.process.wait()
            time.sleep(0.1)
            raise AssertionError(f"it is not ready: {ready} {self.text()}")
        self.places = ready.split()[1:]
        host, _, port = self.places[0].rpartition(":")
        self.address = host, int(port)
        return self

    def pid(self, name):
        """The process of `gateway` or `farserve`, the program."""
        for pid in children(self.process.pid):
            with contextlib.suppress(OSError):
                if os.path.basename(os.readlink(f"/proc/{pid}/exe")).startswith(name):
                    return pid
        raise AssertionError(f"there is no process {name}")

    def peak(self, name="farserve"):
        """The most bytes of the process of `gateway` or `farserve` that were resident at once."""
        status = Path(f"/proc/{self.pid(name)}/status").read_text()
        return int(status.partition("VmHWM:")[2].split()[0]) << 10

    def processor_seconds(self):
        """Seconds that the process of `farserve` had a processor."""
        fields = Path(f"/proc/{self.pid('farserve')}/stat").read_text().rpartition(")")[2].split()
        return sum(map(int, fields[11:13])) / os.sysconf("SC_CLK_TCK")

    def files(self, name):
        """How many files the process of `gateway` or `farserve` has open."""
        return len(os.listdir(f"/proc/{self.pid(name)}/fd"))

    def scratch(self):
        """The bytes of the program's files without names."""
        files = Path(f"/proc/{self.pid('farserve')}/fd").iterdir()
        return sum(it.stat().st_size for it in files if os.readlink(it).endswith(" (deleted)"))


class Redis(Process):
    """redis-server in the place of bin/farserve, which a trial is right of where it passes."""

    made = 0

    def __init__(self, work, *options, memory=None):
        Redis.made += 1
        self.folder = Path(work) / f"redis{Redis.made}"
        self.folder.mkdir()
        with socket.create_server(("127.0.0.1", 0)) as free:
            self.free = free.getsockname()[1]
        words = ["redis-server", "--port", self.free, "--save", "", "--dir", self.folder, "--loglevel", "warning"]
        for name, value in zip(options[::2], options[1::2]):
            if name == "--password-file":
                words += ["--requirepass", Path(value).read_text().split("\n")[0]]
            elif name == "--unix":
                words += ["--unixsocket", value, "--unixsocketperm", "600"]
        super().__init__(words)

    def __enter__(self):
        self.address = "127.0.0.1", self.free

        def is_there():
            with contextlib.suppress(OSError), Client(self.address):
                return True
        until(is_there, "redis-server")
        return self
