"""What stores.py tries: farrun over named pipes, and a bridge that joins each lane's pair to a store."""
import contextlib
import os
import select
import signal
import socket
import subprocess
import tempfile
import threading
import time
from collections import Counter
from pathlib import Path

from histories import REFUSALS, calls, is_found, split
from server_parts import PATIENCE, PONG, Client, Process, until

# How long the bridge waits for a reply of a store that was stopped, in seconds.
SHORT = 0.5


class Store(Process):
    """redis-server at a socket of the file system, with a folder of its own, and nothing that it saves."""

    made = 0

    def __init__(self, work, folder=None):
        """In the folder of an earlier one, which has ended, it is at the same address."""
        Store.made += 1
        self.folder = folder or Path(work) / f"store{Store.made}"
        self.folder.mkdir(exist_ok=True)
        self.is_stopped = False
        path = self.folder / "socket"
        path.unlink(missing_ok=True)
        super().__init__(["redis-server", "--port", 0, "--unixsocket", path, "--unixsocketperm", "600", "--save", "", "--appendonly", "no",
                          "--dir", self.folder, "--loglevel", "warning"])
        self.address = str(path)
        self.stores = [self]

    def __enter__(self):
        with contextlib.ExitStack() as ended:
            ended.push(self)
            await_store(self.address)
            ended.pop_all()
        return self

    def __exit__(self, *fault):
        # It has nothing to save, and one that is stopped ends by no other signal.
        self.kill()
        super().__exit__(*fault)

    def kill(self):
        self.process.kill()
        self.process.wait()

    def stop(self):
        self.process.send_signal(signal.SIGSTOP)
        self.is_stopped = True

    def go_on(self):
        self.process.send_signal(signal.SIGCONT)
        self.is_stopped = False


class Proxied:
    """Two stores behind nutcracker, which sends each key to one of them."""

    made = 0
    is_stopped = False

    def __init__(self, work):
        Proxied.made += 1
        self.work, self.address = work, f"{work}/proxy{Proxied.made}"

    def __enter__(self):
        with contextlib.ExitStack() as ended, socket.create_server(("127.0.0.1", 0)) as free:
            self.stores = [ended.enter_context(Store(self.work)) for _ in range(2)]
            lines = [f"listen: {self.address} 0600", "redis: true", "hash: murmur", "distribution: ketama", "timeout: 20000",
                     "auto_eject_hosts: false", "preconnect: true", "servers:",
                     *(f" - {store.address}:1 store{at}" for at, store in enumerate(self.stores))]
            Path(f"{self.address}.yml").write_text("stores:\n" + "".join(f"  {line}\n" for line in lines))
            port = free.getsockname()[1]
            free.close()
            words = ["nutcracker", "--conf-file", f"{self.address}.yml", "--stats-addr", "127.0.0.1", "--stats-port", port]
            ended.enter_context(Process(words))
            await_store(self.address)
            self.ended = ended.pop_all()
        return self

    def __exit__(self, *fault):
        self.ended.__exit__(*fault)


def await_store(address):
    def is_there():
        with contextlib.suppress(OSError, EOFError), Client(address) as client:
            return client.ask("PING") == PONG
    until(is_there, f"a store at {address}")


def cut(data):
    """Gives the first request, its words and what lies behind it, or None where it is not there whole."""
    lines, words = data.split(b"\r\n", 1), []
    if len(lines) < 2:
        return None
    count, rest = int(lines[0].removeprefix(b"*")), lines[1]
    for _ in range(count):
        head, end, rest = rest.partition(b"\r\n")
        size = int(head.removeprefix(b"$") or 0) if end else 0
        if not end or len(rest) < size + 2:
            return None
        words.append(rest[:size])
        rest = rest[size + 2:]
    return data[:len(data) - len(rest)], words, rest


class Bridge:
    """Joins a pair of pipes for each lane to the store, each pair by a thread and a connection of its own.

    `before` and `behind` are called with a request's number, from 1 over all lanes: before it is sent, and once it was. `change`
    gets a lane, a request's words, its number and its reply, and gives what goes into the pipe; behind a part of a reply the
    pair is closed. So it is where a store that was stopped gives no reply for half a second, and where it has gone.
    """

    def __init__(self, store, lanes, before=None, behind=None, change=None):
        self.store, self.before, self.behind, self.change = store, before, behind, change
        self.lock = threading.Lock()
        self.requests = [0] * lanes
        self.number = 0
        self.verbs = Counter()
        self.closed = 0
        # What a thread here fails of, which is a fault of this test.
        self.faults = []

    def __enter__(self):
        self.folder = tempfile.TemporaryDirectory()
        self.ended, self.end = os.pipe()
        self.options, self.threads = [], []
        for lane in range(len(self.requests)):
            replies, requests = (os.path.join(self.folder.name, f"{name}{lane}") for name in ("replies", "requests"))
            os.mkfifo(replies)
            os.mkfifo(requests)
            self.options += ["--far-resp-in", replies, "--far-resp-out", requests]
            # Opened so, neither waits for farrun, and farrun waits for neither.
            ends = os.open(requests, os.O_RDONLY | os.O_NONBLOCK), os.open(replies, os.O_RDWR)
            self.threads.append(threading.Thread(target=self.join, args=(lane, *ends), daemon=True))
        for thread in self.threads:
            thread.start()
        return self

    def __exit__(self, *_):
        os.close(self.end)
        for thread in self.threads:
            thread.join(PATIENCE)
            if thread.is_alive():
                self.faults.append("a thread does not end")
        os.close(self.ended)
        self.folder.cleanup()

    def join(self, lane, requests, replies):
        try:
            with Client(self.store.address) as client:
                self.pass_on(lane, client, requests, replies)
        except (OSError, EOFError):
            self.closed += 1
        except Exception as fault:
            self.faults.append(repr(fault))
        finally:
            os.close(requests)
            os.close(replies)

    def reply(self, client):
        began = time.monotonic()
        while not select.select([client.socket], [], [], SHORT / 10)[0]:
            if time.monotonic() - began > (SHORT if self.store.is_stopped else PATIENCE):
                raise TimeoutError
        return client.reply()

    def pass_on(self, lane, client, requests, replies):
        data = b""
        while True:
            ready, _, _ = select.select([requests, self.ended], [], [])
            if self.ended in ready:
                return
            piece = os.read(requests, 1 << 16)
            if not piece:
                return
            data += piece
            while (found := cut(data)) is not None:
                request, words, data = found
                with self.lock:
                    self.requests[lane] += 1
                    self.number += 1
                    number = self.number
                    self.verbs[words[0]] += 1
                    if self.before is not None:
                        self.before(number)
                client.send(request)
                if self.behind is not None:
                    with self.lock:
                        self.behind(number)
                reply = self.reply(client)
                if self.change is not None:
                    with self.lock:
                        reply = self.change(lane, words, number, reply)
                # Shorter than a pipe has room for, and farrun waits for it.
                os.write(replies, reply)
                if not reply.endswith(b"\r\n"):
                    return


class Ran:
    """A run of farrun to its end over a bridge, which is closed behind it. None of them may take longer than a minute."""

    def __init__(self, program, settings, files, bridge):
        self.files, self.bridge = files, bridge
        with bridge, tempfile.TemporaryDirectory() as folder:
            names = [os.path.join(folder, str(at)) for at in range(len(files))]
            for name, file in zip(names, files):
                with open(name, "w") as out:
                    out.write("".join(f"{command}\n" for command in file))
            words = [program, *bridge.options, *map(str, settings), *names]
            try:
                ran = subprocess.run(words, stdin=subprocess.DEVNULL, capture_output=True, timeout=60)
                self.status, self.out, self.err = ran.returncode, *(it.decode("ascii", "replace") for it in (ran.stdout, ran.stderr))
            except subprocess.TimeoutExpired:
                self.status, self.out, self.err = None, "", "no end within a minute"
        parts = split(self.out, files)
        self.is_split = parts is not None
        self.replies, self.contents = parts or ([[] for _ in files], None)

    def fault(self, may_lack=False):
        """What is wrong, or None: a history has to be found, and the contents be told, or where they may lack be refused as
        `device`."""
        if self.bridge.faults:
            return f"the bridge: {self.bridge.faults}"
        ended = self.status, self.err, self.contents is None
        if ended != (0, "", False) and not (may_lack and ended == (1, "contents: device\n", True)):
            return f"status {self.status}, error {self.err!r}, contents {self.contents and len(self.contents)}"
        if not self.is_split:
            return f"output {self.out[:2000]!r}"
        made = [calls(file, lines) for file, lines in zip(self.files, self.replies)]
        if None in made or not is_found(made, self.contents):
            return f"no history of {self.files}: {self.out!r}"[:8000]
        return None

    def refused(self):
        """How often each refusal was replied."""
        return Counter(reply for lines in self.replies for reply in lines if reply in REFUSALS)

    def behind_refusal(self):
        """The commands and replies of the first file behind the first that was refused."""
        pairs = list(zip(self.files[0], self.replies[0]))
        first = next((at for at, (_, reply) in enumerate(pairs) if reply in REFUSALS), len(pairs))
        return pairs[first + 1:]

    def values_behind_refusal(self):
        """How many gets were replied a value behind the first command that was refused."""
        return sum(command.startswith("get") and reply not in REFUSALS | {"none"} for command, reply in self.behind_refusal())
