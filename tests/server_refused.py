"""Trials of server.py: the system refuses the program memory, and what was answered with an error did not happen."""
import contextlib
import random
import resource
import threading
import time
from pathlib import Path

from server_parts import MEBIBYTE, OK, Client, bulk, request

# How many MiB above what it has the program may take.
LIMITS = (1, 2, 3, 5, 8, 13, 21, 34, 55, 100)
KEYS = 12
CLIENTS = 4
# How long the clients ask below each limit.
SECONDS = 1.5


def may_take(pid, more):
    """Lets the program have that many bytes of addresses more than it has, or any number if None."""
    size = int(Path(f"/proc/{pid}/status").read_text().partition("VmSize:")[2].split()[0]) << 10
    limit = resource.RLIM_INFINITY if more is None else size + more
    resource.prlimit(pid, resource.RLIMIT_AS, (limit, resource.RLIM_INFINITY))


class Asker(threading.Thread):
    """A client with keys of its own, whose replies are compared with a model: of each key the values that it may have."""

    def __init__(self, address, number):
        super().__init__(daemon=True)
        self.address, self.number, self.draws = address, number, random.Random(number)
        self.may_be = {f"{number}-{at}": {None} for at in range(KEYS)}
        self.client, self.is_over, self.fault = None, False, None
        self.errors, self.done, self.closed = 0, 0, 0

    def run(self):
        try:
            while not self.is_over:
                self.ask()
        except Exception as fault:
            self.fault = fault

    def key(self):
        return self.draws.choice(list(self.may_be))

    def value(self):
        return self.draws.randbytes(int(2 ** self.draws.uniform(0, 20)))

    def command(self):
        """A command on a key, and what the key has after it, by what it had."""
        key, value, draw = self.key(), self.value(), self.draws.random()
        if draw < 0.45:
            return ("SET", key, value), lambda had: value
        if draw < 0.6:
            # A value has no more than 1 MiB.
            return ("APPEND", key, value[:1_000]), lambda had: (had or b"") + value[:1_000]
        if draw < 0.7:
            return ("GETSET", key, value), lambda had: value
        if draw < 0.75:
            return ("DEL", key), lambda had: None
        return ("GET", key), lambda had: had

    def is_told(self, command, had, told):
        """Whether this is the reply, where the key had that value."""
        if command[0] == "SET":
            return told == OK
        if command[0] == "APPEND":
            return told == b":%d\r\n" % len((had or b"") + command[2])
        if command[0] == "DEL":
            return told == b":%d\r\n" % (had is not None)
        return told == bulk(had)

    def take(self, command, after, told):
        """Takes the reply to a command: it is an error, so nothing has changed, or it is right of a value that the key may have had."""
        key = command[1]
        if told[:1] == b"-":
            assert told.startswith((b"-OOM ", b"-ERR bucket is full")), told
            self.errors += 1
            return
        had = {it for it in self.may_be[key] if self.is_told(command, it, told)}
        assert had, (command[:2], told[:60], [it and it[:20] for it in self.may_be[key]])
        self.may_be[key] = {after(it) for it in had}
        self.done += 1

    def ask(self):
        """Asks once. Where the connection ends each command may have been carried out."""
        draw = self.draws.random()
        if draw < 0.7:
            commands = [self.command()]
        else:
            commands = [self.command() for _ in range(self.draws.randrange(2, 6))]
        try:
            if self.client is None:
                self.client = Client(self.address)
            if draw < 0.7:
                self.take(*commands[0], self.client.ask(*commands[0][0]))
            elif draw < 0.9:
                self.ask_exec(commands)
            else:
                self.ask_many([self.key() for _ in range(self.draws.randrange(1, 8))])
        except (EOFError, ConnectionError):
            self.closed += 1
            with contextlib.suppress(OSError):
                self.client.close()
            self.client = None
            if draw < 0.9:
                for command, after in commands:
                    self.may_be[command[1]] |= {after(it) for it in self.may_be[command[1]]}

    def ask_exec(self, commands):
        told = self.client.ask_all([("MULTI",), *(it for it, _ in commands)])
        self.client.send(request("EXEC"))
        line = self.client.input.readline()
        if line[:1] != b"*":
            if not line:
                raise EOFError(line)
            is_aborted = any(it[:1] == b"-" for it in told)
            assert line.startswith((b"-EXECABORT ", b"-ERR EXEC without MULTI") if is_aborted else b"-OOM "), (told, line)
            self.errors += 1
            return
        assert told == [OK] + [b"+QUEUED\r\n"] * len(commands) and int(line[1:]) == len(commands), (told, line)
        for command, after in commands:
            self.take(command, after, self.client.reply())

    def ask_many(self, keys):
        self.client.send(request("MGET", *keys))
        line = self.client.input.readline()
        if line[:1] != b"*":
            if not line:
                raise EOFError(line)
            assert line.startswith(b"-OOM "), line
            self.errors += 1
            return
        for key in keys:
            self.take(("GET", key), lambda had: had, self.client.reply())


def asks(server, askers, seconds):
    """Has them ask for a while, and gives how many commands were refused, done and cut by an end."""
    for it in askers:
        it.start()
    time.sleep(seconds)
    for it in askers:
        it.is_over = True
    for it in askers:
        it.join()
        assert it.fault is None, f"{type(it.fault).__name__} {it.fault}; {server.text()}"
    return [sum(it) for it in zip(*((it.errors, it.done, it.closed) for it in askers))]


def refused_memory_is_an_error(tried, _):
    """Below each limit clients set and get values up to 1 MiB; then all is as the model has it, and commands succeed."""
    told = []
    with tried.start("--threads", 2, memory="256m", far=None) as server:
        pid = server.pid("farserve")
        last = []
        for number, limit in enumerate(LIMITS):
            askers = [Asker(server.address, number * CLIENTS + it) for it in range(CLIENTS)]
            for it in last:
                # The keys of the round before are known still.
                askers[it.number % CLIENTS].may_be |= dict(list(it.may_be.items())[:KEYS])
            may_take(pid, limit * MEBIBYTE)
            told.append((limit, *asks(server, askers, SECONDS)))
            may_take(pid, None)
            with server.client() as client:
                for it in askers:
                    for key, may_be in it.may_be.items():
                        value = client.value("GET", key)
                        assert value in may_be, (limit, key, value and value[:20], [it and it[:20] for it in may_be])
                        it.may_be[key] = {value}
                assert client.ask("SET", "after", b"x" * MEBIBYTE) == OK, limit
            last = askers
        assert server.pid("farserve") == pid
    refused = sum(it[1] for it in told)
    assert refused > 0 and all(it[2] > 0 for it in told), told
    return "above what it had, refused, done and cut: " + ", ".join(f"{a} MiB {b} {c} {d}" for a, b, c, d in told)


TRIALS = [refused_memory_is_an_error]
