"""What cluster.py tries: examples/cluster/run.sh, its shards, and how their keys are got."""
import contextlib
import os
import random
import re
import shlex
import signal
import socket
import subprocess
import time
from collections import Counter

import redis
from server_parts import NONE, PATIENCE, ROOT, Client, Process, bulk, children, request, until

EXAMPLE = ROOT / "examples/cluster"
RUN = EXAMPLE / "run.sh"
SHARDS = 4
MEMORY = "32m"
KEYS = [f"key{at}" for at in range(2000)]


def value(key):
    return f"value of {key}".encode()


def free_ports(count):
    """The first of so many ports side by side that are free, below those that connections get."""
    while True:
        first = random.randrange(10_000, 32_000)
        with contextlib.suppress(OSError), contextlib.ExitStack() as held:
            for port in range(first, first + count):
                held.enter_context(socket.create_server(("127.0.0.1", port)))
            return first


def options(work, *further):
    return ["--shards", SHARDS, "--memory", MEMORY, "--far", work, "--port", free_ports(SHARDS + 2), *further]


def run(*words, **how):
    """What run.sh did, given these words. What it started ends here too where it takes too long."""
    pipes = {"stdin": subprocess.DEVNULL, "stdout": subprocess.PIPE, "stderr": subprocess.PIPE}
    process = subprocess.Popen([RUN, *(str(it) for it in words)], start_new_session=True, text=True, **pipes, **how)
    try:
        told = process.communicate(timeout=PATIENCE * 3)
    finally:
        with contextlib.suppress(OSError):
            os.killpg(process.pid, signal.SIGKILL)
    return subprocess.CompletedProcess(words, process.returncode, *told)


class Shard:
    """A farserve that run.sh has started, or this one in its place."""

    def __init__(self, words, pid):
        self.words, self.pid, self.port = shlex.split(words), int(pid), int(words.split()[-1])
        self.own = None
        self.keys = []

    def redis(self):
        return redis.Redis(port=self.port, socket_timeout=PATIENCE)

    def signal(self, name):
        """Sends a signal to both programs and to what started them. One of these may end with another."""
        for pid in [self.pid, *children(self.pid)]:
            with contextlib.suppress(ProcessLookupError):
                os.kill(pid, name)

    def kill(self):
        self.signal(signal.SIGKILL)
        if self.own is not None:
            self.own.process.wait()

        def is_gone():
            with socket.socket() as tried:
                return tried.connect_ex(("127.0.0.1", self.port)) != 0
        until(is_gone, "the end of a killed shard")

    def start(self):
        self.own = Process(self.words)
        self.pid = self.own.process.pid
        assert self.own.process.stdout.readline().startswith(b"ready "), self.own.text()


class Cluster(Process):
    """run.sh, which stays."""

    def __init__(self, work):
        self.work = work
        self.shards = []
        super().__init__([RUN, *options(work, "--stay")])

    def await_ready(self):
        """Reads how each shard was started, and where clients may come."""
        for _ in range(SHARDS):
            line = self.process.stdout.readline().decode()
            told = re.fullmatch(r"shard \d+: (.*), process (\d+)\n", line)
            assert told, (line, self.text())
            self.shards.append(Shard(*told.groups()))
        line = self.process.stdout.readline().decode()
        assert line.startswith("ready 127.0.0.1:"), (line, self.text())
        self.address = "127.0.0.1", int(line.rpartition(":")[2])

    def __exit__(self, *fault):
        for shard in self.shards:
            if shard.own is not None:
                shard.own.__exit__()
        super().__exit__(*fault)

    def redis(self):
        return redis.Redis(port=self.port(), socket_timeout=PATIENCE)

    def look(self):
        """Notes which keys each shard has, before others have any of them too."""
        for shard in self.shards:
            told = shard.redis().mget(KEYS)
            shard.keys = [key for key, it in zip(KEYS, told) if it is not None]

    def await_shard(self, shard, key):
        """Takes a key out of its shard, and sets it until it is there: nutcracker asks that shard again."""
        shard.redis().delete(key)

        def is_back():
            with contextlib.suppress(redis.RedisError):
                self.redis().set(key, value(key))
            return shard.redis().exists(key)
        until(is_back, "nutcracker's return to a shard")


def got(client, keys):
    """How often a get was answered the value of its key, none, or an error, whose text stands there."""
    told = Counter()
    for key in keys:
        try:
            is_value = client.get(key)
            assert is_value in (None, value(key)), (key, is_value)
            told["none" if is_value is None else "value"] += 1
        except redis.RedisError as fault:
            told[str(fault)] += 1
    return told


def gives(client, key, wanted):
    """Whether a get has this value, and no error."""
    with contextlib.suppress(redis.RedisError):
        return client.get(key) == wanted


def is_of(told, keys):
    """Whether the reply to an MGET is an error, or of each key its value or none."""
    rest = told.removeprefix(b"*%d\r\n" % len(keys))
    for key in keys:
        rest = rest.removeprefix(NONE if rest.startswith(NONE) else bulk(value(key)))
    return told.startswith(b"-") or rest == b""


def pipelines(cluster, keys):
    """Gets keys in pipelines, each an MGET with gets of the same keys behind it. Gives how many replies were errors, and how many
    pipelines were cut off: nutcracker closes a connection behind an MGET that had an error."""
    told = Counter()
    for at in range(0, len(keys), 20):
        part = keys[at:at + 20]
        with Client(cluster.address) as client:
            client.send(request("MGET", *part) + b"".join(request("GET", it) for it in part))
            try:
                reply = client.reply()
                assert is_of(reply, part), (part, reply)
                told["errors"] += reply.startswith(b"-")
                for key in part:
                    reply = client.reply()
                    assert reply in (bulk(value(key)), NONE) or reply.startswith(b"-"), (key, reply)
                    told["errors"] += reply.startswith(b"-")
            except (EOFError, ConnectionError):
                told["cut off"] += 1
    return told
