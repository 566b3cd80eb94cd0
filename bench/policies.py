"""Measures for policies.sh, whose head says what: policies.py FOLDER [--quick] [MEBIBYTES]..., FOLDER for the servers' files."""
import contextlib
import random
import sys
from itertools import accumulate
from pathlib import Path

ROOT = Path(__file__).resolve().parent.parent
sys.path.insert(0, str(ROOT / "tests"))
from server_parts import MEBIBYTE, NONE, OK, Client, Farserve, request  # noqa: E402

from extstore import Running, free_port, started  # noqa: E402

EXPONENT, GETS, PIPELINE = 0.99, 0.95, 200
# With so many MiB no bound is near.
AMPLE = 2048
KEY = 16


@contextlib.contextmanager
def farserve(memory, policy, folder):
    with Farserve(folder, "--policy", policy, memory=f"{memory}m", far=None) as server:
        yield Running("resp", server.port(), [server.pid("farserve"), server.pid("gateway")], folder)


@contextlib.contextmanager
def redis(memory, policy, folder):
    port = free_port()
    bound = ["--maxmemory", f"{memory}mb", "--maxmemory-policy", policy]
    with started(["redis-server", "--port", port, "--save", "", "--dir", folder, *bound], port, "resp", folder) as running:
        yield running


SERVERS = {
    "farserve, `allkeys`": (farserve, "allkeys"),
    "redis-server, `allkeys-lru`": (redis, "allkeys-lru"),
    "redis-server, `allkeys-random`": (redis, "allkeys-random"),
}


def tell(text):
    print(f"policies.sh: {text}", file=sys.stderr, flush=True)


class Load:
    """Gets and sets of keys that are drawn by Zipf's law over a permutation of them, in pipelines. A get that misses sets its key."""

    def __init__(self, keys, value):
        self.random, self.value = random.Random(7), b"v" * value
        self.order = list(range(keys))
        self.random.shuffle(self.order)
        self.weights = list(accumulate((it + 1) ** -EXPONENT for it in range(keys)))

    def set(self, client, keys):
        if keys:
            told = set(client.ask_all([("SET", key, self.value) for key in keys]))
            assert told == {OK}, told

    def run(self, client, count):
        """The part of the gets that hit."""
        gets = hits = 0
        for _ in range(count // PIPELINE):
            drawn = [b"key:%012d" % it for it in self.random.choices(self.order, cum_weights=self.weights, k=PIPELINE)]
            asked = drawn[:int(GETS * PIPELINE)]
            client.send(b"".join(request("GET", it) for it in asked))
            missed = [it for it in asked if client.reply() == NONE]
            self.set(client, missed + drawn[len(asked):])
            gets, hits = gets + len(asked), hits + len(asked) - len(missed)
        return hits / gets


def hits(folder, name, memory, value, count):
    """The part of gets that hit, after so many calls: three quarters of these warm it up."""
    server, policy = SERVERS[name]
    load = Load(4 * memory * MEBIBYTE // (KEY + value), value)
    with server(memory, policy, folder) as running, Client(("127.0.0.1", running.port), patience=120) as client:
        rates = [load.run(client, count // 4) for _ in range(4)]
        tell(f"{name}, {memory} MiB, {value} bytes: {' '.join(f'{it:.3f}' for it in rates)}, {running.resident():.0f} MiB resident")
        return rates[-1]


def cost(folder, name, value, count):
    """Bytes that a key takes with its value, beside the server at its start."""
    server, policy = SERVERS[name]
    load = Load(1, value)
    with server(AMPLE, policy, folder) as running, Client(("127.0.0.1", running.port), patience=120) as client:
        before = running.resident()
        for first in range(0, count, PIPELINE):
            load.set(client, [b"key:%012d" % it for it in range(first, first + PIPELINE)])
        each = (running.resident() - before) * MEBIBYTE / count
        tell(f"{name}: a key with {value} bytes takes {each:.0f}")
        return each


def print_table(heads, rows):
    print(" | ".join(heads))
    print("|".join(["---"] * len(heads)))
    for row in rows:
        print(" | ".join(map(str, row)), flush=True)
    print(flush=True)


def main(folder, *words):
    is_quick = "--quick" in words
    memories = [int(it) for it in words if it.isdigit()] or [64, 256]
    cells = [(memory, value) for memory in memories for value in (100, 512, 1024)]
    calls = 20_000 if is_quick else 2_000_000
    print_table(["Memory, MiB", "Value, bytes", *SERVERS],
                ((*cell, *[f"{hits(folder, name, *cell, calls * cell[0] // 64):.3f}" for name in SERVERS]) for cell in cells))
    names = list(SERVERS)[:2]
    print_table(["Value, bytes", *names],
                ((value, *[f"{cost(folder, name, value, calls // 10):.0f}" for name in names]) for value in (100, 1024)))


if __name__ == "__main__":
    main(*sys.argv[1:])
