"""Trials of server.py: the server and its gateway together stay below --memory and 15 %, whatever clients do."""
import contextlib
import multiprocessing
import random
import threading
import time

from memory_groups import memory_group
from server_parts import MEBIBYTE, OK, Client, request, until

# How much of --memory both programs may have at their peaks.
SLACK = 1.15
# Bytes of the Python that starts the server.
PYTHON = 16 * MEBIBYTE
# A value that is large, which all of these servers take.
LARGE = 1_000_000


def peaks(server):
    """The most bytes of the program and of the gateway that were resident, each at its own time."""
    return server.peak("farserve") + server.peak("gateway")


def each(count, work):
    """Has so many clients work at once, and gives what they met."""
    met = []

    def one(at):
        try:
            work(at)
        except Exception as fault:
            met.append(fault)
    threads = [threading.Thread(target=one, args=(at,)) for at in range(count)]
    for it in threads:
        it.start()
    for it in threads:
        it.join()
    return met


def sends_a_little(address, ends):
    """Sends a little all along, until the other end of the pipe has something; then says there how long it waited at most."""
    slowest, count = 0, 0
    with Client(address) as client:
        while not ends.poll(0.005):
            began = time.monotonic()
            assert client.ask("SET", "honest", count) == OK
            assert client.value("GET", "honest") == b"%d" % count
            slowest = max(slowest, time.monotonic() - began)
            count += 1
    ends.send((count, slowest))


class Honest:
    """A client that is to notice nothing, in a process of its own, so that none here holds it up."""

    def __init__(self, server):
        self.pipe, other = multiprocessing.Pipe()
        fork = multiprocessing.get_context("fork")
        self.process = fork.Process(target=sends_a_little, args=(server.address, other), daemon=True)
        self.process.start()
        other.close()

    def end(self):
        """How long it waited at most."""
        self.pipe.send(None)
        count, slowest = self.pipe.recv()
        assert count > 10
        return slowest


def large_values(server, size):
    """Eight clients set and get large values: each is answered right."""
    def work(at):
        draws = random.Random(at)
        with Client(server.address, 60) as client:
            for turn in range(12):
                name, value = f"large{at}-{draws.randrange(6)}", draws.randbytes(size - 8) + b"%08d" % turn
                told = client.ask("SET", name, value)
                assert told == OK, told
                assert client.value("GET", name) == value
    met = each(8, work)
    assert not met, met


def small_values(server, _):
    def work(at):
        with Client(server.address, 60) as client:
            for turn in range(20):
                asked = [("SET", f"small{at}-{turn}-{it}", b"v" * (50 + it)) for it in range(500)]
                assert client.ask_all(asked) == [OK] * len(asked)
    met = each(4, work)
    assert not met, met


def long_arrays(server, size):
    """MGET and EXEC that ask for more than there is room for, and for less: each has an answer. Replies that are large for the server
    are asked for one at a time: more of them may wait for their clients than there is room for."""
    turn = threading.Lock() if size > LARGE else contextlib.nullcontext()

    def work(at):
        with Client(server.address, 60) as client:
            assert client.ask("SET", f"array{at}", b"a" * size) == OK
            for count in (1, 2, 3, 50):
                with turn:
                    told = client.ask("MGET", *[f"array{at}"] * count)
                    assert told.startswith((b"*%d\r\n" % count, b"-ERR reply is too large")), told[:50]
                    told = client.ask_all([("MULTI",), *[("GET", f"array{at}")] * count, ("EXEC",)])
                    assert told[-1].startswith(b"*%d\r\n" % count), told[-1][:50]
    met = each(4, work)
    assert not met, met


def sent_by(server, count, data):
    """So many clients that send this as far as it is taken."""
    clients = []
    for _ in range(count):
        client = Client(server.address)
        client.socket.settimeout(0.3)
        with contextlib.suppress(OSError):
            client.send(data)
        clients.append(client)
    time.sleep(0.5)
    return clients


def half_requests(server, size):
    """Large requests that are not sent to their end."""
    return sent_by(server, 40, b"*3\r\n$3\r\nSET\r\n$1\r\nk\r\n$%d\r\n" % size + b"x" * (size - 100))


def many_half_requests(server, _):
    return sent_by(server, 400, b"*3\r\n$3\r\nSET\r\n$1\r\nk\r\n$30000\r\n" + b"x" * 20_000)


def queues(server, _):
    """Much that waits for EXEC."""
    return sent_by(server, 20, request("MULTI") + request("SET", "k", "v") * 60_000)


def unread_replies(server, _):
    """Replies that nobody reads."""
    return sent_by(server, 20, request("GET", "unread") * 50)


def small_unread_replies(server, _):
    return sent_by(server, 100, request("ECHO", "e" * 1000) * 300)


def many_clients(server, _):
    return sent_by(server, 500, request("CLIENT", "SETNAME", "n" * 1000))


def long_pages(server, _):
    """SCAN, COMMAND and INFO, whose replies nobody chose the length of."""
    def work(at):
        with Client(server.address, 60) as client:
            for _ in range(5):
                for asked in (("SCAN", "0", "COUNT", "1000000"), ("COMMAND",), ("COMMAND", "DOCS"), ("INFO", "all")):
                    client.ask(*asked)
    met = each(8, work)
    assert not met, met


LOADS = [small_values, large_values, long_arrays, long_pages, half_requests, many_half_requests, queues, unread_replies,
         small_unread_replies, many_clients]


def stays_within(tried, memory, size, *options, **others):
    """All loads one after another, and then some at once, beside a client that is to notice nothing."""
    most = memory * MEBIBYTE * SLACK
    told = []
    with tried.start(*options, memory=f"{memory}m", far=f"far{memory}", **others) as server:
        honest = Honest(server)
        assert server.client().ask("SET", "unread", b"u" * size) == OK
        for load in LOADS:
            clients = load(server, size) or []
            told.append(f"{load.__name__} {peaks(server) / MEBIBYTE:.1f}")
            for client in clients:
                client.close()
            server.answers()
        taken = [it for load in LOADS[4:] for it in load(server, size)]
        told.append(f"together {peaks(server) / MEBIBYTE:.1f}")
        for client in taken:
            client.close()
        slowest = honest.end()
        server.answers()
        assert peaks(server) < most, f"of {memory} MiB: {', '.join(told)} MiB"
        info = server.client().info()
        assert int(info["evicted_clients"]) > 0
        until(lambda: int(server.client().info()["clients_memory"]) < MEBIBYTE, "what clients had is given back")
        return f"{peaks(server) / MEBIBYTE:.1f} of {memory} MiB, the other client waited for {slowest:.2f} s at most"


def memory_is_what_was_given_of_64_mebibytes(tried, _):
    return stays_within(tried, 64, LARGE)


def memory_is_what_was_given_of_32_mebibytes(tried, _):
    return stays_within(tried, 32, LARGE)


def memory_is_what_was_given_of_128_mebibytes(tried, _):
    """The least for which malloc may keep large blocks (bin/serve.py)."""
    return stays_within(tried, 128, LARGE)


def memory_is_what_was_given_of_256_mebibytes(tried, _):
    return stays_within(tried, 256, LARGE, "--threads", "16")


def memory_is_what_was_given_where_values_are_long(tried, _):
    return stays_within(tried, 300, 8_000_000, "--value-limit", "8m")


def memory_is_what_was_given_of_the_longest_values(tried, _):
    """The longest values that so much memory takes."""
    return stays_within(tried, 64, 2_000_000, "--value-limit", "2m")


def nobody_is_killed_in_a_memory_group(tried, _):
    """The system lets all processes of the server have so much together: --memory and a fifth, and what Python has."""
    memory = 128
    with memory_group(int(memory * MEBIBYTE * 1.2) + PYTHON) as group:
        if group is None:
            return "(skipped: no memory group can be made)"
        told = stays_within(tried, memory, LARGE, prepare=group.join)
        assert group.killed() == "0", group.killed()
        return f"{told}; {group.peak() / MEBIBYTE:.1f} MiB of the group's, with files"


TRIALS = [memory_is_what_was_given_of_64_mebibytes, memory_is_what_was_given_of_32_mebibytes, memory_is_what_was_given_of_128_mebibytes,
          memory_is_what_was_given_of_256_mebibytes, memory_is_what_was_given_where_values_are_long,
          memory_is_what_was_given_of_the_longest_values, nobody_is_killed_in_a_memory_group]
