"""Trials of gateway.py: the memory that clients may take together."""
import contextlib
import os
import random
import socket
import struct
import threading
import time

from gateway_guarded import AUTH, NOAUTH, OK, guarded, request
from gateway_parts import CLOSE, DATA, HOLDS, MEBIBYTE, PATIENCE, Gateway, asked, frame, is_closed, pong, received, resident, until

BUDGET = ["--clients-memory", str(16 * MEBIBYTE)]
HALF = 8 * MEBIBYTE
# What the gateway takes beside its clients, and what came by one read of a pipe before the sum is looked at.
BESIDE = 5 * MEBIBYTE


@contextlib.contextmanager
def pinging(gateway):
    """A client that asks all the while, and never errs."""
    client, stop, faults, count = gateway.client(), threading.Event(), [], [0]

    def ping():
        try:
            while not stop.is_set():
                pong(client)
                count[0] += 1
                time.sleep(0.002)
        except (AssertionError, OSError) as fault:
            faults.append(fault)

    thread = threading.Thread(target=ping, daemon=True)
    thread.start()
    yield
    until(lambda: faults or count[0] > 10, "replies to who asks little")
    stop.set()
    thread.join(PATIENCE)
    assert not faults and not thread.is_alive(), f"who asks little has a fault: {faults}"


def lazy_client(gateway):
    """A client for which the system keeps little of what it does not read: by default that is 3 MiB, and a sender's room grows
    with the longest segment."""
    client = socket.socket()
    client.setsockopt(socket.SOL_SOCKET, socket.SO_RCVBUF, 4096)
    client.setsockopt(socket.IPPROTO_TCP, socket.TCP_MAXSEG, 1000)
    client.settimeout(PATIENCE)
    client.connect(("127.0.0.1", int(gateway.address.rpartition(":")[2])))
    gateway.clients.append(client)
    return client


def closes(gateway):
    return sum(it.count(CLOSE) for it in gateway.workers)


def all_is_answered(gateway):
    """Waits until what was sent has been answered, and who was closed for that is known to the workers."""
    for _ in range(2):
        for client in [gateway.client() for _ in gateway.workers]:
            pong(client)


def who_takes_the_most_is_closed(work, _):
    with Gateway(work, *BUDGET, workers=2) as gateway, pinging(gateway):
        light = [lazy_client(gateway) for _ in range(4)]
        for client in light:
            client.sendall(b"BIG 50000\n")
        heavy = [lazy_client(gateway) for _ in range(40)]
        for turn in range(6):
            for client in heavy:
                with contextlib.suppress(OSError):
                    client.sendall(b"BIG 150000\n")
        until(lambda: closes(gateway) >= 1, "a close")
        all_is_answered(gateway)
        assert gateway.most_memory() < HALF + BESIDE, gateway.most_memory()
        until(lambda: gateway.figure(b"clients_closed") == closes(gateway), "how many were closed")
        until(lambda: HALF // 2 < gateway.figure(b"clients_memory") <= HALF + MEBIBYTE, "that the rest is within the bound")
        # Each has taken more of its share than they have.
        for client in light:
            assert received(client, 50_000) == b"x" * 50_000
        pong(gateway.client())


def who_asks_is_not_closed_for_another(work, _):
    """The one that takes the most goes when others pass the bound, whose bytes then come whole."""
    with Gateway(work, *BUDGET) as gateway:
        worker, clients = gateway.workers[0], [lazy_client(gateway) for _ in range(12)]
        for client in clients:
            pong(client)
        worker.send(frame(DATA, 0, b"x" * 6 * MEBIBYTE))
        asked_of = []
        for number in range(1, 12):
            if worker.count(CLOSE):
                break
            asked_of.append(number)
            worker.send(frame(DATA, number, b"%d" % (number % 10) * MEBIBYTE))
            pong(clients[11])
        assert [number for kind, number, _ in worker.frames if kind == CLOSE] == [0], "another was closed"
        assert len(asked_of) >= 2, "it was closed too early"
        for number in asked_of:
            assert received(clients[number], MEBIBYTE) == b"%d" % (number % 10) * MEBIBYTE
        # So in the half of the workers.
        worker.send(frame(HOLDS, 1, (5_000_000).to_bytes(8, "big")))
        for number in range(2, 7):
            worker.send(frame(HOLDS, number, (700_000).to_bytes(8, "big")))
        until(lambda: worker.count(CLOSE) == 2, "a close")
        assert worker.frames[-1] == (CLOSE, 1, b"")
        for client in clients[2:]:
            pong(client)


def many_that_do_not_read_leave_others_be(work, clients):
    with Gateway(work, *BUDGET, workers=2) as gateway, pinging(gateway):
        small = [gateway.client() for _ in range(50)]
        for _ in range(min(clients, 400)):
            client = lazy_client(gateway)
            with contextlib.suppress(OSError):
                client.sendall(b"BIG 50000\n" * 8)
        until(lambda: closes(gateway) >= 1, "a close")
        for client in small:
            pong(client)
        assert gateway.most_memory() < HALF + BESIDE, gateway.most_memory()
        for client in gateway.clients[51:]:
            client.close()
        del gateway.clients[51:]
        until(lambda: sum(len(it.halves) for it in gateway.workers) == 51, "all closes")
        until(lambda: gateway.figure(b"clients_memory") <= 51 * 2048, "that their memory is free")
        assert gateway.memory() < BESIDE, f"it gives nothing back: {gateway.memory()}"


def what_workers_hold_is_bounded(work, _):
    with Gateway(work, *BUDGET, workers=2) as gateway, pinging(gateway):
        clients = [gateway.client() for _ in range(8)]
        for client in clients:
            pong(client)
        for at, client in enumerate(clients):
            asked(client, b"HOLD %d\nPING" % ((at + 1) * 200_000), b"+PONG\r\n")
        # 7,200,000 bytes are held; an honest one gives back again.
        asked(clients[7], b"HOLD %d\nPING" % 0, b"+PONG\r\n")
        asked(clients[0], b"HOLD %d\nPING" % 2_000_000, b"+PONG\r\n")
        until(lambda: 7_400_000 < gateway.figure(b"clients_memory") < 7_400_000 + MEBIBYTE, "how much is held")
        assert gateway.figure(b"clients_closed") == 0
        clients[3].sendall(b"HOLD %d\n" % 1_400_000)
        time.sleep(0.2)
        for client in clients[1:]:
            pong(client)
        clients[4].sendall(b"HOLD %d\n" % 2_200_000)
        assert is_closed(clients[4])
        until(lambda: closes(gateway) == 1, "the close of who has the most")
        for client in clients[:4] + clients[5:]:
            pong(client)
        until(lambda: gateway.figure(b"clients_closed") == 1, "that one was closed")


def a_closed_client_counts_no_more(work, _):
    """While a worker has not closed it, nothing is closed for the same bytes, and its late words count for nobody."""
    with Gateway(work, *BUDGET) as gateway:
        worker = gateway.workers[0]
        clients = [gateway.client() for _ in range(6)]
        for client in clients:
            pong(client)
        worker.closes = False
        for number in range(5):
            worker.send(frame(HOLDS, number, (1_600_000 + number).to_bytes(8, "big")))
        pong(clients[0])
        worker.send(frame(HOLDS, 5, (4_000_000).to_bytes(8, "big")))
        until(lambda: worker.withheld == [5], "a close")
        for value in (5_000_000, 2**64 - 1):
            worker.send(frame(HOLDS, 5, value.to_bytes(8, "big")) + frame(HOLDS, 77, value.to_bytes(8, "big")))
        for client in clients[:5]:
            pong(client)
        assert worker.withheld == [5] and is_closed(clients[5])
        # Behind the worker's close too.
        worker.send(frame(CLOSE, 5) + frame(HOLDS, 5, (2**63).to_bytes(8, "big")))
        for client in clients[:5]:
            pong(client)
        # Who has half closed has what the worker holds still counted, and who has gone has not.
        clients[4].shutdown(socket.SHUT_WR)
        until(lambda: worker.withheld == [5, 4], "the close of one that sends no more")
        worker.send(frame(HOLDS, 3, (1_900_000).to_bytes(8, "big")))
        time.sleep(0.1)
        assert worker.withheld == [5, 4]
        worker.send(frame(HOLDS, 2, (2**64 - 1).to_bytes(8, "big")))
        until(lambda: worker.withheld == [5, 4, 2], "the close of one that takes all")
        for client in clients[:2] + clients[3:4]:
            pong(client)


def idle_clients_are_kept(work, clients):
    count = max(2000, clients)
    with Gateway(work, *BUDGET, workers=4) as gateway:
        before = gateway.most_memory()
        all_of = [gateway.client() for _ in range(count)]
        until(lambda: sum(len(it.halves) for it in gateway.workers) == count, "all opens")
        for client in all_of:
            pong(client)
        assert closes(gateway) == 0 and gateway.figure(b"clients_closed") == 0
        grown = (gateway.most_memory() - before) // count
        until(lambda: gateway.figure(b"clients_memory") >= 0.9 * count * grown, f"{grown} bytes a client")
        assert grown <= 700, f"{grown} bytes a client"


def who_comes_beyond_it_is_told_so(work, _):
    with Gateway(work, "--clients-memory", str(256 * 1024), workers=2) as gateway:
        # It has room for 204.
        kept = [gateway.client() for _ in range(204)]
        for client in kept:
            pong(client)
        for _ in range(100):
            client = gateway.client()
            told = received(client, 100)
            assert told == b"-ERR max number of clients reached\r\n", told
        for client in kept:
            pong(client)
        assert closes(gateway) == 0


def what_is_held_of_unauthenticated_clients_counts(work, _):
    long = request(b"SET", b"k", b"x" * 16_000_000)[:200_000]
    with guarded(work, "--clients-memory", str(HALF // 2)) as (gateway, worker):
        worker.answers = False
        for _ in range(1000):
            client = gateway.client()
            with contextlib.suppress(OSError):
                client.sendall(request(b"PING") + long)
        until(lambda: closes(gateway) >= 1, "a close")
        until(lambda: gateway.figure(b"clients_closed") == closes(gateway), "how many were closed")
        until(lambda: HALF // 8 < gateway.figure(b"clients_memory") <= HALF // 4, "that the rest is within the bound")
        assert gateway.most_memory() < HALF // 4 + BESIDE, gateway.most_memory()
        worker.answers = True
        for client in gateway.clients:
            client.close()
        gateway.clients.clear()
        for text in list(worker.notes_held):
            worker.take_note(text)
        until(lambda: not worker.halves, "all closes")
        until(lambda: gateway.figure(b"clients_memory") == 0, "that nothing is taken")
        client = gateway.client()
        asked(client, b"PING", NOAUTH)
        asked(client, AUTH[:-1], OK)


def figures_are_told_now_and_then(work, _):
    with Gateway(work, workers=2) as gateway:
        client = gateway.client()
        for _ in range(200):
            client.sendall(b"BIG 100000\n")
            time.sleep(0.01)
        until(lambda: gateway.figure(b"clients_memory") > MEBIBYTE, "that much waits")
        assert received(client, 200 * 100_000) == b"x" * 200 * 100_000
        until(lambda: gateway.figure(b"clients_memory") < 4096, "that nothing waits")
        times = [at for at, _ in gateway.workers[0].figures[b"clients_memory"]]
        assert len(times) <= 2 + times[-1] - times[0], times
        assert not any(gateway.workers[1].figures.values()), "the other worker is told too"
        time.sleep(1.2)
        assert len(gateway.workers[0].figures[b"clients_memory"]) == len(times), "it is told though nothing changed"


def resident_bytes_are_told(work, _):
    """Those of the gateway, and with them those of the server where its process is known."""
    room = bytearray()
    with Gateway(work, workers=2) as alone, Gateway(work, "--server-pid", str(os.getpid())) as gateway:
        def is_told(of, more):
            return abs(of.figure(b"resident_bytes") - of.memory() - more) <= MEBIBYTE
        until(lambda: is_told(alone, 0), "the bytes of the gateway alone")
        until(lambda: is_told(gateway, resident(os.getpid())), "the bytes of both")
        room.extend(b"x" * 64 * MEBIBYTE)
        until(lambda: gateway.figure(b"resident_bytes") > 64 * MEBIBYTE and is_told(gateway, resident(os.getpid())), "what came in")
        times = [at for at, _ in gateway.workers[0].figures[b"resident_bytes"]]
        assert len(times) <= 2 + times[-1] - times[0], times
        count = len(alone.workers[0].figures[b"resident_bytes"])
        time.sleep(2.5)
        assert len(alone.workers[0].figures[b"resident_bytes"]) == count, "it is told though nothing changed"
        assert not any(alone.workers[1].figures.values()), "the other worker is told too"
    # A process that is not there counts for nothing.
    with Gateway(work, "--server-pid", str((1 << 22) + 1)) as gateway:
        until(lambda: abs(gateway.figure(b"resident_bytes") - gateway.memory()) <= MEBIBYTE, "the bytes of the gateway alone")


def sums_are_right_whatever_comes(work, clients):
    """Clients ask, wait, read and go in any way, workers tell what they hold, and stop for a while: in the end nothing is counted."""
    lines = [b"PING\n", b"PI", b"BIG 300000\n", b"BIG 20000\n" * 9, b"QUIT\nPING\n", b"HOLD 0\n", b"HOLD 70000\n",
             b"HOLD 1500000\n", b"ECHO %s\n" % (b"x" * 30000), b"LATE 0.01\n" * 3]
    seed = random.randrange(1 << 32)
    random.seed(seed)
    with Gateway(work, *BUDGET, workers=3) as gateway:
        kept = []
        for turn in range(3 * clients):
            client = lazy_client(gateway) if random.random() < 0.5 else gateway.client()
            client.settimeout(0.02)
            kept.append(client)
            for client in random.sample(kept, min(5, len(kept))):
                with contextlib.suppress(OSError):
                    client.sendall(random.choice(lines))
                    if random.random() < 0.5:
                        client.recv(random.choice([1, 100, 70000]))
                    if random.random() < 0.2:
                        client.shutdown(random.choice([socket.SHUT_WR, socket.SHUT_RDWR]))
            if len(kept) > 60:
                client = kept.pop(random.randrange(60))
                with contextlib.suppress(OSError):
                    client.setsockopt(socket.SOL_SOCKET, socket.SO_LINGER, struct.pack("ii", random.randrange(2), 0))
                client.close()
            worker = random.choice(gateway.workers)
            if random.random() < 0.05:
                worker.reads.clear()
                threading.Timer(random.random() / 10, worker.reads.set).start()
            if random.random() < 0.1:
                worker.send(frame(HOLDS, random.randrange(worker.last + 3), random.choice([0, 1, 2**20, 2**64 - 1]).to_bytes(8, "big")))
        for client in gateway.clients:
            client.close()
        gateway.clients.clear()
        time.sleep(0.2)
        until(lambda: not any(it.halves for it in gateway.workers), f"all closes ({seed})")
        until(lambda: gateway.figure(b"clients_memory") == 0, f"that nothing is counted ({seed})")
        assert gateway.rests(), seed
        assert gateway.most_memory() < HALF + BESIDE, (gateway.most_memory(), seed)
        pong(gateway.client())


TRIALS = [
    who_takes_the_most_is_closed, who_asks_is_not_closed_for_another, many_that_do_not_read_leave_others_be,
    what_workers_hold_is_bounded, a_closed_client_counts_no_more, idle_clients_are_kept, who_comes_beyond_it_is_told_so,
    what_is_held_of_unauthenticated_clients_counts, figures_are_told_now_and_then, resident_bytes_are_told, sums_are_right_whatever_comes,
]
