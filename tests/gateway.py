"""Tries the gateway, with workers and devices here in the place of a server's: gateway.py FOLDER CLIENTS [TRIAL]...

FOLDER has the program, and a TRIAL is the name of one of the functions here and in the files beside it, or I/N for each Nth from
the Ith on; all are made where none is named.
"""
import contextlib
import random
import resource
import signal
import socket
import struct
import subprocess
import sys
import time

import gateway_ends
import gateway_link_ends
import gateway_links
import gateway_log
import gateway_memory
import gateway_refused
import gateway_unauthenticated
import gateway_turns
from gateway_parts import (CLOSE, DATA, LET_IN, LET_OUT, MEBIBYTE, NOTE, OPEN, PATIENCE, WAKE, Gateway, asked, fill, frame, is_closed,
                         pong, received, sender, until)


def each_client_gets_its_own(work, clients):
    with Gateway(work, workers=3) as gateway:
        all_of = [gateway.client() for _ in range(clients)]
        until(lambda: sum(it.count(OPEN) for it in gateway.workers) == clients, "all opens")
        counts = [it.count(OPEN) for it in gateway.workers]
        assert max(counts) - min(counts) <= 1, f"not dealt in turn: {counts}"
        for turn in range(3):
            random.shuffle(all_of)
            for number, client in enumerate(all_of):
                client.sendall(b"ECHO %d %d\nEC" % (turn, number))
            for number, client in enumerate(all_of):
                client.sendall(b"HO half of %d\n" % number)
            for number, client in enumerate(all_of):
                want = b"%d %d\nhalf of %d\n" % (turn, number, number)
                assert received(client, len(want)) == want


def bytes_come_one_by_one_and_many_at_once(work, _):
    with Gateway(work) as gateway:
        client = gateway.client()
        for byte in b"ECHO in pieces\n":
            client.sendall(bytes([byte]))
        assert received(client, 10) == b"in pieces\n"
        for byte in frame(DATA, 0, b"so too") + frame(DATA, 0) + frame(DATA, 0, b" the other way"):
            gateway.workers[0].send(bytes([byte]))
            time.sleep(0.002)
        assert received(client, 20) == b"so too the other way"
        lines = [b"ECHO %d %s\n" % (at, b"y" * random.randrange(3000)) for at in range(2000)]
        client.settimeout(None)
        with sender(client, b"".join(lines)):
            want = b"".join(it[5:] for it in lines)
            assert received(client, len(want)) == want
        asked(client, b"BIG %d" % (9 * MEBIBYTE), b"x" * 9 * MEBIBYTE)
        assert gateway.rests()


def who_does_not_read_is_closed_alone(work, _):
    with Gateway(work, "--output-limit", str(8 * MEBIBYTE)) as gateway:
        lazy, other = gateway.client(), gateway.client()
        lazy.sendall(b"BIG %d\n" % (6 * MEBIBYTE))
        pong(other)
        assert gateway.rests(), "it waits for who doesn't read"
        for _ in range(20):
            with contextlib.suppress(OSError):
                lazy.sendall(b"BIG %d\n" % MEBIBYTE)
            pong(other)
        until(lambda: (CLOSE, 0, b"") in gateway.workers[0].frames, "the close of who doesn't read")
        assert gateway.memory() < 24 * MEBIBYTE, gateway.memory()
        told = 0
        with contextlib.suppress(ConnectionResetError):
            while part := lazy.recv(MEBIBYTE):
                told += len(part)
        assert told < 20 * MEBIBYTE, told
        pong(gateway.client())


def who_reads_late_gets_all(work, _):
    with Gateway(work, "--clients-memory", str(256 * MEBIBYTE)) as gateway:
        late = gateway.client()
        late.sendall(b"BIG %d\n" % (20 * MEBIBYTE) + b"ECHO end\n")
        pong(gateway.client())
        assert received(late, 20 * MEBIBYTE) == b"x" * 20 * MEBIBYTE
        assert received(late, 4) == b"end\n"
        late.sendall(b"BIG %d\n" % (20 * MEBIBYTE))
        pong(gateway.client())
        # The gateway finds more for the client, and behind that its socket with room again.
        gateway.process.send_signal(signal.SIGSTOP)
        gateway.workers[0].send(frame(DATA, 0, b"tail"))
        part = received(late, 2 * MEBIBYTE)
        gateway.process.send_signal(signal.SIGCONT)
        assert part + received(late, 18 * MEBIBYTE + 4) == b"x" * 20 * MEBIBYTE + b"tail"
        lines = b"".join(b"ECHO %d %s\n" % (at, b"y" * 60000) for at in range(600))
        with sender(late, lines):
            time.sleep(0.3)
            want = lines.replace(b"ECHO ", b"")
            assert received(late, len(want)) == want
        pong(late)


def a_busy_worker_stops_its_senders(work, _):
    with Gateway(work, workers=2) as gateway:
        greedy, other, beside = gateway.client(), gateway.client(), gateway.client()
        pong(beside)
        gateway.workers[0].reads.clear()
        beside.sendall(b"ECHO wakes the worker, which then waits\n")
        data = b"".join(b"ECHO %d %s\n" % (at, b"z" * 60000) for at in range(1000))
        sent = fill(greedy, data, 1)
        assert gateway.memory() < 16 * MEBIBYTE, gateway.memory()
        pong(other)
        assert gateway.rests(), "it waits for a busy worker"
        gateway.workers[0].reads.set()
        want = data.replace(b"ECHO ", b"")
        with sender(greedy, data[sent:]):
            assert received(greedy, len(want)) == want
        want = b"wakes the worker, which then waits"
        assert received(beside, len(want)) == want


def numbers_are_never_used_again(work, clients):
    with Gateway(work) as gateway:
        worker = gateway.workers[0]
        first, second = gateway.client(), gateway.client()
        pong(first)
        pong(second)
        worker.closes = False
        first.close()
        until(lambda: worker.withheld == [0], "the close of the first")
        pong(gateway.client())
        worker.send(frame(DATA, 0, b"for who has gone") + frame(CLOSE, 0) + frame(CLOSE, 0) + frame(DATA, 0, b"for nobody"))
        pong(second)
        fresh = gateway.client()
        pong(fresh)
        for kind in (LET_IN, LET_OUT, CLOSE):
            worker.send(frame(kind, 0) + frame(kind, 77) + frame(kind, 2**64 - 1))
        worker.send(frame(DATA, 77, b"of no number yet") + frame(NOTE, 0, b"synced 0") + frame(NOTE, 0, b"synced 2"))
        pong(fresh)
        worker.closes = True
        memory, count = gateway.memory(), min(10 * clients, 20_000)
        for _ in range(count):
            with socket.create_connection(("127.0.0.1", int(gateway.address.rpartition(":")[2]))) as client:
                pong(client)
        opened = [number for kind, number, _ in worker.frames if kind == OPEN]
        assert opened == list(range(4 + count)), "numbers are not drawn in order"
        until(lambda: len(worker.halves) == 3, "all closes")
        assert gateway.memory() < memory + MEBIBYTE, "who has gone is still there"


def a_worker_closes_once_all_is_out(work, _):
    with Gateway(work) as gateway:
        worker, client = gateway.workers[0], gateway.client()
        client.sendall(b"BIG %d\nQUIT\nPING\nPING\n" % (12 * MEBIBYTE))
        until(lambda: (CLOSE, 0, b"") in worker.frames, "the answer to the close")
        pong(gateway.client())
        assert received(client, 12 * MEBIBYTE + 6) == b"x" * 12 * MEBIBYTE + b"+OK\r\n"
        assert is_closed(client)
        assert worker.frames.count((CLOSE, 0, b"")) == 1
        client = gateway.client()
        pong(client)
        number = worker.frames[-1][1]
        # The gateway finds the close first, and then what the client has sent meanwhile.
        gateway.process.send_signal(signal.SIGSTOP)
        worker.closing.add(number)
        worker.send(frame(DATA, number, b"bye") + frame(CLOSE, number))
        client.sendall(b"PING\n")
        gateway.process.send_signal(signal.SIGCONT)
        assert received(client, 4) == b"bye", "it was reset"


def who_ends_its_input_gets_what_it_is_owed(work, _):
    with Gateway(work) as gateway:
        client = gateway.client()
        client.sendall(b"LATE 0.2\nBIG %d\nECHO last\n" % (9 * MEBIBYTE))
        client.shutdown(socket.SHUT_WR)
        want = b"late\n" + b"x" * 9 * MEBIBYTE + b"last\n"
        assert received(client, len(want)) == want
        assert is_closed(client)
        until(lambda: not gateway.workers[0].halves, "the close")
        gateway.workers[0].closes = False
        gateway.client().shutdown(socket.SHUT_WR)
        until(lambda: gateway.workers[0].withheld, "another close")
        assert gateway.rests(), "it waits for a close"


def a_wake_goes_to_every_worker(work, _):
    with Gateway(work, workers=3) as gateway:
        clients = [gateway.client() for _ in range(3)]
        for client in clients:
            pong(client)
        clients[1].sendall(b"WAKE\n")
        until(lambda: all(it.count(WAKE) for it in gateway.workers), "a wake for each")
        for client in clients * 3:
            pong(client)
        assert all(it.frames.count((WAKE, 0, b"")) == it.count(WAKE) == 1 for it in gateway.workers), "more than one wake"
        gateway.workers[0].reads.clear()
        fill(clients[0], b"NOTHING\n" * 8192, 1000)
        clients[1].sendall(b"WAKE\n" * 2000)
        until(lambda: all(it.count(WAKE) > 1 for it in gateway.workers[1:]), "more wakes")
        pong(clients[1])
        assert gateway.memory() < 16 * MEBIBYTE, gateway.memory()
        gateway.workers[0].reads.set()
        until(lambda: gateway.workers[0].count(WAKE) > 1, "a wake for the worker that was busy")


def too_many_are_refused(work, _):
    with Gateway(work, "--connections", "3", workers=2) as gateway:
        first, second = gateway.workers
        clients = [gateway.client() for _ in range(3)]
        for client in clients:
            pong(client)
        refused = []
        for _ in range(20):
            refused.append(time.monotonic())
            assert received(gateway.client(), 100) == b"-ERR max number of clients reached\r\n"
        until(lambda: b"rejected_connections 20" in first.notes(), "how many were refused")
        told = [int(it.split()[1]) for it in first.notes()]
        assert told == sorted(set(told)) and len(told) <= 2 + time.monotonic() - refused[0], told
        assert second.notes() == [], "the other worker is told too"
        clients.pop().close()
        until(lambda: sum(len(it.halves) for it in gateway.workers) == 2, "the close")
        # It comes behind the worker's close.
        pong(clients[0])
        pong(gateway.client())
        time.sleep(1.5)
        assert len(first.notes()) == len(told), "it is told again"


def idle_clients_are_closed(work, _):
    with Gateway(work, "--timeout", "3") as gateway:
        silent, sending, hearing = gateway.client(), gateway.client(), gateway.client()
        worker = gateway.workers[0]
        began = time.monotonic()
        for client in (silent, sending, hearing):
            pong(client)
        while not worker.count(CLOSE):
            sending.sendall(b"NOTHING\n")
            worker.send(frame(DATA, 2, b"."))
            time.sleep(0.02)
            assert time.monotonic() - began < PATIENCE, "nobody was closed"
        assert time.monotonic() - began >= 3, "it was closed too early"
        assert is_closed(silent)
        pong(sending)
        assert hearing.recv(1) == b"."
        assert worker.count(CLOSE) == 1


def clients_come_and_go_in_any_way(work, clients):
    lines = [b"PING\n", b"PI", b"BIG 300000\n", b"QUIT\nPING\n"] * 5 + [b"BIG 9000000\nQUIT\n"]
    with Gateway(work, workers=2) as gateway:
        for turn in range(clients):
            client = gateway.client()
            client.settimeout(0.05)
            how = random.randrange(6)
            with contextlib.suppress(OSError):
                if how > 0:
                    client.sendall(random.choice(lines))
                if how > 3:
                    client.recv(random.choice([1, 7, 70000]))
                if how in (1, 4):
                    client.setsockopt(socket.SOL_SOCKET, socket.SO_LINGER, struct.pack("ii", 1, 0))
                if how == 2:
                    client.shutdown(socket.SHUT_WR)
            gateway.clients.remove(client)
            client.close()
            if turn % 50 == 0:
                pong(gateway.client())
        for client in gateway.clients:
            pong(client)
        left = len(gateway.clients)
        until(lambda: sum(len(it.halves) for it in gateway.workers) == left, "all closes")
        assert gateway.rests()


TRIALS = [
    each_client_gets_its_own, bytes_come_one_by_one_and_many_at_once, who_does_not_read_is_closed_alone,
    who_reads_late_gets_all, a_busy_worker_stops_its_senders, numbers_are_never_used_again,
    a_worker_closes_once_all_is_out, who_ends_its_input_gets_what_it_is_owed, a_wake_goes_to_every_worker,
    too_many_are_refused, idle_clients_are_closed, clients_come_and_go_in_any_way, *gateway_ends.TRIALS,
    *gateway_links.TRIALS, *gateway_link_ends.TRIALS, *gateway_unauthenticated.TRIALS, *gateway_turns.TRIALS,
    *gateway_memory.TRIALS, *gateway_refused.TRIALS, *gateway_log.TRIALS,
]


def main():
    work, clients = sys.argv[1], int(sys.argv[2])
    files = resource.getrlimit(resource.RLIMIT_NOFILE)[1]
    resource.setrlimit(resource.RLIMIT_NOFILE, (files, files))
    # Threads here wait for each other often, and a switch is 5 ms else.
    sys.setswitchinterval(1e-4)
    named = sys.argv[3:]
    trials = [it for it in TRIALS if it.__name__ in named or not named]
    if len(named) == 1 and "/" in named[0]:
        first, step = map(int, named[0].split("/"))
        trials = TRIALS[first::step]
    wrong = 0
    for trial in trials:
        began = time.monotonic()
        try:
            trial(work, clients)
            told = "ok"
        except (AssertionError, OSError, subprocess.TimeoutExpired) as fault:
            wrong += 1
            told = f"FAILED: {type(fault).__name__} {fault}, line {fault.__traceback__.tb_next.tb_lineno}"
        # In one piece, since others write beside it.
        sys.stdout.write(f"{trial.__name__.replace('_', ' ')}: {told} ({time.monotonic() - began:.1f} s)\n")
        sys.stdout.flush()
    print(f"{len(trials)} trials of the gateway, {wrong} wrong")
    sys.exit(1 if wrong else 0)


if __name__ == "__main__":
    main()
