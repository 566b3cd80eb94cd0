"""Trials of gateway.py: how the gateway starts and ends, and what it lets the system give it."""
import contextlib
import os
import resource
import signal
import socket
import stat
import subprocess
import time

from gateway_parts import (CLOSE, DATA, HEAD, HOLDS, LET_IN, LET_OUT, MEBIBYTE, NOTE, OPEN, PATIENCE, WAKE, Gateway, is_closed, pong,
                         received, until)


def refused_memory_closes_one_client(work, _):
    limit = 400 * MEBIBYTE
    ample = ["--output-limit", str(1 << 40), "--clients-memory", str(1 << 40)]
    with Gateway(work, *ample, limits=[(resource.RLIMIT_AS, limit)]) as gateway:
        lazy, other = gateway.client(), gateway.client()
        for _ in range(100):
            with contextlib.suppress(OSError):
                lazy.sendall(b"BIG %d\n" % (4 * MEBIBYTE))
            pong(other)
        assert (CLOSE, 0, b"") in gateway.workers[0].frames
        assert gateway.process.poll() is None


def faults_at_the_start(work, _):
    program, pipe = os.path.join(work, "gateway"), os.path.join(work, "pipe")
    os.mkfifo(pipe)
    worker = ["--worker", pipe, pipe]

    def tell(status, want, *words):
        ran = subprocess.run([program, *words], stdin=subprocess.DEVNULL, capture_output=True, timeout=PATIENCE)
        told = ran.stderr.decode()
        assert (ran.returncode, ran.stdout) == (status, b"") and want in told, (words, ran)
        assert len(told.splitlines()) == (1 if status == 1 else 2), told

    with socket.create_server(("127.0.0.1", 0)) as taken:
        port = str(taken.getsockname()[1])
        tell(1, f"127.0.0.1:{port}: Address already in use", "--port", port, *worker)
    tell(1, "192.0.2.1:0: Cannot assign", "--port", "0", "--bind", "192.0.2.1", "--guarded", *worker)
    tell(1, "/none/socket: No such file", "--unix", "/none/socket", *worker)
    tell(1, "/none/pipe: No such file", "--port", "0", "--worker", "/none/pipe", pipe)
    tell(1, f"{program}: it is no pipe", "--port", "0", "--worker", pipe, program)
    tell(2, "there is no --worker", "--port", "0")
    tell(2, "neither --port nor --unix", *worker)
    tell(2, "--port 65536: no value", "--port", "65536", *worker)
    tell(2, "--timeout -1: no value", "--port", "0", "--timeout", "-1", *worker)
    tell(2, "--auth-timeout -1: no value", "--port", "0", "--auth-timeout", "-1", *worker)
    tell(2, "there are more than 64 --worker", "--port", "0", *worker * 65)
    tell(2, "there are more than 64 --far-link", "--port", "0", *worker, "--far-resp", "/a", *["--far-link", pipe, pipe] * 65)
    tell(2, "--bind here: no value", "--port", "0", "--bind", "here", *worker)
    for address in ("192.0.2.1", "0.0.0.0", "::"):
        tell(2, f"--bind {address} needs --guarded", "--port", "0", "--bind", address, *worker)
    tell(2, "--connections x: no value", "--port", "0", "--connections", "x", *worker)
    tell(2, "--output-limit : no value", "--port", "0", "--output-limit", "", *worker)
    tell(2, "--clients-memory 1m: no value", "--port", "0", "--clients-memory", "1m", *worker)
    tell(2, "--server-pid -1: no value", "--port", "0", "--server-pid", "-1", *worker)
    tell(2, "--worker lacks its value", "--port", "0", "--worker", pipe)
    tell(2, "--more is no option", "--more")


def a_signal_waits_for_replies(work, _):
    for name in (signal.SIGTERM, signal.SIGINT):
        with Gateway(work, workers=2, unix=True) as gateway:
            # Of what a Unix socket's client does not read most waits in the gateway.
            owed, silent = gateway.client(unix=True), gateway.client()
            pong(silent)
            owed.sendall(b"LATE 0.1\nBIG %d\n" % MEBIBYTE)
            until(lambda: gateway.workers[0].count(DATA) == 1, "the request")
            gateway.process.send_signal(name)
            time.sleep(0.03)
            with contextlib.suppress(OSError):
                owed.sendall(b"ECHO too late\n")
            want = b"late\n" + b"x" * MEBIBYTE
            assert received(owed, len(want)) == want
            assert is_closed(owed) and is_closed(silent)
            assert gateway.ended(0) == ""
            assert not gateway.path.exists()


def a_signal_waits_for_nothing_else(work, _):
    """The best of some times, as others may use the machine too."""
    def ends():
        with Gateway(work, workers=2) as gateway:
            for client in [gateway.client() for _ in range(4)]:
                pong(client)
            began = time.monotonic()
            gateway.process.terminate()
            assert gateway.ended(0) == ""
            return time.monotonic() - began
    assert any(ends() < 0.7 for _ in range(5)), "it waits though nothing is owed"


def a_signal_waits_a_second_at_most(work, _):
    with Gateway(work) as gateway:
        client = gateway.client()
        pong(client)
        gateway.workers[0].closes = False
        began = time.monotonic()
        gateway.process.terminate()
        time.sleep(0.1)
        gateway.process.send_signal(signal.SIGINT)
        time.sleep(0.1)
        assert gateway.rests(times=1), "it is busy at the end"
        assert gateway.ended(0) == ""
        assert 0.9 < time.monotonic() - began < 10
        assert is_closed(client)


def a_signal_ends_it_before_the_workers_come(work, _):
    gateway = Gateway(work, unix=True)
    until(gateway.path.exists, "the socket")
    time.sleep(0.1)
    gateway.process.terminate()
    assert gateway.ended(0) == ""
    assert not gateway.path.exists()
    gateway.__exit__()


def a_worker_that_fails_ends_it(work, _):
    # An unknown kind, an open, bytes where none may be, too many bytes, and a number where none may be.
    packets = [(8, 0, 0), (255, 0, 0), (OPEN, 0, 0), (CLOSE, 0, 1), (LET_IN, 0, 1), (LET_OUT, 0, 1), (WAKE, 0, 1),
               (DATA, 0, MEBIBYTE + 1), (NOTE, 0, 4097), (WAKE, 1, 0), (NOTE, 1, 0), (HOLDS, 0, 7), (HOLDS, 0, 9),
               (HOLDS, 99, 0)]
    faults = [b"DIE"] + [b"RAW " + (HEAD.pack(*it) + bytes(min(it[2], 7))).hex().encode() for it in packets]
    for fault in faults:
        with Gateway(work, workers=2, unix=True) as gateway:
            clients = [gateway.client() for _ in range(4)]
            for client in clients:
                pong(client)
            clients[1].sendall(fault + b"\n")
            told = gateway.ended(1)
            assert told.startswith("gateway: worker 1 has ended: ") and len(told.splitlines()) == 1, told
            assert all(is_closed(it) for it in clients)
            assert not gateway.path.exists()


def a_unix_socket_is_its_owners(work, _):
    with Gateway(work, unix=True) as gateway:
        mode = gateway.path.stat().st_mode
        assert stat.S_ISSOCK(mode) and stat.S_IMODE(mode) == 0o600, oct(mode)
        assert gateway.ready.split()[2] == str(gateway.path)
        pong(gateway.client(unix=True))
        pong(gateway.client())
        client = gateway.client(unix=True)
        client.sendall(b"BIG %d\nQUIT\n" % (9 * MEBIBYTE))
        assert received(client, 9 * MEBIBYTE + 6) == b"x" * 9 * MEBIBYTE + b"+OK\r\n"
        second = [os.path.join(work, "gateway"), "--unix", gateway.path, "--worker", *gateway.workers[0].paths]
        ran = subprocess.run(second, capture_output=True, timeout=PATIENCE)
        assert ran.returncode == 1 and str(gateway.path) in ran.stderr.decode()
        pong(gateway.client(unix=True))
        gateway.process.kill()
        gateway.process.wait()
        assert gateway.path.exists()
        third = Gateway(work, "--unix", str(gateway.path), port="")
        with third:
            assert third.ready == f"ready {gateway.path}\n"
            third.path = gateway.path
            pong(third.client(unix=True))


def too_few_files_are_told(work, _):
    gateway = Gateway(work, "--connections", "100", limits=[(resource.RLIMIT_NOFILE, 48)])
    with gateway:
        clients = [gateway.client() for _ in range(30)]
        for client in clients:
            pong(client)
        assert received(gateway.client(), 100) == b"-ERR max number of clients reached\r\n"
        gateway.process.terminate()
        assert gateway.ended(0) == "gateway: 30 connections at most, since 48 files may be open\n"


TRIALS = [
    refused_memory_closes_one_client, faults_at_the_start, a_signal_waits_for_replies, a_signal_waits_for_nothing_else,
    a_signal_waits_a_second_at_most, a_signal_ends_it_before_the_workers_come, a_worker_that_fails_ends_it,
    a_unix_socket_is_its_owners, too_few_files_are_told,
]
