"""Trials of gateway.py: how links start and end, and what they count as."""
import os
import resource
import subprocess
from pathlib import Path

from gateway_parts import CLOSE, DATA, HEAD, MEBIBYTE, OPEN, PATIENCE, frame, is_closed, pong, received, until
from gateway_stores import PING, SHORT, FarGateway, Store, exchange, free_port, joined, opened


def a_fault_of_the_store_at_the_start(work, _):
    program, pipe, file = Path(work, "gateway"), Path(work, "far-pipe"), Path(work, "password")
    os.mkfifo(pipe)
    words = ["--port", "0", "--worker", pipe, pipe]
    link = ["--far-link", pipe, pipe]

    def tell(status, want, *more):
        ran = subprocess.run([program, *words, *more], stdin=subprocess.DEVNULL, capture_output=True, timeout=PATIENCE)
        assert (ran.returncode, ran.stdout) == (status, b"") and want in ran.stderr.decode(), ran

    def refused(why, *greeting, more=(), closes=False):
        with Store(greeting=greeting) as store:
            store.closes = closes
            tell(1, f"gateway: far store {store.address}: {why}\n", "--far-resp", store.address, *SHORT, *link, *more)

    tell(1, f"far store {work}/none: No such file", "--far-resp", f"{work}/none", *link)
    tell(1, "Connection refused", "--far-resp", f"127.0.0.1:{free_port()}", *link)
    tell(1, "Connection refused", "--far-resp", f"localhost:{free_port()}", *link)
    refused("no answer within 1 seconds", (PING, b""))
    refused("no answer within 1 seconds", (PING, b"+PON"))
    refused("it closes the connection", (PING, b""), closes=True)
    refused("it asks for a password", (PING, b"-NOAUTH Authentication required.\r\n"))
    refused("it replies -LOADING \\x1b", (PING, b"-LOADING \x1b\r\n"))
    refused("it replies " + 256 * "x", (PING, 9000 * b"x"))
    file.write_text("the word\r\nmore")
    auth = b"*2\r\n$4\r\nAUTH\r\n$8\r\nthe word\r\n"
    for reply in (b"-WRONGPASS so\r\n", b"-ERR AUTH <password> called without any\r\n"):
        refused("it refuses the password", (auth, reply), more=("--far-password-file", file))
    refused("it replies -NOPERM", (auth, b"+OK\r\n"), (PING, b"-NOPERM\r\n"), more=("--far-password-file", file))
    file.write_text("\nmore")
    there = ["--far-resp", "127.0.0.1:1", *link, "--far-password-file"]
    tell(1, f"gateway: --far-password-file {file}: its first line is empty\n", *there, file)
    tell(1, f"gateway: --far-password-file {work}/none: No such file", *there, f"{work}/none")
    tell(2, "--far-link needs --far-resp", *link)
    tell(2, "--far-resp needs --far-link", "--far-resp", "127.0.0.1:1")
    tell(2, "--far-link lacks its value", "--far-link", pipe)
    for address in ("", "6379", ":6379", "here", "here:", "here:65536", "here:-1"):
        tell(2, f"--far-resp {address}: no value", "--far-resp", address, *link)
    for seconds in ("0", "3601", "-1", "x"):
        tell(2, f"--far-timeout {seconds}: no value", "--far-resp", "127.0.0.1:1", *link, "--far-timeout", seconds)


def a_signal_ends_it_before_the_store_answers(work, _):
    with Store(greeting=[(PING, b"")]) as store:
        gateway = FarGateway(work, store.address, "--far-timeout", "3600")
        until(lambda: store.greeted, "a greeting")
        gateway.process.terminate()
        assert gateway.ended(0) == ""
        gateway.__exit__()


def a_link_that_fails_ends_it(work, _):
    faults = {frame(CLOSE, 1): "invalid", frame(9, 1): "invalid", frame(OPEN, 1, b"x"): "invalid",
              HEAD.pack(DATA, 1, MEBIBYTE + 1): "invalid", b"": "unexpected end"}
    for fault, why in faults.items():
        with Store() as store, FarGateway(work, store.address, links=2) as gateway:
            client = gateway.client()
            pong(client)
            gateway.devices[1].sendall(fault)
            if not fault:
                os.close(gateway.devices[1].output)
            told = gateway.ended(1)
            assert told.startswith(f"gateway: far link 1 has ended: {why}") and len(told.splitlines()) == 1, told
            assert is_closed(client)


def a_link_goes_on_while_replies_are_owed(work, _):
    with Store() as store, FarGateway(work, store.address) as gateway:
        device, client = gateway.device, gateway.client()
        pong(client)
        gateway.workers[0].closes = False
        gateway.process.terminate()
        until(lambda: gateway.workers[0].withheld, "the close")
        exchange(device, opened(device, store, 1, 0), 1)
        exchange(device, opened(device, store, 2, 1), 2)
        gateway.workers[0].send(frame(DATA, 0, b"a last reply") + frame(CLOSE, 0))
        assert received(client, 100) == b"a last reply"
        assert gateway.ended(0) == ""


def files_of_links_are_counted(work, _):
    with Store() as store:
        limits = [(resource.RLIMIT_NOFILE, 48)]
        with FarGateway(work, store.address, "--connections", "100", links=3, limits=limits) as gateway:
            joined(gateway, store)
            for client in [gateway.client() for _ in range(18)]:
                pong(client)
            assert received(gateway.client(), 100) == b"-ERR max number of clients reached\r\n"
            until(lambda: len(store.greeted) == 6, "the spares")
            assert gateway.process.poll() is None


TRIALS = [
    a_fault_of_the_store_at_the_start, a_signal_ends_it_before_the_store_answers, a_link_that_fails_ends_it,
    a_link_goes_on_while_replies_are_owed, files_of_links_are_counted,
]
