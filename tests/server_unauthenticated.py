"""Trials of server.py: what a client may ask for before it has given the password. redis-server passes those of its limits."""
import contextlib
import socket
import time
from pathlib import Path

from server_parts import MEBIBYTE, NONE, OK, PATIENCE, Client, request, until

PASSWORD = "open sesame"
NOAUTH = b"-NOAUTH Authentication required.\r\n"
MANY = b"-ERR Protocol error: unauthenticated multibulk length\r\n"
LONG = b"-ERR Protocol error: unauthenticated bulk length\r\n"
LINE = b"-ERR Protocol error: too big inline request\r\n"
AUTH = request("AUTH", PASSWORD)
# The most arguments of a request, and the most bytes of each.
ARGUMENTS, BYTES = 10, 16384


def guarded(tried, *options):
    file = Path(tried.work) / "a-password"
    file.write_text(PASSWORD + "\n")
    return tried.start("--password-file", file, *options)


def is_told(server, sent, want):
    """Sends this in one piece and sees that these replies come, and then the end."""
    with Client(server.address) as client:
        client.send(sent)
        told = client.input.read(len(want))
        assert told == want, (sent[:60], told, want)
        assert client.is_ended(), (sent[:60], "it is not closed")


def requests_are_short_before_a_password(tried, _):
    beyond = [(b"*11\r\n", MANY), (b"*1000000\r\n$4\r\nPING\r\n", MANY), (b"*3\r\n$3\r\nSET\r\n$1\r\nk\r\n$16385\r\nxxx", LONG),
              (b"*1\r\n$500000000\r\n", LONG), (request("SET", "k", b"x" * (BYTES + 1)), LONG)]
    if not tried.is_redis:
        beyond += [(b"GET " + b"x" * BYTES, LINE), (b"y" * 20000 + b"\n", LINE)]
    before = [(b"", b""), (request("GET", "k") * 3 + b"PING\r\n", NOAUTH * 4),
              (request("AUTH", "wrong"), b"-WRONGPASS invalid username-password pair or user is disabled.\r\n")]
    with guarded(tried) as server:
        for sent, error in beyond:
            for first, replies in before:
                is_told(server, first + sent, replies + error)
        with Client(server.address) as client:
            for words in (["DEL"] + [b"x" * BYTES] * (ARGUMENTS - 1), ["GET", b"x" * BYTES]):
                assert client.ask(*words) == NOAUTH
            client.send(b"GET " + b"x" * (BYTES - 4) + b"\n")
            assert client.reply() == NOAUTH


def a_password_may_come_with_what_it_lets_in(tried, counts):
    long, many = request("SET", "long", b"x" * 20000), request("DEL", *range(12))
    with guarded(tried) as server:
        whole = AUTH + long + many + request("STRLEN", "long") + request("QUIT")
        want = OK + OK + b":0\r\n:20000\r\n" + OK
        # In one piece, in two that are cut in each place about the password's end, and in small ones.
        cuts = [[], *([at] for at in range(len(AUTH) - 3, len(AUTH) + 40, 4)), list(range(7, 200, 7))]
        for places in cuts:
            with Client(server.address) as client:
                client.socket.setsockopt(socket.IPPROTO_TCP, socket.TCP_NODELAY, 1)
                for at, end in zip([0, *places], [*places, len(whole)]):
                    client.send(whole[at:end])
                    time.sleep(0.001)
                told = client.input.read(len(want))
                assert told == want, (places, told)
                assert client.is_ended()
        with Client(server.address) as client:
            client.send(request("HELLO", "2", "AUTH", "default", PASSWORD) + request("SET", "k", b"y" * (1 << 19)))
            assert b"server" in client.reply() and client.reply() == OK
            assert len(client.value("GET", "k")) == 1 << 19
        # Many at once, each with its own password or a wrong one.
        clients = [server.client() for _ in range(min(counts["clients"], 200))]
        for number, client in enumerate(clients):
            client.send(request("AUTH", PASSWORD if number % 2 else "wrong") + request("SET", number, b"z" * 20000))
        for number, client in enumerate(clients):
            told = [client.reply(), client.reply()]
            assert told[1] == (OK if number % 2 else LONG), (number, told)
            client.close()


def limits_hold_again_after_a_reset(tried, _):
    long = request("SET", "k", b"x" * 20000)
    with guarded(tried) as server:
        client = server.client()
        for _ in range(3):
            client.send(AUTH + long)
            assert [client.reply(), client.reply()] == [OK, OK]
            assert client.ask("RESET") == b"+RESET\r\n" and client.ask("GET", "k") == NOAUTH
        client.send(long)
        assert client.reply() == LONG and client.is_ended()
        # What comes with the RESET may be with the server already, which refuses it.
        client = server.client()
        client.send(AUTH + request("RESET") + request("SET", "k", b"y" * 20000))
        assert [client.reply(), client.reply()] == [OK, b"+RESET\r\n"]
        assert client.reply() in (LONG, NOAUTH)
        client = server.client()
        assert client.ask("AUTH", PASSWORD) == OK
        assert client.value("GET", "k") == b"x" * 20000


def who_gives_no_password_in_time_is_closed(tried, _):
    if tried.is_redis:
        return
    with guarded(tried, "--auth-timeout", 1) as server:
        began = time.monotonic()
        silent, authenticated, busy = [server.client() for _ in range(3)]
        assert authenticated.ask("AUTH", PASSWORD) == OK
        with contextlib.suppress(OSError, EOFError):
            while True:
                assert busy.ask("PING") == NOAUTH
                assert time.monotonic() - began < PATIENCE, "it was not closed"
                time.sleep(0.02)
        assert time.monotonic() - began >= 1, time.monotonic() - began
        assert silent.is_ended()
        time.sleep(1)
        assert authenticated.ask("GET", "k") == NONE
        assert authenticated.ask("RESET") == b"+RESET\r\n" and authenticated.is_ended()
    with tried.start("--auth-timeout", 1) as server:
        # There is no password to give.
        client = server.client()
        client.send(request("SET", "k", b"x" * 20000))
        assert client.reply() == OK
        time.sleep(2.5)
        assert len(client.value("GET", "k")) == 20000


def who_never_reads_gets_little_before_a_password(tried, _):
    if tried.is_redis:
        return
    with guarded(tried, "--auth-timeout", 0) as server:
        lazy = server.client()
        assert lazy.ask("PING") == NOAUTH
        before = server.files("gateway")
        with contextlib.suppress(ConnectionResetError, BrokenPipeError):
            # Their replies are 64 MiB, more than the system keeps, and no more than may wait for one that gave the password.
            for _ in range(400):
                lazy.send(request("PING") * 4900)
        until(lambda: server.files("gateway") < before, "the end of who never reads")
        memory = Path(f"/proc/{server.pid('gateway')}/statm").read_text().split()[1]
        assert int(memory) * 4096 < 24 * MEBIBYTE, memory
        with Client(server.address) as client:
            assert client.ask("AUTH", PASSWORD) == OK


TRIALS = [requests_are_short_before_a_password, a_password_may_come_with_what_it_lets_in, limits_hold_again_after_a_reset,
          who_gives_no_password_in_time_is_closed, who_never_reads_gets_little_before_a_password]
