"""Trials of server.py: who gets in, hostile and broken clients, and the limits that they meet."""
import contextlib
import random
import socket
import struct
import time
from pathlib import Path

from server_parts import MEBIBYTE, NONE, OK, PONG, Client, request, until

SEEDS = [request("SET", "k", "value"), request("GET", "k"), request("MSET", "a", "1", "b", "2"), request("INCR", "n"),
         request("PING"), request("MULTI") + request("GET", "k") + request("EXEC"), b"PING\r\nSET a 1\r\n", b"*-1\r\n",
         b"*0\r\n", b"*1\r\n$-1\r\n", b"*3\r\n$3\r\nSET\r\n$1\r\nk\r\n$99999999\r\n", b"*2147483648\r\n",
         b"$5\r\nhello\r\n", request("SCAN", "0", "COUNT", "10"),
         request("SETRANGE", "k", "100", "x"), request("HELLO", "2"), request("INFO"), request("CLIENT", "SETNAME", "x"),
         request("EXPIRE", "k", "100"), request("APPEND", "k", "y" * 50), b"GET / HTTP/1.1\r\nHost: here\r\n\r\n", b"\x00" * 40]


def mutated(data):
    data = bytearray(data)
    for _ in range(random.randrange(1, 6)):
        at = random.randrange(len(data) + 1)
        how = random.randrange(4)
        if how == 0:
            data[at:at] = bytes([random.randrange(256)])
        elif how == 1:
            del data[at:at + random.randrange(1, 4)]
        elif how == 2 and at < len(data):
            data[at] = random.choice(b"\r\n$*0123456789-+ \x00\xff")
        else:
            data[at:at] = data[:random.randrange(len(data) + 1)]
    return bytes(data)


def hostile():
    draw = random.random()
    if draw < 0.2:
        return random.randbytes(random.randrange(1, 80))
    return mutated(random.choice(SEEDS)) if draw < 0.8 else random.choice(SEEDS)


def hostile_bytes_are_answered_or_refused(tried, counts):
    """Each connection gets some strings, and ends: it has got nothing but replies, and is closed."""
    seed = random.randrange(1 << 32)
    random.seed(seed)
    sent, done = 0, 0
    while done < counts["strings"]:
        strings = [hostile() for _ in range(random.randrange(1, 6))]
        done += len(strings)
        with Client(tried.server.address) as client:
            with contextlib.suppress(ConnectionResetError, BrokenPipeError):
                client.send(b"".join(strings))
                if random.random() < 0.2:
                    continue
                client.socket.shutdown(socket.SHUT_WR)
                try:
                    while True:
                        client.reply()
                except EOFError as end:
                    assert end.args[0] == b"", f"seed {seed}, strings {strings}: a reply is cut: {end}"
        sent += 1
        if sent % 100 == 0:
            tried.server.answers()
    tried.server.answers()


def broken_clients_harm_nobody(tried, counts):
    server = tried.server
    for part in (b"*3\r\n$3\r\nSET\r\n$4\r\nhalf\r\n$10\r\n12345", b"*1\r\n$4\r\nPI", b"PING", b"*2\r\n"):
        half = server.client()
        half.send(part)
        server.answers()
    with Client(server.address) as client:
        client.send(b"*2\r\n$3\r\nGET\r\n")
        time.sleep(0.05)
        client.send(b"$4\r\nha")
        time.sleep(0.05)
        client.send(b"lf\r\n" + request("PING"))
        assert client.reply() == NONE and client.reply() == PONG
    for turn in range(counts["clients"]):
        client = Client(server.address)
        client.send(random.choice([request("PING"), b"*1\r\n$4\r\nPI", request("GET", "k") * 50]))
        if turn % 2:
            client.socket.setsockopt(socket.SOL_SOCKET, socket.SO_LINGER, struct.pack("ii", 1, 0))
        client.close()
    many = [server.client() for _ in range(counts["clients"])]
    for client in many:
        client.send(request("ECHO", id(client)))
    for client in many:
        assert client.reply() == b"$%d\r\n%d\r\n" % (len(str(id(client))), id(client))
    server.answers()


def who_never_reads_harms_nobody(tried, _):
    with tried.start() as server:
        lazy, other = server.client(), server.client()
        assert lazy.ask("PING") == PONG and other.ask("SET", "large", b"x" * 60000) == OK
        before = 0 if tried.is_redis else server.files("gateway")
        lazy.socket.settimeout(1)
        with contextlib.suppress(OSError):
            for _ in range(40):
                lazy.send(request("GET", "large") * 100)
                assert other.ask("PING") == PONG
        server.answers()
        if not tried.is_redis:
            # Its replies pass what may wait for a client.
            until(lambda: server.files("gateway") < before, "the end of who never reads")
            assert lazy.is_ended(), "it is not closed"
        lazy.close()
        assert other.ask("PING") == PONG


def limits_are_told(tried, _):
    if tried.is_redis:
        return
    with tried.start("--value-limit", "1000") as server:
        client = server.client()
        assert client.ask("SET", "k", b"x" * 1000) == OK
        for words in (("SET", "k", b"x" * 1001), ("APPEND", "k", "y"), ("SETRANGE", "k", 1000, "y"), ("MSET", "a", b"x" * 1001)):
            told = client.ask(*words)
            assert told == b"-ERR string exceeds maximum allowed size (proto-max-bulk-len)\r\n", (words[0], told)
        for length in (65_529, 70_000):
            long = b"k" * length
            for words in (("SET", long, "1"), ("GET", long), ("INCR", long), ("MSET", "a", "b", long, "1"), ("DEL", long)):
                told = client.ask(*words)
                assert told == b"-ERR key is too long\r\n", (words[0], told)
        assert client.ask("SET", b"k" * 65_528, "1") == OK
        assert client.value("GET", "k") == b"x" * 1000
        told = client.ask("MGET", *["k"] * 70000)
        assert told.startswith(b"-ERR Protocol error"), told
        assert client.is_ended()
        client = server.client()
        with contextlib.suppress(OSError):
            client.send(b"*2\r\n$4\r\nECHO\r\n$%d\r\n" % (64 * MEBIBYTE))
            assert client.reply().startswith(b"-ERR Protocol error")
            assert client.is_ended()
        client = server.client()
        with contextlib.suppress(OSError):
            client.send(b"PING " + b"x" * 200000)
            assert client.reply().startswith(b"-ERR Protocol error")
        server.answers()


def a_byte_in_place_of_a_mark_is_named(tried, _):
    """Also where that byte would end the error's line. Of redis-server these are the same."""
    for byte, shown in ((b"f", b"f"), (b"3", b"3"), (b"'", b"'"), (b"\r", b" "), (b"\n", b" "), (b"\xff", b"\xff")):
        client = tried.server.client()
        # redis-server looks at it once the line is there.
        client.send(b"*2\r\n$4\r\nECHO\r\n" + byte + b"3\r\n")
        told = client.reply()
        assert told == b"-ERR Protocol error: expected '$', got '" + shown + b"'\r\n", (byte, told)
        assert client.is_ended()


def silent_clients_are_closed(tried, _):
    if tried.is_redis:
        return
    with tried.start("--timeout", "2") as server:
        silent, busy = server.client(), server.client()
        assert silent.ask("PING") == PONG
        began = time.monotonic()
        while time.monotonic() - began < 3.5:
            assert busy.ask("PING") == PONG
            time.sleep(0.1)
        assert silent.is_ended()


def a_password_is_asked_for(tried, _):
    file = Path(tried.work) / "password"
    file.write_text("open sesame\nanother line\n")
    with tried.start("--password-file", file) as server:
        client = server.client()
        for words in (("GET", "k"), ("SET", "k", "1"), ("PING",), ("INFO",), ("MULTI",), ("FLUSHALL",)):
            told = client.ask(*words)
            assert told.startswith(b"-NOAUTH "), (words, told)
        for wrong in ("", "open", "open sesam", "open sesame ", "open sesame\n", "Open sesame", "another line", "x" * 5000):
            told = client.ask("AUTH", wrong)
            assert told.startswith(b"-WRONGPASS "), (wrong, told)
            assert client.ask("AUTH", "default", wrong).startswith(b"-WRONGPASS ")
            assert client.ask("GET", "k").startswith(b"-NOAUTH ")
        assert client.ask("AUTH", "somebody", "open sesame").startswith(b"-WRONGPASS ")
        assert client.ask("AUTH", "open sesame") == OK and client.ask("GET", "k") == NONE
        # One's leave is no other's, and a number that is used again has none.
        assert server.client().ask("GET", "k").startswith(b"-NOAUTH ")
        client.close()
        for _ in range(8):
            assert server.client().ask("GET", "k").startswith(b"-NOAUTH ")
        greeted = server.client()
        assert greeted.ask("HELLO", "2", "AUTH", "default", "open").startswith(b"-WRONGPASS ")
        assert greeted.ask("HELLO", "2").startswith(b"-NOAUTH ")
        assert b"server" in greeted.ask("HELLO", "2", "AUTH", "default", "open sesame")
        assert greeted.ask("SET", "k", "1") == OK
        assert greeted.ask("RESET") == b"+RESET\r\n" and greeted.ask("GET", "k").startswith(b"-NOAUTH ")


TRIALS = [hostile_bytes_are_answered_or_refused, broken_clients_harm_nobody, who_never_reads_harms_nobody, limits_are_told,
          a_byte_in_place_of_a_mark_is_named, silent_clients_are_closed, a_password_is_asked_for]
