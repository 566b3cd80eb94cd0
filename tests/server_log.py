"""Trials of server.py: SLOWLOG, and the log on standard error."""
import os
import re
import signal
import subprocess
import time
from pathlib import Path

from server_keys import side_by_side
from server_parts import MEBIBYTE, OK, PATIENCE, PONG, ROOT, Redis, children, request, until
from stores_parts import Store

LINE = re.compile(r"\d{4}-\d\d-\d\dT\d\d:\d\d:\d\d\.\d{3}[+-]\d\d:\d\d (warning|notice|debug) (.+)")
SECRET = b"a-word-that-nobody-reads"


def entries(client, *count):
    """What SLOWLOG GET replies, each entry as a list of bytes, numbers and lists."""
    client.send(request("SLOWLOG", "GET", *count))
    return item(client)


def item(client):
    line = client.input.readline()
    if line[:1] == b":":
        return int(line[1:])
    count = int(line[1:])
    if line[:1] == b"*":
        return [item(client) for _ in range(count)]
    assert line[:1] == b"$", line
    return client.input.read(count + 2)[:-2]


def log_lines(server):
    """The level and the text of each line of the log."""
    return [it.groups() for it in map(LINE.fullmatch, server.text().splitlines()) if it]


def has_line(server, level, part):
    return any(it[0] == level and part in it[1] for it in log_lines(server))


def slow_commands_are_kept(tried, _):
    with tried.start("--slow", 0) as server:
        client = server.client()
        name = "%s:%d" % client.socket.getsockname()
        assert client.ask("CLIENT", "SETNAME", "me") == OK
        assert client.ask("SET", "k", "v") == OK
        (number, began, took, words, address, who), *rest = entries(client)
        assert words == [b"SET", b"k", b"v"] and address.decode() == name and who == b"me", (words, address, who)
        assert abs(began - time.time()) < PATIENCE and 0 <= took < PATIENCE * 1_000_000, (began, took)
        assert [it[0] for it in rest] == list(range(number - 1, -1, -1)), rest
        # What is queued, and what is no command, is not kept. Each command of an EXEC is.
        assert client.ask("SLOWLOG", "RESET") == OK
        assert client.ask("MULTI") == OK
        client.ask("INCR", "n")
        client.ask("GET", "k")
        client.ask("EXEC")
        client.ask("NONSENSE", SECRET)
        client.ask("GET")
        assert [it[3] for it in entries(client, 3)] == [[b"GET", b"k"], [b"INCR", b"n"], [b"SLOWLOG", b"RESET"]]
        # 128 at most, and as many as are asked for.
        client.ask_all([("PING",)] * 200)
        assert client.number("SLOWLOG", "LEN") == 128
        assert len(entries(client)) == 10 and len(entries(client, 3)) == 3 and entries(client, 0) == []
        assert len(entries(client, -1)) == len(entries(client, 1000)) == 128
        assert client.ask("SLOWLOG", "GET", -2)[:1] == client.ask("SLOWLOG", "GET", "x")[:1] == b"-"
        assert client.strings("CONFIG", "GET", "slowlog*") == [b"slowlog-log-slower-than", b"0", b"slowlog-max-len", b"128"]
    with tried.start() as server:
        client = server.client()
        assert client.ask("SET", "k", "v") == OK and entries(client, -1) == []
        # A command on many keys takes longer than a hundredth of a second.
        client.ask("MSET", *[it for at in range(30_000) for it in (f"key{at}", at)])
        assert [it[3][:2] for it in entries(client)] == [[b"MSET", b"key0"]] and entries(client)[0][2] >= 10_000
        until(lambda: has_line(server, "notice", "1 slow commands; the slowest, MSET, took "), "a line about a slow command")
        assert "key0" not in server.text()
    with tried.start("--slow", -1) as server:
        client = server.client()
        client.ask("MSET", *[it for at in range(30_000) for it in (f"key{at}", at)])
        assert entries(client, -1) == []


def slow_commands_are_cut_as_redis_cuts_them(tried, _):
    asked = [("SET", "k", b"x" * 127), ("SET", "k", b"x" * 128), ("SET", "k", b"x" * 129), ("SET", b"y" * 1000, b"x" * 100_000),
             ("DEL", *range(30)), ("DEL", *range(31)), ("DEL", *range(32)), ("DEL", *range(500)), ("del", "a\r\nb\0"),
             ("CLIENT", "SETNAME", "n" * 300), ("ECHO", "named")]
    told = []
    for start in (lambda: tried.start("--slow", 0), lambda: Redis(tried.work)):
        with start() as server:
            client = server.client()
            client.ask("CONFIG", "SET", "slowlog-log-slower-than", 0)
            client.ask_all(asked)
            told.append([(it[3], it[5]) for it in entries(client, len(asked))])
    assert told[0] == told[1] and len(told[0]) == len(asked), told


def no_password_is_shown(tried, _):
    file = Path(tried.work) / "log-password"
    file.write_bytes(SECRET + b"\n")
    file.chmod(0o600)
    with tried.start("--slow", 0, "--log-level", "debug", "--password-file", file) as server:
        client = server.client()
        assert client.ask("AUTH", b"wrong" + SECRET)[:1] == client.ask("GET", SECRET)[:1] == b"-"
        assert client.ask("AUTH", SECRET) == OK
        # Nothing that an unauthenticated client sends is kept.
        assert entries(client, -1) == []
        for words in (("AUTH", SECRET), ("AUTH", "default", SECRET), ("HELLO", 2, "AUTH", "default", SECRET, "SETNAME", "me"), ("AUTHH", SECRET),
                      ("AUTH", "default", SECRET, "more"), ("HELLO", "AUTH", "default", SECRET)):
            client.ask(*words)
        client.ask("HELLO", 2, "SETNAME", "me")
        told = entries(client, -1)
        assert SECRET not in repr(told).encode(), told
        hidden = b"(redacted)"
        assert [it[3] for it in told] == [[b"HELLO", b"2", b"SETNAME", b"me"], [b"HELLO"] + [hidden] * 6, [b"AUTH", hidden, hidden],
                                          [b"AUTH", hidden], [b"SLOWLOG", b"GET", b"-1"]], told
        time.sleep(2.2)
        server.process.terminate()
        text = server.ended(0)
        assert SECRET.decode() not in text and has_line(server, "notice", f"--password-file {file}"), text


def the_log_has_times_and_levels(tried, _):
    with tried.start("--maxclients", 3) as server:
        clients = [server.client() for _ in range(3)]
        assert all(it.ask("PING") == PONG for it in clients)
        version = (ROOT / "VERSION").read_text().strip()
        (level, first), (_, ready), *_ = log_lines(server)
        assert level == "notice" and first.startswith(f"starts: farserve {version} --memory 64m --port 0 --maxclients 3 --far "), first
        assert ready.startswith(f"ready 127.0.0.1:{server.port()}: 4 threads, 3 connections at most"), ready
        refused = 0
        end = time.monotonic() + 3
        while time.monotonic() < end:
            with server.client() as more:
                assert more.is_ended()
            server.clients.pop()
            refused += 1
        time.sleep(2.2)
        server.process.terminate()
        server.ended(0)
        told = [text for level, text in log_lines(server) if level == "warning"]
        assert refused > 20 and 3 <= len(told) <= 6, (refused, told)
        assert log_lines(server)[-1] == ("notice", "ends: a signal came"), server.text()
        # What was chosen, and whether the build is proved.
        others = [it for it in server.text().splitlines() if not LINE.fullmatch(it)]
        assert len(others) <= 2 and all(it.startswith("farserve: ") for it in others), others


def a_log_that_nobody_reads_stops_nothing(tried, _):
    words = [ROOT / "bin/farserve", "--memory", "64m", "--port", 0, "--slow", 0, "--log-level", "debug"]
    pipes = {"stdin": subprocess.DEVNULL, "stdout": subprocess.PIPE, "stderr": subprocess.PIPE}
    process = subprocess.Popen([str(it) for it in words], start_new_session=True, **pipes)
    try:
        address = process.stdout.readline().decode().split()[1].rsplit(":", 1)
        gateway = next(it for it in children(process.pid) if "gateway" in os.readlink(f"/proc/{it}/exe"))
        with open(f"/proc/{gateway}/fd/2", "wb", buffering=0) as full:
            os.set_blocking(full.fileno(), False)
            while full.write(b"x" * 4096):
                pass
        end, count = time.monotonic() + 8, 0
        while time.monotonic() < end:
            ran = subprocess.run(["redis-cli", "-h", address[0], "-p", address[1], "PING"], capture_output=True, timeout=PATIENCE)
            assert ran.stdout == b"PONG\n", ran
            count += 1
        process.send_signal(signal.SIGTERM)
        assert process.wait(PATIENCE) == 0
    finally:
        if process.poll() is None:
            os.killpg(process.pid, signal.SIGKILL)
        process.stdout.close()
        process.stderr.close()
    return f"({count} connections)"


def what_goes_on_is_a_line(tried, _):
    """Evictions, renewals and a store that goes away and comes back."""
    with tried.start("--policy", "allkeys", "--buckets", 128, "--names", 2048, memory="32m", far=None) as server:
        client = server.client()
        for at in range(300):
            assert client.ask("SET", f"key{at}", b"x" * 100_000) == OK
        until(lambda: has_line(server, "notice", "evictions begin: the memory is full"), "a line about evictions")
        client.ask_all([("INCR", "n")] * 3000)
        until(lambda: has_line(server, "notice", "renewal "), "a line about a renewal")
        until(lambda: has_line(server, "notice", "evictions have ended: "), "the end of evictions")
    with Store(tried.work) as store, tried.start("--far-resp", store.address, "--far-timeout", 2, memory="48m", far=None) as server:
        client = server.client()
        for at in range(1500):
            assert client.ask("SET", f"key{at}", b"x" * 30_000) == OK
        store.kill()
        client.ask_all([("GET", f"key{at}") for at in range(200)])
        until(lambda: has_line(server, "warning", f"far store {store.address}: "), "a line about the store")
        until(lambda: has_line(server, "warning", "devices have failed: "), "a line about the devices")


def values_make_no_line(tried, _):
    """Under load there are a few lines a second, and none has a key or a value."""
    with tried.start("--slow", 0, "--log-level", "debug") as server:
        def load(at, client):
            end = time.monotonic() + 4
            while time.monotonic() < end:
                client.ask_all([("SET", f"{SECRET.decode()}{at}", SECRET * 10)] * 200)
                with server.client() as other:
                    other.ask("GET", SECRET)

        began = time.monotonic()
        side_by_side(load, [server.client() for _ in range(4)])
        server.process.terminate()
        server.ended(0)
        took = time.monotonic() - began
        told = log_lines(server)
        assert len(told) <= 5 * (took + 1) + 3 and SECRET.decode() not in server.text(), (took, server.text())
        return f"({len(told)} lines in {took:.0f} s)"


TRIALS = [slow_commands_are_kept, slow_commands_are_cut_as_redis_cuts_them, no_password_is_shown, the_log_has_times_and_levels,
          a_log_that_nobody_reads_stops_nothing, what_goes_on_is_a_line, values_make_no_line]
