"""What fardump.py tries: bin/fardump, the files that it makes, and servers that do not behave as they should."""
import contextlib
import os
import re
import socket
import subprocess
import sys
import threading
from pathlib import Path

from server_parts import OK, PATIENCE, ROOT, Farserve, Redis, request

sys.path.insert(0, str(ROOT / "bin"))
import dump_file
import dump_source
import resp

PROGRAM = ROOT / "bin/fardump"
# A deadline that is far off, in milliseconds since 1970.
LATER = 4_102_444_800_000


class Tried:
    """A folder for the trials, and servers and dumps of theirs."""

    def __init__(self, work, is_long):
        self.work, self.is_long, self.made = Path(work), is_long, 0
        runtime = self.work / "runtime"
        runtime.mkdir()
        os.environ["XDG_RUNTIME_DIR"] = str(runtime)

    def folder(self):
        self.made += 1
        folder = self.work / str(self.made)
        folder.mkdir()
        return folder

    def farserve(self, *options, **how):
        return Farserve(self.folder(), *options, **how)

    def redis(self, *options):
        return Redis(self.folder(), *options)

    def file(self):
        return self.folder() / "dump.resp"


def words_for(server):
    """The options that name a server."""
    return ["--port", server.port()] if hasattr(server, "process") else server


def started(*words, **how):
    pipes = {"stdin": subprocess.DEVNULL, "stdout": subprocess.PIPE, "stderr": subprocess.PIPE}
    return subprocess.Popen([str(it) for it in (PROGRAM, *words)], **{**pipes, **how})


def ran(*words, **how):
    """Runs fardump to its end: its status, and what it wrote."""
    process = started(*words, **how)
    try:
        out, said = process.communicate(timeout=6 * PATIENCE)
    finally:
        process.kill()
    said = (said or b"").decode()
    assert "Traceback" not in said, said
    return process.returncode, out, said


def dumped(server, file):
    """Makes the dump of a server, and gives what it has."""
    told = ran(*words_for(server), file)
    assert told == (0, b"", ""), told
    return pairs_in(file)


def fails(status, text, *words, **how):
    """Fardump has to end with this status, and one line that has the text."""
    told, out, said = ran(*words, **how)
    assert told == status and not out and text in said, (told, out[:80], said)
    if status == 1:
        assert said.startswith("fardump: ") and len(said.splitlines()) == 1, said
    return said


def is_whole(file, count):
    assert ran("--check", file) == (0, b"ok %d keys\n" % count, ""), ran("--check", file)
    assert not Path(f"{file}.part").exists()


def commands_in(data):
    """The commands of a file, by a reader that knows nothing of fardump's."""
    at, found = 0, []

    def line():
        nonlocal at
        end = data.index(b"\r\n", at)
        text, at = data[at:end], end + 2
        return text

    while at < len(data):
        words = []
        for _ in range(int(line()[1:])):
            length = int(line()[1:])
            words.append(data[at:at + length])
            assert data[at + length:at + length + 2] == b"\r\n"
            at += length + 2
        found.append(words)
    return found


def pairs_in(file):
    """The keys of a dump, each with its value and its deadline."""
    select, *sets, last = commands_in(Path(file).read_bytes())
    assert select == [b"SELECT", b"0"] and all(it[0] == b"SET" and it[3:4] in ([], [b"PXAT"]) for it in sets)
    assert last[0] == b"ECHO" and re.fullmatch(rb"fazhitta %d [0-9a-f]{64}" % len(sets), last[1]), last
    return {key: (value, int(more[1]) if more else None) for _, key, value, *more in sets}


def loaded(file, server):
    """Has redis-cli load a file."""
    with open(file, "rb") as commands:
        words = ["redis-cli", "-p", str(server.port()), "--pipe"]
        told = subprocess.run(words, stdin=commands, capture_output=True, text=True, timeout=6 * PATIENCE)
    assert told.returncode == 0 and "errors: 0," in told.stdout, told
    return int(re.search(r"replies: (\d+)", told.stdout)[1])


def client_of(server, database):
    client = server.client()
    assert not database or client.ask("SELECT", database) == OK
    return client


def fill(server, pairs, database=0):
    client, items = client_of(server, database), list(pairs.items())
    for at in range(0, len(items), 200):
        asked = [("SET", key, value, *(("PXAT", deadline) if deadline else ())) for key, (value, deadline) in items[at:at + 200]]
        assert client.ask_all(asked) == [OK] * len(asked)
    return client


def contents(server, keys, database=0):
    """What a server has of these keys."""
    client, found, keys = client_of(server, database), {}, list(keys)
    for at in range(0, len(keys), 200):
        part = keys[at:at + 200]
        client.send(b"".join(request("GET", it) + request("PEXPIRETIME", it) for it in part))
        for key in part:
            value, deadline = client.reply(), int(client.reply()[1:])
            if value != b"$-1\r\n":
                found[key] = (value[value.index(b"\n") + 1:-2], deadline if deadline >= 0 else None)
    return found


class Fake:
    """A server that answers each command by a function, which gives the bytes of the reply, or None to close the connection."""

    def __init__(self, answer):
        self.answer, self.socket = answer, socket.create_server(("127.0.0.1", 0))
        self.thread = threading.Thread(target=self.run, daemon=True)

    def __enter__(self):
        self.thread.start()
        return ["--port", self.socket.getsockname()[1]]

    def __exit__(self, *_):
        with contextlib.suppress(OSError):
            self.socket.shutdown(socket.SHUT_RDWR)
        self.socket.close()
        self.thread.join(PATIENCE)
        assert not self.thread.is_alive()

    def run(self):
        with contextlib.suppress(OSError):
            while True:
                client = self.socket.accept()[0]
                with client, contextlib.suppress(OSError, resp.Ended):
                    self.serve(client)

    def serve(self, client):
        client.setsockopt(socket.IPPROTO_TCP, socket.TCP_NODELAY, 1)
        reader = resp.Reader(client.recv)
        while True:
            words = [reader.item() for _ in range(reader.array(10))]
            reply = self.answer(*words)
            if reply is None:
                return
            for piece in [reply] if isinstance(reply, bytes) else reply:
                client.sendall(piece)


def usual(**others):
    """The answers of a server that has the key `secret` with the value `hidden`, except for these commands."""
    count = 0

    def answer(name, *words):
        nonlocal count
        text = name.decode()
        count = {"MULTI": 0}.get(text, count + 1)
        if text in others:
            told = others[text]
            return told(*words) if callable(told) else told
        queued = {"MULTI": b"+OK\r\n", "PEXPIRETIME": b"+QUEUED\r\n", "GET": b"+QUEUED\r\n", "SELECT": b"+OK\r\n",
                  "INFO": b"$12\r\n# Keyspace\r\n\r\n"}
        if text == "SCAN":
            return b"*2\r\n$1\r\n0\r\n*1\r\n$6\r\nsecret\r\n"
        if text == "EXEC":
            return b"*3\r\n:-1\r\n$6\r\nhidden\r\n:-1\r\n"
        return queued.get(text, b"-ERR unknown command\r\n")
    return answer

