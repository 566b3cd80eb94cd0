"""The server's launcher, which bin/farserve starts: it gets both programs (server_programs.py), starts them, and ends them at a signal.

The server is two programs: the proved one, which has no sockets, and the gateway, which joins connections to its pipes.
"""
import contextlib
import os
import re
import select
import shlex
import signal
import stat
import sys
import time
from pathlib import Path

import server_programs
from parts import LIMIT, MOMENT, SIGNALS, Interrupted, Part, Signalled, Signals
from runtime_folder import runtime_folder
from server_programs import Answered, Lacking

# Workers if no --threads says otherwise, and as many links to a far store as there may be.
THREADS = 4
LINKS = 8
# What one thread frees all threads use again. With an arena for each thread malloc keeps as much once more for each.
ONE_ARENA = {"MALLOC_ARENA_MAX": "1"}
# Where there is less memory than this large blocks go back to the system as soon as they are freed. That takes time: values of half a
# megabyte are set at a quarter of the speed. With more memory, what malloc keeps of them is little beside it.
SMALL = 128 << 20
AT_ONCE = {"MALLOC_MMAP_THRESHOLD_": "131072", "MALLOC_TRIM_THRESHOLD_": "131072"}


class Failed(Exception):
    """Why nothing is served, or no more: a status, and a text that has not been told yet."""


def write(text):
    """Writes to standard output, if it can be."""
    left = text.encode(errors="surrogateescape")
    with contextlib.suppress(OSError):
        while left:
            left = left[os.write(1, left):]


def threads_in(words):
    """How many threads the words ask for. What is no such number the server refuses."""
    for at, word in enumerate(words):
        if word == "--threads" or word.startswith("--threads="):
            value = word.partition("=")[2] or (words[at + 1] if at + 1 < len(words) else "")
            return min(int(value), 64) if re.fullmatch(r"\+?[0-9]+", value) else 0
    return THREADS


def memory_in(words):
    """How many bytes of memory the words ask for. What is no such size the server refuses."""
    for at, word in enumerate(words):
        if word == "--memory" or word.startswith("--memory="):
            value = word.partition("=")[2] or (words[at + 1] if at + 1 < len(words) else "")
            size = re.fullmatch(r"([0-9]+)([kmg]?)", value.lower())
            return int(size[1]) << {"": 0, "k": 10, "m": 20, "g": 30}[size[2]] if size else 0
    return 0


def about(words):
    """What the log's first line says: the version, and the options that were given. No option has a password, only the path of its file."""
    version = ""
    with contextlib.suppress(OSError):
        version = (Path(__file__).resolve().parent.parent / "VERSION").read_text().strip() + " "
    return f"farserve {version}{shlex.join(words)}"


def malloc_for(words):
    """What malloc is told by the server's environment."""
    return {**ONE_ARENA, **(AT_ONCE if memory_in(words) < SMALL else {})}


class Server:
    """Both programs, and the folder of their pipes."""

    def __init__(self, folder, signals):
        self.folder, self.signals = folder, signals
        self.parts = []
        # Whether clients may have come, and the path of the Unix socket.
        self.is_serving, self.path = False, None

    def start(self, name, words, ignored=(), environment=None):
        self.parts.append(Part(name, words, ignored, environment or {}))
        return self.parts[-1]

    def make_pipes(self, words):
        """Makes as many pipes as the server will have for these words. It opens them soon after it has said how many it has."""
        # (to make one takes a millisecond or more on some disks)
        for kind, count in (("", threads_in(words)), ("far-", LINKS if any(it.startswith("--far-resp") for it in words) else 0)):
            for number in range(count):
                for name in (f"{kind}requests{number}", f"{kind}replies{number}"):
                    os.mkfifo(f"{self.folder}/{name}", 0o600)

    def fail(self, ended):
        # A signal to the whole group may have ended the gateway before it came here.
        if self.signals.come_within(MOMENT):
            raise Signalled
        # What ended one may be the end of the other, which is seen after it.
        ended = [it for it in self.parts if it in ended or it.has_ended()]
        raise Failed(1, ", ".join(f"the {it.name} has ended with status {it.status()}" for it in ended))

    def told(self, part, end):
        """What a part writes until this end, or all where it writes no such end."""
        text = b""
        while not text.endswith(end):
            ready = self.signals.wait(self.parts)
            if part not in ready:
                self.fail(ready)
            piece = os.read(part.output.fileno(), 1 << 16)
            if not piece:
                break
            text += piece
        return text

    def serve(self, program, gateway, words):
        self.make_pipes(words)
        # A signal to the whole group, as a terminal sends it, is not to end it before the gateway.
        server = self.start("server", [*program, *words, "--pipes", self.folder], SIGNALS, malloc_for(words))
        told = self.told(server, b"\0\0")
        if not told.endswith(b"\0\0"):
            # It is the help, or the fault stands on standard error.
            write(told.decode())
            raise Failed(server.status(), "")
        asked = words
        count, *words = told[:-2].decode().split("\0")
        self.path = words[words.index("--unix") + 1] if "--unix" in words else None
        words += ["--server-pid", str(server.process.pid), "--about", about(asked)]
        for worker in range(int(count)):
            words += ["--worker", f"{self.folder}/requests{worker}", f"{self.folder}/replies{worker}"]
        ready = self.told(self.start("gateway", [*gateway, *words]), b"\n")
        self.is_serving = ready.endswith(b"\n")
        write(ready.decode())
        self.fail(self.signals.wait(self.parts))

    def end(self):
        """Ends the gateway, and so the server, which ends with its pipes. Gives the gateway's status, 0 where there is none."""
        limit, gateway = time.monotonic() + LIMIT, self.parts[1:]
        for it in gateway:
            it.process.send_signal(signal.SIGTERM)
        why = self.signals.wait_for_ends(gateway, limit)
        if why or self.has_served():
            why = self.signals.wait_for_ends(self.parts, limit)
            killed = [it.name for it in reversed(self.parts) if it.kill()]
            if killed:
                tell(f"killed the {' and the '.join(killed)}, {why}")
        else:
            # It waits for the other ends of its pipes, and no client ever came.
            for it in self.parts:
                it.kill()
        if self.path and any(it.process.returncode < 0 for it in gateway):
            remove_socket(self.path)
        return max((it.process.returncode for it in gateway), default=0)

    def has_served(self):
        """Whether clients may have come: also if a signal came before the line of the gateway, which has ended, was read."""
        return self.is_serving or any(os.read(it.output.fileno(), 1 << 16) for it in self.parts[1:])


def remove_socket(path):
    """Removes the socket that a killed gateway left, unless somebody listens there."""
    # (it takes a while, and is seldom needed)
    import socket
    with contextlib.suppress(OSError), socket.socket(socket.AF_UNIX) as tried:
        if stat.S_ISSOCK(os.lstat(path).st_mode):
            try:
                tried.connect(path)
            except ConnectionRefusedError:
                os.unlink(path)


def serve(program, gateway, words, signals):
    """Serves until a signal comes."""
    with runtime_folder() as folder:
        server = Server(folder, signals)
        try:
            server.serve(program, gateway, words)
        except Signalled:
            pass
        finally:
            status = server.end()
    # A signal may end the gateway before it takes signals itself.
    if status > 0:
        raise Failed(1, f"the gateway has ended with status {status}")


def run(words, signals):
    if words[:1] == ["--version"]:
        write(server_programs.version())
        return 0
    is_proved = words[:1] == ["--proved"]
    words = words[1:] if is_proved else words
    try:
        program, gateway = server_programs.give(words, is_proved, signals)
        if words or not is_proved:
            signals.check()
            serve(program, gateway, words, signals)
    except Answered as answered:
        return answered.args[0]
    except Signalled:
        pass
    except Interrupted as interrupted:
        return 128 + interrupted.args[0]
    except (Failed, Lacking) as failed:
        status, told = failed.args
        if told:
            tell(told)
        return status
    except OSError as why:
        tell(why)
        return 1
    return 0


def tell(why):
    # Standard error may be a pipe that nobody reads.
    with contextlib.suppress(OSError, ValueError):
        if select.select([], [sys.stderr], [], MOMENT)[1]:
            print(f"farserve: {why}", file=sys.stderr, flush=True)


def main(words):
    signals = Signals()
    status = run(words, signals)
    # One more signal is not to end what has ended.
    signal.pthread_sigmask(signal.SIG_BLOCK, SIGNALS)
    return status


if __name__ == "__main__":
    sys.exit(main(sys.argv[1:]))
