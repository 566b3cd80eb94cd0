"""Trials of fardump.py: what becomes of the file if a dump is ended, if the disk is full, or if its bytes are changed."""
import os
import pty
import random
import re
import resource
import signal
import subprocess
import threading
import time
from pathlib import Path

from fardump_parts import LATER, PATIENCE, PROGRAM, Fake, dump_file, fails, fill, is_whole, pairs_in, ran, started, usual, words_for
from server_ends import small_disk
from server_parts import until

OLD = b"an older dump"


def silent(*_):
    time.sleep(3)


def part_of(file):
    return Path(f"{file}.part")


def ended_by(name, prepare=None):
    """Has a dump of a server that is silent at its GETs ended by a signal."""
    def begin():
        # (a shell has what it starts in the background ignore some)
        if name != signal.SIGKILL:
            signal.signal(name, signal.SIG_DFL)
        if prepare:
            prepare()

    def end(tried, file):
        with Fake(usual(EXEC=silent)) as server:
            process = started(*server, file, preexec_fn=begin)
            until(part_of(file).exists, "the file's beginning")
            time.sleep(0.2)
            process.send_signal(name)
            out, said = process.communicate(timeout=PATIENCE)
        return process.returncode, out, said.decode()
    return end


def a_signal_leaves_nothing(tried):
    for name in (signal.SIGTERM, signal.SIGINT, signal.SIGHUP):
        file = tried.file()
        file.write_bytes(OLD)
        told = ended_by(name)(tried, file)
        assert told == (128 + name, b"", f"fardump: ended by {name.name}; there is no dump\n"), told
        assert file.read_bytes() == OLD and os.listdir(file.parent) == [file.name]


def takes_signals(pid):
    """Whether the program has begun: before that a signal ends Python, and nothing is there to be left."""
    status = Path(f"/proc/{pid}/status").read_text()
    return int(re.search(r"SigCgt:\s+(\w+)", status)[1], 16) >> (signal.SIGTERM - 1) & 1


def a_signal_at_any_moment_leaves_nothing(tried):
    """Either there is a whole dump and status 0, or none, and the older file."""
    pairs, counts = {b"key%d" % at: (b"v" * 100, LATER) for at in range(3000)}, {}
    draw = random.Random(1)

    def run(file, seconds):
        process = started(*words_for(redis), file)
        until(lambda: takes_signals(process.pid), "the program")
        began = time.monotonic()
        if seconds is not None:
            time.sleep(seconds)
            process.terminate()
        out, said = process.communicate(timeout=PATIENCE)
        return process.returncode, said, time.monotonic() - began

    with tried.redis() as redis:
        fill(redis, pairs)
        file = tried.file()
        longest = 1.2 * run(file, None)[2]
        for _ in range(300 if tried.is_long else 30):
            file.write_bytes(OLD)
            status, said, _ = run(file, draw.uniform(0, longest))
            counts[status] = counts.get(status, 0) + 1
            assert status in (0, 143), (status, said)
            assert os.listdir(file.parent) == [file.name], (status, os.listdir(file.parent))
            if status == 0:
                is_whole(file, 3000)
            else:
                assert file.read_bytes() == OLD
    return f"statuses {counts}"


def what_a_kill_left_is_replaced(tried):
    file = tried.file()
    file.write_bytes(OLD)
    assert ended_by(signal.SIGKILL)(tried, file)[0] == -9
    assert part_of(file).exists() and file.read_bytes() == OLD
    with Fake(usual()) as server:
        assert ran(*server, file) == (0, b"", "")
    assert pairs_in(file) == {b"secret": (b"hidden", None)}
    is_whole(file, 1)


def two_dumps_into_one_file(tried):
    file = tried.file()

    def slow(*_):
        time.sleep(1.5)
        return b"*3\r\n:-1\r\n$6\r\nhidden\r\n:-1\r\n"

    with Fake(usual(EXEC=slow)) as server, Fake(usual()) as other:
        process = started(*server, file)
        until(part_of(file).exists, "the file's beginning")
        fails(1, f"fardump: {file}.part: another fardump writes it\n", *other, file)
        assert process.wait(PATIENCE) == 0
    is_whole(file, 1)


def a_server_that_ends_leaves_nothing(tried):
    file, pairs = tried.file(), {b"key%d" % at: (b"v" * 1000, None) for at in range(20_000)}
    file.write_bytes(OLD)
    with tried.farserve(memory="64m") as server:
        fill(server, pairs)
        process = started(*words_for(server), file)
        until(lambda: part_of(file).exists() and part_of(file).stat().st_size > 0, "the file's beginning")
        os.kill(server.pid("farserve"), signal.SIGKILL)
        said = process.communicate(timeout=PATIENCE)[1].decode()
        server.process.wait(PATIENCE)
    assert process.returncode == 1 and said.startswith(f"fardump: 127.0.0.1:{server.port()}: ") and len(said.splitlines()) == 1, said
    assert "ended" in said or "closed" in said, said
    assert file.read_bytes() == OLD and not part_of(file).exists()


def a_full_disk(tried):
    folder = tried.folder()
    with tried.redis() as redis, small_disk(folder / "disk") as disk:
        fill(redis, {b"key%d" % at: (b"v" * 10_000, None) for at in range(1000)})
        limit = {"preexec_fn": lambda: resource.setrlimit(resource.RLIMIT_FSIZE, (1 << 20, 1 << 20))}
        file = tried.file()
        file.write_bytes(OLD)
        fails(1, f"fardump: {file}.part: File too large\n", *words_for(redis), file, **limit)
        assert file.read_bytes() == OLD and os.listdir(file.parent) == [file.name]
        if disk is None:
            return "(in part: no leave to mount a disk)"
        file = disk / "dump.resp"
        file.write_bytes(OLD)
        fails(1, f"fardump: {file}.part: No space left on device\n", *words_for(redis), file)
        assert file.read_bytes() == OLD and os.listdir(disk) == [file.name]
        with open(disk / "out", "wb") as out:
            fails_to(out, "fardump: standard output: No space left on device\n", *words_for(redis), "-")


def fails_to(out, text, *words, status=1):
    process = started(*words, stdout=out)
    said = process.communicate(timeout=PATIENCE)[1].decode()
    assert (process.returncode, said) == (status, text), (process.returncode, said)


def a_pipe_that_nobody_reads(tried):
    """It ends quietly, as other programs do."""
    with tried.redis() as redis:
        fill(redis, {b"key%d" % at: (b"v" * 10_000, None) for at in range(500)})
        process = started(*words_for(redis), "-")
        process.stdout.read(1000)
        process.stdout.close()
        said = process.stderr.read()
        assert (process.wait(PATIENCE), said) == (1, b""), said
        process.stderr.close()


def a_slow_reader_is_waited_for(tried):
    """What it takes is no time of the server's: the second value comes in time, though long after the first one."""
    asked = threading.Event()

    def two_values(*_):
        asked.set()
        yield b"*6\r\n:-1\r\n$66000\r\n" + b"x" * 66_000 + b"\r\n:-1\r\n"
        time.sleep(6.5)
        yield b":-1\r\n$6\r\nhidden\r\n:-1\r\n"

    keys = b"*2\r\n$1\r\n0\r\n*2\r\n$1\r\na\r\n$1\r\nb\r\n"
    with Fake(usual(SCAN=keys, EXEC=two_values)) as server:
        process = started("--timeout", "3", *server, "-")
        # However long the start takes on a busy machine, the reader waits from the request on.
        assert asked.wait(PATIENCE)
        time.sleep(6)
        data, said = process.communicate(timeout=PATIENCE)
        assert (process.returncode, said) == (0, b""), said
    file = tried.file()
    file.write_bytes(data)
    is_whole(file, 2)


def closed_standard_files(tried):
    with tried.redis() as redis:
        fill(redis, {b"k": (b"v", None)})
        file = tried.file()
        for closed in ("<&-", ">&-", "2>&-", "<&- >&- 2>&-"):
            words = ["sh", "-c", f'exec "$0" "$@" {closed}', PROGRAM, "--port", str(redis.port())]
            assert subprocess.run([*words, file]).returncode == 0
            is_whole(file, 1)
            told = subprocess.run([*words, "-"], capture_output=True)
            assert told.returncode == (1 if ">&- " in f"{closed} " and not closed.startswith("2") else 0), (closed, told)
        told = subprocess.run(["sh", "-c", 'exec "$0" "$@" >&-', PROGRAM, "--port", str(redis.port()), "-"], capture_output=True)
        assert told.stderr == b"fardump: standard output: Bad file descriptor\n", told
        assert redis.client().number("DBSIZE") == 1


def files_that_are_none(tried):
    """What is no regular file is never replaced, and a link stays one."""
    folder = tried.folder()
    with Fake(usual()) as server:
        for path in ("/dev/null", "/dev/stdout", folder):
            fails(1, f"fardump: {path}: it is no regular file; - writes to standard output\n", *server, path)
        assert not os.path.exists("/dev/null.part")
        fails(1, f"{folder}/none/dump.resp.part: No such file or directory", *server, folder / "none/dump.resp")
        (folder / "own.part").symlink_to("/dev/null")
        fails(1, f"{folder}/own.part: Too many levels of symbolic links", *server, folder / "own")
        os.mkfifo(folder / "pipe.part")
        fails(1, f"{folder}/pipe.part: it is no regular file; remove it, or name another FILE", *server, folder / "pipe")
        (folder / "elsewhere").mkdir()
        (folder / "elsewhere/real").write_bytes(OLD)
        (folder / "link").symlink_to("elsewhere/real")
        assert ran(*server, folder / "link") == (0, b"", "")
        assert (folder / "link").is_symlink() and os.listdir(folder / "elsewhere") == ["real"]
        is_whole(folder / "elsewhere/real", 1)
        # In a folder of one's own, by a name alone.
        assert ran(*server, "here", cwd=folder) == (0, b"", "")
        is_whole(folder / "here", 1)


def each_changed_byte_is_detected(tried):
    """One byte changed, all after a place cut off, one byte removed or put in: by the program's own reader, and some by the program."""
    file, good, wrong = tried.file(), tried.file(), 0
    with tried.redis() as redis:
        fill(redis, {b"k": (b"v1\r\n*2\r\n", None), b"": (b"", LATER), b"longer key": (b"x" * 12, LATER + 1)})
        assert ran(*words_for(redis), good)[0] == 0
    data = good.read_bytes()

    def said_of(changed):
        at = 0

        def more(most):
            nonlocal at
            # (in pieces, so that items come in parts)
            piece = changed[at:at + min(most, 7)]
            at += len(piece)
            return piece
        try:
            return dump_file.Check(more).run()
        except dump_file.Failed as why:
            return str(why)

    assert said_of(data) == 3
    for at in range(len(data)):
        changes = [data[:at] + bytes([data[at] ^ bit]) + data[at + 1:] for bit in (1, 2, 4, 8, 16, 32, 64, 128)]
        changes += [data[:at], data[:at] + data[at + 1:], data[:at] + b"0" + data[at:], data[:at] + b"\r\n" + data[at:]]
        for changed in changes:
            if changed != data:
                told = said_of(changed)
                assert isinstance(told, str), (at, told, changed)
                wrong += 1
    samples = {b"": "it is empty", data[:-20]: "it ends within the command at byte", data[:data.index(b"*2\r\n$4\r\nECHO")]: "its last command is missing",
               data + b"\n": "there are bytes after its last command", data.replace(b"longer", b"Longer"): "its SHA-256 is not the one",
               data.replace(b"fazhitta 3", b"fazhitta 4"): "its last command counts 4 keys, and it has 3",
               data.replace(b"SELECT", b"SELEC_"): "at byte 0 is no command that fardump writes", b"hello\n" * 99: "it ends within the command at byte 0",
               b"x" * 100_000: "at byte 0 is no command that fardump writes: a line is longer than 64 KiB",
               b"*9\r\n" + data: "at byte 0 is no command", b"-a\r\n" + data: "at byte 0 is no command", data + data: "there are bytes after",
               b"*3\r\n$3\r\nSET\r\n$600000000\r\n": "a string is longer than 512 MiB", b"*1\r\n$-1\r\n": "a string is expected"}
    for changed, text in samples.items():
        file.write_bytes(changed)
        fails(1, f"fardump: {file}: {text}" if not text.startswith("a ") else text, "--check", file)
    fails(1, "/none: No such file or directory", "--check", "/none")
    fails(1, "Is a directory", "--check", file.parent)
    return f"{wrong} changes"


def progress_on_a_terminal(tried):
    file = tried.file()
    with tried.redis() as redis:
        fill(redis, {b"k%d" % at: (b"v", None) for at in range(1000)})
        own, other = pty.openpty()
        process = started(*words_for(redis), file, stderr=other)
        assert process.wait(PATIENCE) == 0
        os.close(other)
        shown = os.read(own, 1 << 16).decode()
        os.close(own)
        process.stdout.close()
        assert shown.startswith("\r1,000 keys, 0 MB, ") and shown.endswith("\r\n"), shown
        # The dump itself never goes to a terminal.
        own, other = pty.openpty()
        process = started(*words_for(redis), "-", stdout=other)
        said = process.communicate(timeout=PATIENCE)[1].decode()
        assert process.returncode == 2 and "standard output is a terminal" in said, said
        for end in (own, other):
            os.close(end)


TRIALS = [a_signal_leaves_nothing, a_signal_at_any_moment_leaves_nothing, what_a_kill_left_is_replaced, two_dumps_into_one_file,
          a_server_that_ends_leaves_nothing, a_full_disk, a_pipe_that_nobody_reads, a_slow_reader_is_waited_for, closed_standard_files, files_that_are_none,
          each_changed_byte_is_detected, progress_on_a_terminal]
