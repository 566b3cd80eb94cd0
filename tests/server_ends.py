"""Trials of server.py: memory, how the server starts and ends, and what it refuses at the start."""
import contextlib
import os
import re
import signal
import socket
import stat
import subprocess
import tempfile
import threading
import time
from concurrent.futures import ThreadPoolExecutor
from pathlib import Path

from server_parts import MEBIBYTE, NONE, OK, PATIENCE, PONG, ROOT, Client, bulk, children, request, until

MEMORY = 48 * MEBIBYTE
# Resident memory may pass what was asked for by so much.
SLACK = 1.15


def fill(server, count, value_of, piece):
    """Sets so many keys, and gives a client."""
    client = server.client()
    for at in range(0, count, piece):
        asked = [("SET", f"key{number}", value_of(number)) for number in range(at, min(at + piece, count))]
        assert client.ask_all(asked) == [OK] * len(asked)
    return client


def stay_within_memory(tried, count, value_of, piece):
    with tried.start(memory="48m") as server:
        client = fill(server, count, value_of, piece)
        assert client.number("DBSIZE") == count
        for number in range(0, count, max(1, count // 2000)):
            assert client.ask("GET", f"key{number}") == bulk(value_of(number))
        # Values that are set anew and taken away leave no more behind.
        fill(server, count // 4, value_of, piece)
        client.ask_all([("DEL", f"key{number}") for number in range(0, count, 4)])
        fill(server, count // 4, value_of, piece)
        peak = server.peak()
        assert peak < MEMORY * SLACK, f"{peak / MEBIBYTE:.1f} MiB were resident"
        return f"{peak / MEBIBYTE:.1f} MiB of 48"


def small_values_stay_within_memory(tried, _):
    return stay_within_memory(tried, 200_000, lambda number: b"%064d" % number, 500)


def large_values_stay_within_memory(tried, _):
    return stay_within_memory(tried, 2_000, lambda number: b"%060000d" % number, 10)


def is_full_alone(server, memory):
    """Sets more than there is room for: what is refused is told, what was set stands, and memory stays bounded."""
    client, held, refused = server.client(), {}, 0
    for at in range(8000):
        key, value = f"key{at % 5000}", b"%010000d" % at
        told = client.ask("SET", key, value)
        if told == OK:
            held[key] = value
        else:
            refused += 1
            assert told[:5] in (b"-ERR ", b"-OOM "), told
    peak, server.scratch_peak = server.peak(), server.scratch()
    assert refused and peak < memory * SLACK, f"{refused} were refused, {peak / MEBIBYTE:.1f} MiB were resident"
    wrong = sum(client.ask("GET", key) != bulk(value) for key, value in held.items())
    assert held and not wrong, f"{wrong} of {len(held)} are not what was set"
    assert client.ask("DEL", *held) == b":%d\r\n" % len(held) and client.ask("SET", "k", "1") == OK
    return f"{len(held)} of 5000 held"


def what_has_no_room_is_refused(tried, _):
    with tried.start(memory="32m", far=None) as server:
        alone = is_full_alone(server, 32 * MEBIBYTE)
    with tried.start("--far-limit", "8m", memory="32m") as server:
        limited = is_full_alone(server, 32 * MEBIBYTE)
        assert 0 < server.scratch_peak <= 8 * MEBIBYTE, server.scratch_peak
    return f"{alone} in memory, {limited} with 8 MiB of disk"


def makes_room(server, memory):
    """Other keys go where values beyond what there is room for are set; what is found is what was set."""
    client = server.client()
    values = {f"evicted{at}": b"%05d" % at * 1000 for at in range(20000)}
    names = list(values)
    for at in range(0, len(names), 20):
        told = client.ask_all([("SET", it, values[it]) for it in names[at:at + 20]])
        assert told == [OK] * 20, told
    peak = server.peak()
    assert peak < memory * SLACK, f"{peak / MEBIBYTE:.1f} MiB were resident"
    # In pieces whose replies are few enough to wait for a client that is slow.
    told = [it for at in range(0, len(names), 100) for it in client.ask_all([("GET", it) for it in names[at:at + 100]])]
    found = {it: reply for it, reply in zip(names, told) if reply != NONE}
    assert len(found) > 500 and all(told == bulk(values[it]) for it, told in found.items()), f"{len(found)} are found, or one is not what was set"

    def is_counted():
        return int(client.info("stats")["evicted_keys"]) == len(names) - client.number("DBSIZE")
    # What is read comes into memory, and others may go for it.
    until(is_counted, "counts that tell the same")
    return len(found)


def keys_are_evicted_where_they_may_be(tried, _):
    with tried.start("--policy", "allkeys", memory="32m", far=None) as server:
        alone = makes_room(server, 32 * MEBIBYTE)
    with tried.start("--policy", "allkeys", "--far-limit", "24m", memory="32m") as server:
        limited = makes_room(server, 32 * MEBIBYTE)
        assert 0 < server.scratch() <= 24 * MEBIBYTE
        assert server.client().strings("CONFIG", "GET", "maxmemory-policy") == [b"maxmemory-policy", b"allkeys-lru"]
    return f"{alone} of 20000 held in memory, {limited} with 24 MiB of disk"


@contextlib.contextmanager
def small_disk(folder):
    """A folder on a disk of 4 MiB, or None where there is no leave to mount one."""
    folder.mkdir()
    words = ["mount", "-t", "tmpfs", "-o", "size=4m", "none", folder]
    if os.geteuid() or subprocess.run(words, stderr=subprocess.DEVNULL).returncode:
        yield None
        return
    try:
        yield folder
    finally:
        subprocess.run(["umount", "-l", folder], check=True)


def a_full_disk_harms_nothing(tried, _):
    with small_disk(Path(tried.work) / "disk") as disk:
        if disk is None:
            return "(skipped: no leave to mount a disk)"
        with tried.start(memory="32m", far=disk) as server:
            return is_full_alone(server, 32 * MEBIBYTE)


def a_signal_ends_it(tried, _):
    for name in (signal.SIGTERM, signal.SIGINT):
        for to_all in (False, True):
            with tried.start() as server:
                client = server.client()
                assert client.ask("SET", "k", "1") == OK
                both = [server.pid("gateway"), server.pid("farserve")]
                client.send(request("GET", "k") * 1000)
                if to_all:
                    os.killpg(server.process.pid, name)
                else:
                    server.process.send_signal(name)
                assert server.process.wait(PATIENCE) == 0, server.text()
                assert not [it for it in both if os.path.exists(f"/proc/{it}")], "one of the two is left"
                assert len(server.text().splitlines()) <= 5, server.text()
                assert client.is_ended()
    assert not os.listdir(tried.runtime), "the folder of the pipes is left"


def is_gone(tried, both, path):
    assert not [it for it in both if os.path.exists(f"/proc/{it}")], "one of the two is left"
    assert not os.path.lexists(path), "the socket is left"
    assert not os.listdir(tried.runtime), "the folder of the pipes is left"


def a_signal_while_clients_write(tried, _):
    """All that was replied has been done, nothing is killed, and it takes less than the limit."""
    path, told = Path(tried.work) / "ending", []

    def write(client):
        with contextlib.suppress(OSError, EOFError):
            for at in range(10**9):
                assert client.ask_all([("SET", f"key{at % 500}", b"%01000d" % at)] * 20) == [OK] * 20
                told.append(at)

    for name in (signal.SIGTERM, signal.SIGINT):
        with tried.start("--unix", path) as server:
            both = [server.pid("gateway"), server.pid("farserve")]
            threads = [threading.Thread(target=write, args=(server.client(),), daemon=True) for _ in range(6)]
            for it in threads:
                it.start()
            until(lambda: len(told) > 200, "calls")
            began = time.monotonic()
            server.process.send_signal(name)
            said = server.ended(0)
            took = time.monotonic() - began
            for it in threads:
                it.join(PATIENCE)
            assert took < 10 and "killed" not in said, (took, said)
            is_gone(tried, both, path)
        told.clear()


def has_killed(tried, stopped, names, more=()):
    """Ends a server of whose programs some are stopped. Gives how long it took; `more` are seconds after which another signal comes."""
    path = Path(tried.work) / f"ending-{'-'.join(stopped)}-{len(more)}"
    with tried.start("--unix", path) as server:
        assert server.client().ask("SET", "k", "1") == OK
        both = [server.pid("gateway"), server.pid("farserve")]
        for name in stopped:
            os.kill(server.pid(name), signal.SIGSTOP)
        began = time.monotonic()
        server.process.terminate()
        for seconds in more:
            time.sleep(seconds)
            with contextlib.suppress(ProcessLookupError):
                server.process.terminate()
        said, took = server.ended(0), time.monotonic() - began
        why = "since 10 seconds were not enough" if not more or sum(more) < 0.2 else "at a second signal"
        assert re.search(rf"^farserve: killed the {names}, {why}$", said, re.M) and said.count("killed") == 1, said
        assert not [it for it in both if os.path.exists(f"/proc/{it}")] and not os.path.lexists(path)
    return took


# Where the gateway alone is stopped, the server may end as soon as the gateway is killed.
STOPPED = {("farserve",): "server", ("gateway",): "gateway( and the server)?", ("gateway", "farserve"): "gateway and the server"}


def what_does_not_end_is_killed(tried, _):
    """After 10 seconds, with a line that says so. Two signals in the same moment are one."""
    cases = [(stopped, names, more) for stopped, names in STOPPED.items() for more in [(), (0.01,)][:1 + (len(stopped) == 1)]]
    with ThreadPoolExecutor(len(cases)) as pool:
        took = list(pool.map(lambda case: has_killed(tried, *case), cases))
    assert all(10 <= it < 25 for it in took), took
    assert not os.listdir(tried.runtime), "a folder of pipes is left"
    return f"after {min(took):.1f} to {max(took):.1f} s"


def a_second_signal_kills_at_once(tried, _):
    took = [has_killed(tried, stopped, names, more=(1.5,)) for stopped, names in STOPPED.items()]
    assert all(1.5 <= it < 8 for it in took), took
    assert not os.listdir(tried.runtime), "a folder of pipes is left"
    with tried.start() as server:
        # Two in the same moment, as `timeout` sends them, are one.
        for _ in range(2):
            server.process.terminate()
        assert "killed" not in server.ended(0)


def who_dies_is_named(tried, _):
    for name, told in (("gateway", "the gateway has ended with status -9"), ("farserve", "the server has ended with status -9")):
        with tried.start() as server:
            client, other = server.client(), "gateway" if name == "farserve" else "farserve"
            assert client.ask("PING") == PONG
            other = server.pid(other)
            os.kill(server.pid(name), signal.SIGKILL)
            said = server.ended(1)
            assert told in said, said
            assert client.is_ended() and not os.path.exists(f"/proc/{other}")
    with tried.start() as server:
        both = children(server.process.pid)
        server.process.kill()
        until(lambda: not any(os.path.exists(f"/proc/{it}") for it in both), "the end of both")
    for left in Path(tried.runtime).iterdir():
        subprocess.run(["rm", "-rf", left], check=True)


# Runs bin/serve.py with another program in the place of the server's.
INSTEAD = """import sys
sys.path.insert(0, sys.argv[1])
import serve
import server_programs
gateway = server_programs.Gateway()
gateway = gateway.built() or gateway.build()
server_programs.give = lambda *_: ([sys.argv[2]], [gateway])
sys.exit(serve.main([]))
"""


def who_dies_early_is_named(tried, _):
    """The server fails once it has told the gateway's words, and before the pipes are open."""
    program = Path(tried.work) / "program"
    program.write_text("#!/bin/sh\nprintf '1\\0--port\\0000\\0\\0'\nsleep 0.5\nexit 3\n")
    program.chmod(0o700)
    words = ["/usr/bin/python3", "-B", "-c", INSTEAD, ROOT / "bin", program]
    ran = subprocess.run(words, stdin=subprocess.DEVNULL, capture_output=True, text=True, timeout=PATIENCE)
    assert (ran.returncode, ran.stdout, ran.stderr) == (1, "", "farserve: the server has ended with status 3\n"), ran
    assert not os.listdir(tried.runtime), "the folder of the pipes is left"


# In the place of the server: it takes a while after the end of its pipes, and says that it has ended by itself.
LEISURELY = """#!/usr/bin/python3 -B
import sys, time
folder, left = sys.argv[sys.argv.index("--pipes") + 1], "LEFT"
print("1", "--port", "0", "", "", sep="\\0", end="", flush=True)
with open(folder + "/requests0", "rb") as requests, open(folder + "/replies0", "wb"):
    requests.read()
time.sleep(1.5)
open(left, "w").close()
"""


def a_server_may_take_a_while_to_end(tried, _):
    """The launcher waits for it, and leaves nothing of its own."""
    program, left = Path(tried.work) / "leisurely", Path(tried.work) / "left"
    program.write_text(LEISURELY.replace("LEFT", str(left)))
    program.chmod(0o700)
    words = ["/usr/bin/python3", "-B", "-c", INSTEAD, ROOT / "bin", program]
    for name in (signal.SIGTERM, signal.SIGINT):
        process = subprocess.Popen(words, stdin=subprocess.DEVNULL, stdout=subprocess.PIPE, stderr=subprocess.PIPE, text=True)
        assert process.stdout.readline().startswith("ready ")
        began = time.monotonic()
        process.send_signal(name)
        said = process.communicate(timeout=PATIENCE)[1]
        assert process.returncode == 0 and "killed" not in said, (process.returncode, said)
        assert left.exists() and time.monotonic() - began >= 1.5, said
        assert not os.listdir(tried.runtime), "the folder of the pipes is left"
        left.unlink()


def started(*words):
    words = [ROOT / "bin/farserve", *map(str, words)]
    return subprocess.run(words, stdin=subprocess.DEVNULL, capture_output=True, text=True, timeout=PATIENCE)


def faults_at_the_start(tried, _):
    with socket.create_server(("127.0.0.1", 0)) as taken:
        port = taken.getsockname()[1]
        ran = started("--memory", "64m", "--port", port)
        assert ran.returncode == 1 and f"127.0.0.1:{port}: Address already in use" in ran.stderr and not ran.stdout, ran
    with tempfile.NamedTemporaryFile() as empty:
        wrong = {
            ("--memory", "12q"): "--memory", ("--memory", ""): "--memory", ("--memory", "1m"): "--memory 1m", (): "--memory",
            ("--memory", "64m", "--port", "65536"): "--port", ("--memory", "64m", "--port", "x"): "--port",
            ("--memory", "64m", "--threads", "0"): "--threads", ("--memory", "64m", "--threads", "65"): "--threads",
            ("--memory", "64m", "--buckets", "0"): "--buckets", ("--memory", "64m", "--value-limit", "9m"): "--value-limit 9m",
            ("--memory", "64m", "--bind", "here"): "--bind here", ("--memory", "64m", "--bind", "0.0.0.0"): "--password-file",
            ("--memory", "64m", "--bind", "::"): "--password-file", ("--memory", "64m", "--timeout", "-1"): "--timeout",
            ("--memory", "64m", "--far", "/none/such"): "--far /none/such", ("--memory", "64m", "--more"): "--more",
            ("--memory", "64m", "--password-file", "/none"): "--password-file /none", ("--memory", "64m", "word"): "word",
            ("--memory", "64m", "--password-file", empty.name): f"--password-file {empty.name}",
            ("--memory", "64m", "--unix", "x" * 200): "--unix", ("--memory", "64m", "--policy", "other"): "--policy",
            ("--memory", "64m", "--databases", "0"): "--databases", ("--memory", "64m", "--databases", "257"): "--databases",
        }
        for words, named in wrong.items():
            ran = started(*words)
            assert ran.returncode == 2 and named in ran.stderr and not ran.stdout, (words, ran)
    ran = started("--help")
    assert ran.returncode == 0 and "Usage: farserve" in ran.stdout and "--memory <SIZE>" in ran.stdout and not ran.stderr.count("error")
    ran = started("--version")
    assert ran.returncode == 0 and ran.stdout.startswith("version: ") and "\nbuild: " in ran.stdout, ran
    assert not os.listdir(tried.runtime), "the folder of the pipes is left"


def all_addresses_are_served(tried, _):
    path, password = Path(tried.work) / "socket", Path(tried.work) / "password"
    password.write_text("secret")
    with tried.start("--unix", path) as server:
        assert server.places[1] == str(path) and stat.S_IMODE(path.stat().st_mode) == 0o600
        with Client(str(path)) as client:
            assert client.ask("SET", "k", "1") == OK
        assert server.client().value("GET", "k") == b"1"
    assert not path.exists()
    with tried.start("--bind", "0.0.0.0", "--password-file", password) as server:
        client = server.client(("127.0.0.1", server.port()))
        assert client.ask("GET", "k").startswith(b"-NOAUTH") and client.ask("AUTH", "secret") == OK
    with tried.start("--threads", "1") as server, tried.start("--threads", "7") as other:
        assert server.client().ask("SET", "k", "1") == OK and other.client().ask("GET", "k") == b"$-1\r\n"


def info_tells_what_the_system_does(tried, _):
    with tried.start(memory="48m") as server:
        client = fill(server, 3000, lambda number: b"%030000d" % number, 10)
        told = client.info()
        assert int(told["maxmemory"]) == MEMORY, told
        # Of 90 MB some lie in memory, and the others in the folder.
        assert 10e6 < int(told["used_memory"]) < MEMORY and told["db0"].startswith("keys=3000,"), told
        assert client.value("INFO", "far").startswith(b"# Far\r\n")


def info_tells_who_is_connected(tried, _):
    """Counted is who has come, with a request or without one, and no more once it has closed."""
    with tried.start() as server:
        watcher = server.client()
        silent = [server.client() for _ in range(8)]
        asking = [server.client() for _ in range(8)]
        assert all(it.ask("PING") == PONG for it in asking)
        until(lambda: watcher.info()["connected_clients"] == "17", "the count of those who came")
        for it in silent + asking:
            it.close()
        until(lambda: watcher.info()["connected_clients"] == "1", "the count of who is left")
        assert watcher.info()["total_connections_received"] == "17", watcher.info()
        # What one of them takes is told, and that it is free again.
        half = server.client()
        half.send(request("SET", "k", b"x" * 500_000)[:-100_000])
        until(lambda: int(watcher.info("memory")["clients_memory"]) > 400_000, "the memory of half a request")
        half.close()
        until(lambda: int(watcher.info("memory")["clients_memory"]) < 100_000, "that it is free")


def scratch_files_are_private(tried, _):
    """Scratch files have no name, and only their user may read them. Of the folder only what a killed server left is removed."""
    folder = Path(tried.work) / "private"
    kept = ["notes.txt", "fazhitta-notes.scratch", "fazhitta-0123456789abcdef-0-0.txt", "fazhitta-0123456789abcdef-0-0.scratch.bak"]
    left = "fazhitta-0123456789abcdef-0-3.scratch"
    (folder / "inner").mkdir(parents=True)
    for name in [*kept, left, f"inner/{left}"]:
        (folder / name).write_text(name)
    with tried.start(far="private", memory="32m") as server:
        fill(server, 1000, lambda number: b"%060000d" % number, 10)
        assert server.scratch() > 0
        files = [it for it in Path(f"/proc/{server.pid('farserve')}/fd").iterdir() if os.readlink(it).endswith(" (deleted)")]
        found = [it.stat() for it in files if str(folder) in os.readlink(it)]
        assert found and all(stat.S_IMODE(it.st_mode) == 0o600 and it.st_nlink == 0 for it in found), found
        assert sorted(os.listdir(folder)) == sorted([*kept, "inner"]), os.listdir(folder)
    assert sorted(os.listdir(folder)) == sorted([*kept, "inner"]) and os.listdir(folder / "inner") == [left]
    assert all((folder / name).read_text() == name for name in [*kept, f"inner/{left}"])
    return f"{len(found)} files"


def info_tells_what_lies_on_disk(tried, _):
    """The bytes of slots are those of the files, but for the room behind the last object of each file."""
    def far(client):
        told = client.info()
        return int(told["far_objects"]), int(told["far_bytes"])

    with tried.start(memory="48m") as server:
        client = server.client()
        assert far(client) == (0, 0)
        fill(server, 2000, lambda number: b"%060000d" % number, 10)
        files, (objects, room) = server.scratch(), far(client)
        assert 0 < objects <= 2000 and files > 70e6 and files <= room <= 2 * 2000 * 60_000, (objects, files, room)
        assert client.ask("FLUSHALL") == OK
        # What the calls before left is let go by later ones.
        until(lambda: client.ask("SET", "k", "1") == OK and far(client)[0] <= 1, "the end of the objects")
        until(lambda: far(client)[1] <= MEBIBYTE >= server.scratch(), "the end of the files' bytes")
    with tried.start(memory="32m", far=None) as server:
        client = server.client()
        told = client.ask_all([("SET", f"key{at}", b"%030000d" % at) for at in range(2000)])
        assert any(it.startswith(b"-OOM ") for it in told) and far(client) == (0, 0), far(client)
    return f"{objects} objects in {room / MEBIBYTE:.1f} MiB, of files of {files / MEBIBYTE:.1f} MiB"


TRIALS = [small_values_stay_within_memory, large_values_stay_within_memory, what_has_no_room_is_refused, keys_are_evicted_where_they_may_be,
          a_full_disk_harms_nothing, a_signal_ends_it, a_signal_while_clients_write, what_does_not_end_is_killed,
          a_second_signal_kills_at_once, who_dies_is_named, who_dies_early_is_named, a_server_may_take_a_while_to_end, faults_at_the_start,
          all_addresses_are_served, info_tells_what_the_system_does, info_tells_who_is_connected,
          info_tells_what_lies_on_disk, scratch_files_are_private]
