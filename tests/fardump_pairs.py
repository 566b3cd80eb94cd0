"""Trials of fardump.py: what the file has is what the server has, whatever the keys are and whatever happens to them meanwhile."""
import os
import random
import stat
import threading
import time
from pathlib import Path

from fardump_parts import LATER, PATIENCE, client_of, commands_in, contents, dump_file, dump_source, dumped, fails, fill, is_whole, loaded, pairs_in, ran, started, words_for

# Values that are texts of replies, too.
TEXTS = [b"", b"ERR reply is too large", b"OK", b"QUEUED", b"\r\n", b"*2\r\n$4\r\nECHO\r\n", b"-1", b"$-1\r\n", b"WRONGTYPE"]


def any_pairs(count, seed=1):
    """Keys and values of any bytes, a third of them with a deadline."""
    draw = random.Random(seed)

    def length(most):
        return int(most ** draw.random()) - 1

    pairs = {b"": (b"", None), b"\r\n": (TEXTS[1], LATER + 7)}
    for at, text in enumerate(TEXTS):
        pairs[b"text%d" % at] = pairs[text + b"."] = (text, None)
    while len(pairs) < count:
        pairs[draw.randbytes(length(60))] = (draw.randbytes(length(3000)), LATER + draw.randrange(10**9) if draw.random() < 0.34 else None)
    return pairs


def round_trips(tried):
    pairs, file = any_pairs(30_000 if tried.is_long else 3000), tried.file()
    pairs[b"k" * 65_528] = (b"v", LATER)
    with tried.farserve(memory="32m") as server, tried.farserve(memory="128m", far=None) as other, tried.redis() as redis, tried.redis() as last:
        fill(server, pairs)
        assert dumped(server, file) == pairs
        is_whole(file, len(pairs))
        assert stat.S_IMODE(file.stat().st_mode) == 0o600
        for target in (other, redis):
            # (SELECT and ECHO are answered, too)
            assert loaded(file, target) == len(pairs) + 2
            assert target.client().number("DBSIZE") == len(pairs) and contents(target, pairs) == pairs
        for source, target in ((redis, last), (redis, server)):
            target.client().ask("FLUSHALL")
            again = tried.file()
            assert dumped(source, again) == pairs
            loaded(again, target)
            assert contents(target, pairs) == pairs
    return f"{len(pairs)} keys"


def several_databases(tried):
    """Each key is in the database that it was in. A file of one database is as before."""
    databases = {0: any_pairs(200), 3: any_pairs(300), 15: {b"last": (b"v", LATER), b"same": (b"15", None)}}
    databases[0][b"same"], databases[3][b"same"] = (b"0", None), (b"3", None)
    file = tried.file()
    with tried.farserve() as server, tried.farserve(far=None) as other, tried.redis() as redis:
        for source, targets in ((server, (other, redis)), (redis, (server,))):
            for server_of in targets:
                server_of.client().ask("FLUSHALL")
            if source is server:
                for number, pairs in databases.items():
                    fill(source, pairs, number)
            assert ran(*words_for(source), file) == (0, b"", "")
            selects = [words[1] for words in commands_in(file.read_bytes()) if words[0] == b"SELECT"]
            assert selects == [b"0", b"3", b"15"], selects
            is_whole(file, sum(len(pairs) for pairs in databases.values()))
            for target in targets:
                loaded(file, target)
                for number, pairs in databases.items():
                    assert contents(target, pairs, number) == pairs
                    assert client_of(target, number).number("DBSIZE") == len(pairs)
    return f"{sum(len(pairs) for pairs in databases.values())} keys in {len(databases)} databases"


def an_empty_map(tried):
    file = tried.file()
    with tried.farserve(far=None) as server, tried.redis() as redis:
        for source in (server, redis):
            assert dumped(source, file) == {}
            is_whole(file, 0)
            assert loaded(file, server) == loaded(file, redis) == 2


def peak_of(process):
    """The most MiB that a process has had until it ends. (What wait4 reports counts those of this process, too.)"""
    peak = 0
    while process.poll() is None:
        status = Path(f"/proc/{process.pid}/status").read_text()
        # (it is none of ours until it has become Python, and has none at its end)
        if "VmHWM:" in status and "fardump" in Path(f"/proc/{process.pid}/cmdline").read_text():
            peak = max(peak, int(status.partition("VmHWM:")[2].split()[0]) / 1024)
        time.sleep(0.002)
    return peak


def many_keys_take_little_memory(tried):
    """The most memory of fardump is the same with ten times as many keys."""
    peaks, counts = [], [20_000, 200_000] if tried.is_long else [2000, 20_000]
    for count in counts:
        file = tried.file()
        with tried.farserve(memory="128m") as server:
            fill(server, {b"key:%d" % at: (b"%0100d" % at, None) for at in range(count)})
            process = started(*words_for(server), file)
            peaks.append(peak_of(process))
            assert process.wait(PATIENCE) == 0, process.stderr.read()
        assert len(pairs_in(file)) == count
        is_whole(file, count)
    small, large = peaks
    assert large < small + 5 < 50, f"{small:.1f} and {large:.1f} MiB"
    return f"{small:.1f} and {large:.1f} MiB"


def large_values(tried):
    """Each has the most bytes that a value may have, so that it has no room in an EXEC with anything else. Small ones come between."""
    sizes = [1 << 20, (1 << 20) - 1, 700_000, 300_000, 5]
    pairs = {b"key%d" % at: (os.urandom(1000) + bytes(sizes[at % 5])[1000:], LATER if at % 3 else None) for at in range(60)}
    pairs.update({b"small%d" % at: (b"s", None) for at in range(2000)})
    file, path = tried.file(), tried.folder() / "socket"
    with tried.farserve("--unix", path) as server:
        fill(server, pairs)
        assert dumped(server, file) == pairs and dumped(["--unix", path], file) == pairs
    with tried.redis() as redis:
        loaded(file, redis)
        # More than a reader's pieces, and more than farserve takes.
        pairs[b"huge"] = (os.urandom(40 << 20), LATER)
        fill(redis, {b"huge": pairs[b"huge"]})
        assert dumped(redis, file) == pairs
        is_whole(file, len(pairs))


def deadlines_are_kept_and_over_ones_left_out(tried):
    now = int(time.time() * 1000)
    pairs = {b"key%d" % at: (b"v", now + 3_600_000 + at) for at in range(1000)}
    file = tried.file()
    with tried.farserve(far=None) as server, tried.redis() as redis:
        fill(server, pairs)
        fill(server, {b"over": (b"v", int(time.time() * 1000) + 300)})
        time.sleep(0.4)
        assert dumped(server, file) == pairs
        # A key whose deadline is over by the time of the load is no key afterwards.
        with open(file, "wb") as later:
            writer = dump_file.Writer(later.write)
            for key, (value, deadline) in [*pairs.items(), (b"soon", (b"v", now - 1000))]:
                writer.set(key, value, deadline)
            writer.end()
        is_whole(file, 1001)
        assert server.client().ask("FLUSHALL") == b"+OK\r\n"
        for target in (server, redis):
            assert loaded(file, target) == 1003
            assert contents(target, [*pairs, b"soon"]) == pairs


class Writers:
    """Clients that set keys, with a value that says its deadline, and remove them."""

    def __init__(self, server, keys, count=3):
        self.server, self.keys, self.ends, self.calls = server, keys, False, 0
        self.threads = [threading.Thread(target=self.run, args=(seed,), daemon=True) for seed in range(count)]

    def run(self, seed):
        draw, client = random.Random(seed), self.server.client()
        while not self.ends:
            asked = []
            for _ in range(20):
                key, kind, deadline = draw.choice(self.keys), draw.randrange(8), LATER + draw.randrange(10**6)
                if kind == 0:
                    asked.append(("DEL", key))
                elif kind == 1:
                    asked.append(("SET", key, "short", "PX", 1 + draw.randrange(20)))
                elif kind < 5:
                    asked.append(("SET", key, deadline, "PXAT", deadline))
                else:
                    asked.append(("SET", key, "none"))
            client.ask_all(asked)
            self.calls += len(asked)

    def __enter__(self):
        for it in self.threads:
            it.start()
        return self

    def __exit__(self, *_):
        self.ends = True
        for it in self.threads:
            it.join(PATIENCE)


def are_lawful(pairs):
    """Whether each value of a writer's has its own deadline."""
    for value, deadline in pairs.values():
        is_lawful = deadline is not None and deadline < LATER if value == b"short" else value == (b"none" if deadline is None else b"%d" % deadline)
        assert is_lawful, (value, deadline)


def keys_that_change_meanwhile(tried):
    """Keys that stay are all there. Of one that changes there is a value with its own deadline."""
    stay = {b"stays%d" % at: (b"%d" % at, LATER + at if at % 2 else None) for at in range(2000)}
    moving = [b"moves%d" % at for at in range(200)]
    found = 0
    for make in (tried.farserve, tried.redis):
        with make() as server:
            fill(server, stay)
            with Writers(server, moving) as writers:
                for _ in range(20 if tried.is_long else 3):
                    file = tried.file()
                    pairs = dumped(server, file)
                    is_whole(file, len(pairs))
                    assert {key: pairs.pop(key, None) for key in stay} == stay
                    assert set(pairs) <= set(moving)
                    are_lawful(pairs)
                    found += len(pairs)
            assert writers.calls > 1000
    assert found, "no key that changes was there"
    return f"{found} values of keys that changed"


def values_and_deadlines_belong_together(tried):
    """Without a process for each dump, so that there are many: some keys have to be asked for again then, which others change meanwhile."""
    moving, found, again = [b"moves%d" % at for at in range(100)], 0, 0
    for make in (tried.farserve, tried.redis):
        with make() as server, Writers(server, moving, 4):
            connection = dump_source.Connection(server.address, "the server", PATIENCE)
            connection.select()
            end = time.monotonic() + (60 if tried.is_long else 4)
            while time.monotonic() < end:
                source = dump_source.Source(connection)
                pairs = {key: (bytes(value), deadline) for key, value, deadline in source.pairs()}
                are_lawful(pairs)
                found, again = found + len(pairs), again + source.again
            connection.close()
    return f"{found} values, and {again} keys were asked for again"


def keys_stay_through_renewals(tried):
    """While the map is renewed again and again, each dump has all keys that stay."""
    stay = {b"stays%d" % at: (b"%d" % at, LATER + at if at % 2 else None) for at in range(2000)}
    with tried.farserve("--buckets", "2000", "--names", "40000") as server:
        fill(server, stay)
        watcher, dumps, renewals = server.client(), 0, 0
        with Writers(server, [b"moves%d" % at for at in range(100)]):
            while dumps < 5 or renewals < 3:
                pairs = dumped(server, tried.file())
                assert {key: pairs.get(key) for key in stay} == stay
                dumps, renewals = dumps + 1, int(watcher.info("far")["renewals"])
    return f"{dumps} dumps, {renewals} renewals"


def keys_that_are_no_strings(tried):
    file = tried.file()
    with tried.redis() as redis:
        client = fill(redis, {b"a": (b"1", None), b"b": (b"2", LATER)})
        assert client.ask("RPUSH", "hidden", "x") == b":1\r\n" and client.ask("HSET", "secret", "x", "y") == b":1\r\n"
        said = fails(3, "fardump: 2 keys are no strings, and were left out\n", *words_for(redis), file)
        assert len(said.splitlines()) == 1 and pairs_in(file) == {b"a": (b"1", None), b"b": (b"2", LATER)}
        is_whole(file, 2)


def a_dump_over_standard_output(tried):
    pairs = any_pairs(500)
    with tried.farserve(far=None) as server:
        fill(server, pairs)
        status, out, said = ran(*words_for(server), "-")
    file = tried.file()
    file.write_bytes(out)
    assert (status, said) == (0, "") and pairs_in(file) == pairs
    is_whole(file, len(pairs))
    with open(file, "rb") as given:
        assert ran("--check", "-", stdin=given) == (0, b"ok %d keys\n" % len(pairs), "")
    assert Path(file).stat().st_size == len(out)


TRIALS = [round_trips, several_databases, an_empty_map, many_keys_take_little_memory, large_values, deadlines_are_kept_and_over_ones_left_out,
          keys_that_change_meanwhile, values_and_deadlines_belong_together, keys_stay_through_renewals, keys_that_are_no_strings, a_dump_over_standard_output]
