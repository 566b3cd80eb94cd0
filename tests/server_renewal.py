"""Trials of server.py: a server whose names are few begins a new map many times, under load, and no reply is lost."""
import os
import random
import shutil
import subprocess
import threading
import time
from pathlib import Path

import histories
from server_keys import CLIENTS, answered, random_call, replies_of, scan_all, side_by_side
from server_parts import MEBIBYTE, NONE, OK, PATIENCE, ROOT, bulk, request, until
from stores_parts import Store

# With so many names for so few buckets a renewal comes behind some two thousand changes, or some two hundred.
FEW = ("--buckets", 128, "--names", 2048)
FEWEST = ("--buckets", 8, "--names", 256)
SLACK = 1.15
RENEWALS = 100
WRITERS = 6


def renewals(client):
    return int(client.info("far")["renewals"])


def nothing_is_lost(client):
    told = client.info("far")
    assert told["renewal_lost_pairs"] == told["renewal_lost_buckets"] == "0", told


class Writer:
    """A client that sets, changes and reads keys of its own, and knows each reply, and counts with the others in shared keys."""

    def __init__(self, number, client):
        self.client, self.number = client, number
        self.held, self.counted, self.slowest = {}, {}, 0
        self.chance = random.Random(number)

    def command(self):
        """A command on a key of its own, and its reply."""
        key = f"own{self.number}:{self.chance.randrange(40)}"
        words = ("SET", "GET", "GET", "APPEND", "DEL", "INCR", "GETSET", "EXISTS", "SETNX")
        name = self.chance.choice(words)
        if name == "INCR":
            key = f"number{self.number}:{self.chance.randrange(5)}"
        values = [b"%d" % self.chance.randrange(10**6)] if name in ("SET", "APPEND", "GETSET", "SETNX") else []
        asked = (name, key, *values)
        return asked, answered(self.held, asked)

    def turn(self):
        """Some commands in one piece; each reply is looked at."""
        own = [self.command() for _ in range(self.chance.randrange(1, 12))]
        shared = f"shared{self.chance.randrange(4)}"
        began = time.monotonic()
        told = self.client.ask_all([*(asked for asked, _ in own), ("INCR", shared)])
        self.slowest = max(self.slowest, time.monotonic() - began)
        for (asked, reply), came in zip(own, told):
            assert came == reply, (asked, came, reply)
        assert told[-1][:1] == b":", told[-1]
        self.counted.setdefault(shared, []).append(int(told[-1][1:]))

    def all_stands(self):
        keys = sorted(self.held)
        told = self.client.ask_all([("GET", key) for key in keys])
        assert told == [bulk(self.held[key]) for key in keys], "a key has another value"


def one_byte_after_another(client, ended):
    """Sends a request so slowly that renewals come in its midst, again and again, and looks at each reply."""
    sent = 0
    while not ended():
        for byte in request("INCR", "slow"):
            client.send(bytes([byte]))
            time.sleep(0.005)
        sent += 1
        assert client.reply() == b":%d\r\n" % sent
    return sent


def names_are_renewed_under_load(tried, counts):
    """A hundred times, and more where the trials are long."""
    wanted = RENEWALS * max(1, counts["increments"] // 20_000)
    with tried.start(*FEW) as server:
        control = server.client()
        writers = [Writer(at, server.client()) for at in range(WRITERS)]
        idle, waiting, slow = server.client(), server.client(), server.client()
        assert idle.ask("CLIENT", "SETNAME", "idle") == OK and idle.ask("SET", "idle", "value", "EX", 1000) == OK
        assert waiting.ask("MULTI") == OK and waiting.ask("INCR", "queued") == b"+QUEUED\r\n"
        ended, slowly = [], []
        thread = threading.Thread(target=lambda: slowly.append(one_byte_after_another(slow, lambda: bool(ended))), daemon=True)
        thread.start()
        longest, limit = 0, time.monotonic() + 10 * PATIENCE
        while renewals(control) < wanted:
            assert time.monotonic() < limit, f"{renewals(control)} renewals"

            def work(_, writer):
                for _ in range(40):
                    writer.turn()
            side_by_side(work, writers)
            longest = max(longest, int(control.info("far")["renewal_last_ms"]))
        ended.append(True)
        thread.join(PATIENCE)
        assert slowly, "the slow client failed"
        made = renewals(control)
        for writer in writers:
            writer.all_stands()
        for shared in {it for writer in writers for it in writer.counted}:
            told = sorted(number for writer in writers for number in writer.counted.get(shared, []))
            assert told == list(range(1, len(told) + 1)), f"{shared}: a reply is lost or came twice"
            assert control.value("GET", shared) == b"%d" % len(told)
        # What a connection had said before stands.
        assert idle.value("CLIENT", "GETNAME") == b"idle" and 900 < idle.number("TTL", "idle") <= 1000
        assert waiting.ask("EXEC") == b"*1\r\n:1\r\n" and slow.value("GET", "slow") == b"%d" % slowly[0]
        held = {key for writer in writers for key in writer.held} | {"idle", "queued", "slow", "shared0", "shared1", "shared2", "shared3"}
        assert {it.decode() for it in scan_all(control, "COUNT", "100")} == held and control.number("DBSIZE") == len(held)
        nothing_is_lost(control)
    slowest = max(it.slowest for it in writers)
    return f"{made} renewals, the longest pause {longest} ms, the slowest reply {slowest * 1000:.0f} ms, {slowly[0]} slow requests"


def one_order_explains_clients_across_renewals(tried, counts):
    across, runs = 0, counts["histories"]
    with tried.start(*FEWEST) as server:
        clients = [server.client() for _ in range(CLIENTS)]
        reader = server.client()
        for run in range(runs):
            keys = ["a", "b"]
            reader.ask("DEL", *keys)
            before = renewals(reader)
            calls = [[random_call(keys) for _ in range(random.randrange(6, 14))] for _ in clients]
            piece = random.choice([1, 2, 6])
            made = side_by_side(lambda at, client: replies_of(client, calls[at], piece), clients)
            asked = [list(zip(own, replies)) for own, (replies, _) in zip(calls, made)]
            across += renewals(reader) > before
            left = {key: reader.value("GET", key) for key in keys}
            contents = [f"{key} {left[key]}" for key in sorted(left) if left[key] is not None]
            assert histories.is_found(asked, contents, answered, [times for _, times in made]), f"no order: {made}, {contents}"
        nothing_is_lost(reader)
    assert across > runs // 20, f"a renewal came in {across} of {runs} runs"
    return f"a renewal came in {across} of {runs} runs"


def renew(client, times):
    """Changes a key until so many more renewals came, and gives the longest pause."""
    wanted, longest = renewals(client) + times, 0
    limit = time.monotonic() + 10 * PATIENCE
    while renewals(client) < wanted:
        assert time.monotonic() < limit, "no renewal comes"
        told = client.ask_all([("INCR", "renewing")] * 500)
        assert all(it[:1] == b":" for it in told), told
        longest = max(longest, int(client.info("far")["renewal_last_ms"]))
    return longest


def stands(client, values):
    names = list(values)
    for at in range(0, len(names), 100):
        part = names[at:at + 100]
        told = client.ask_all([("GET", it) for it in part])
        assert told == [bulk(values[it]) for it in part], f"a value is not what was set, behind {at} others"


def set_all(client, values):
    names = list(values)
    for at in range(0, len(names), 50):
        told = client.ask_all([("SET", it, values[it]) for it in names[at:at + 50]])
        assert set(told) == {OK}, told


def filled(client, count, size):
    values = {f"key{at}": b"%0*d" % (size, at) for at in range(count)}
    set_all(client, values)
    return values


def renewed_twice(client, count, size, least):
    """So many values, of which more than `least` objects lie far, stand behind two renewals: gives them, the objects, and the longest
    pause."""
    values = filled(client, count, size)
    far = int(client.info("far")["far_objects"])
    assert far > least, far
    longest = renew(client, 2)
    stands(client, values)
    nothing_is_lost(client)
    return values, far, longest


def what_lies_on_disk_is_renewed(tried, _):
    with tried.start("--buckets", 16384, "--names", 16 * 16384, memory="32m") as server:
        client = server.client()
        _, far, longest = renewed_twice(client, 20_000, 4000, 5000)
        peak, scratch = server.peak(), server.scratch()
        assert peak < 32 * MEBIBYTE * SLACK, f"{peak / MEBIBYTE:.1f} MiB were resident"
        assert client.ask("FLUSHALL") == OK and client.ask("DBSIZE") == b":0\r\n" and client.ask("GET", "key1") == NONE
    return f"{far} objects on disk, the longest pause {longest} ms, {peak / MEBIBYTE:.1f} MiB of 32, {scratch / MEBIBYTE:.0f} MiB of files"


def what_fills_memory_is_renewed(tried, _):
    with tried.start("--buckets", 65536, "--names", 16 * 65536, memory="48m", far=None) as server:
        client = server.client()
        values, at = {}, 0
        while True:
            part = {f"key{number}": b"%064d" % number for number in range(at, at + 200)}
            told = client.ask_all([("SET", *it) for it in part.items()])
            values.update({key: value for (key, value), reply in zip(part.items(), told) if reply == OK})
            at += 200
            if any(reply != OK for reply in told):
                break
        assert client.ask("DEL", *list(values)[:50]) == b":50\r\n"
        values = dict(list(values.items())[50:])
        pause = renew(client, 1)
        stands(client, values)
        nothing_is_lost(client)
        peak = server.peak()
        assert peak < 48 * MEBIBYTE * SLACK, f"{peak / MEBIBYTE:.1f} MiB were resident"
    return f"{len(values)} values, a pause of {pause} ms, {peak / MEBIBYTE:.1f} MiB of 48"


def what_a_store_lost_goes(client, far, values):
    """Has the store lose all: each call for what lay there is refused until a FLUSHALL meets it, which has the map renewed."""
    assert far.ask("FLUSHALL") == OK
    told = [client.ask("GET", it) for it in values]
    good, refused = (sum(it[:1] == first for it in told) for first in (b"$", b"-"))
    assert good and refused and good + refused == len(told), (good, refused)
    before = renewals(client)
    assert client.ask("FLUSHALL") == b"-ERR far device failed: store has lost the object\r\n"
    until(lambda: renewals(client) == before + 1, "a renewal by FLUSHALL")
    assert client.ask("FLUSHALL") == OK and client.ask("DBSIZE") == b":0\r\n"
    set_all(client, values)
    stands(client, values)
    told = client.info("far")
    lost = int(told["renewal_lost_buckets"])
    assert lost > 0 and told["renewal_lost_pairs"] == told["lost_buckets"] == "0", told
    return lost


def what_lies_in_a_store_is_renewed(tried, _):
    options = ("--far-timeout", 1, "--buckets", 4096, "--names", 16 * 4096)
    with Store(tried.work) as store, tried.start("--far-resp", store.address, *options, memory="48m", far=None) as server:
        client, far = server.client(), store.client()
        values, objects, longest = renewed_twice(client, 3000, 30_000, 1000)
        told = int(client.info("far")["far_objects"])
        # Nothing of earlier maps is left there.
        assert abs(far.number("DBSIZE") - told) <= 8, (far.number("DBSIZE"), told)
        lost = what_a_store_lost_goes(client, far, values)
    return f"{objects} objects in the store, the longest pause {longest} ms; {lost} buckets were lost with them, and went by FLUSHALL"


def faults_of_the_names(tried, _):
    for options, text in [(("--names", 0), "0"), (("--names", "x"), "x"), (("--names", (1 << 40) + 1), str((1 << 40) + 1)),
                          (("--buckets", 4096, "--names", 4096), "4096")]:
        said = tried.start(*options, far=None).ended(2)
        assert text in said and "--names" in said, (options, said)


def files_that_can_not_be_cut_end_nothing(tried, _):
    """A renewal begins its scratch files anew. If the system refuses to cut them they are written again as they are."""
    if shutil.which("cc") is None:
        return "(skipped: no cc)"
    library = Path(tried.work) / "fail_cut.so"
    subprocess.run(["cc", "-O", "-Wall", "-shared", "-fPIC", "-o", library, ROOT / "tests/fail_cut.c"], check=True)
    os.environ["LD_PRELOAD"] = str(library)
    try:
        server = tried.start(*FEW, memory="32m", far="uncut")
    finally:
        del os.environ["LD_PRELOAD"]
    with server:
        client = server.client()
        values = {f"key{at}": b"%03d" % at * 15_000 for at in range(300)}
        for turn in range(8):
            for name, value in values.items():
                told = client.ask("SET", name, value)
                assert told == OK, (turn, name, told)
            wrong = [it for it, value in values.items() if client.value("GET", it) != value]
            assert not wrong, (turn, wrong[:5])
        assert renewals(client) > 2
        nothing_is_lost(client)
        assert server.scratch() > MEBIBYTE
        return f"{renewals(client)} renewals"


TRIALS = [names_are_renewed_under_load, one_order_explains_clients_across_renewals, what_lies_on_disk_is_renewed,
          what_fills_memory_is_renewed, what_lies_in_a_store_is_renewed, files_that_can_not_be_cut_end_nothing, faults_of_the_names]
