"""Trials of server.py: a server whose far tier is redis-server, which is killed, stopped, emptied and proxied."""
import contextlib
import random
import shutil
import socket
import tempfile
import time

import histories
from server_keys import CLIENTS, answered, random_call, replies_of, side_by_side
from server_parts import MEBIBYTE, NONE, OK, PONG, bulk, request, until
from stores_parts import Proxied, Store

# What a refusal begins with. Behind it is the reason (server_reasons.py).
FAILED = b"-ERR far device failed: "
# Seconds that a reply of the store may take here. What takes less than most of them has waited for none.
SHORT = 2
SOON = SHORT * 0.9
# As many values as do not fit into memory, of so many bytes.
COUNT, SIZE = 3000, 30_000


def value(number):
    return b"%0*d" % (SIZE, number)


def over(tried, store, *options, memory="48m"):
    return tried.start("--far-resp", store.address, "--far-timeout", SHORT, *options, memory=memory, far=None)


def filled(client, count=COUNT):
    """Sets values, most of which then lie in the store."""
    for first in range(0, count, 10):
        told = client.ask_all([("SET", f"key{at}", value(at)) for at in range(first, min(first + 10, count))])
        assert set(told) == {OK}, told
    return int(client.info()["far_objects"])


def outcomes(client, numbers):
    """How many of these keys have their value and how many the named refusal, and how long the slowest took. Nothing else is right."""
    good = refused = 0
    slowest = 0
    for number in numbers:
        began = time.monotonic()
        told = client.ask("GET", f"key{number}")
        slowest = max(slowest, time.monotonic() - began)
        is_refused = told.startswith(FAILED)
        assert is_refused or told == bulk(value(number)), (number, told[:60])
        good, refused = good + (not is_refused), refused + is_refused
    return good, refused, slowest


def what_has_no_room_lies_in_a_store(tried, _):
    with Store(tried.work) as store, over(tried, store) as server:
        client, far = server.client(), store.client()
        objects = filled(client)
        assert objects > 1000 and far.number("DBSIZE") >= objects, (objects, far.number("DBSIZE"))
        assert outcomes(client, range(COUNT))[:2] == (COUNT, 0)
        told = client.info()
        assert told["device_failures"] == told["lost_buckets"] == "0" and int(told["swap_ins"]) > 0, told
        assert server.peak() < 48 * MEBIBYTE * 1.15, server.peak()
        assert client.ask("FLUSHALL") == OK
        until(lambda: client.ask("SET", "k", "1") == OK and far.number("DBSIZE") <= 1, "the end of the objects in the store")
    return f"{objects} objects in the store"


def a_killed_store_is_named(tried, _):
    with Store(tried.work) as store, over(tried, store) as server:
        client = server.client()
        objects = filled(client)
        store.kill()
        good, refused, slowest = outcomes(client, range(COUNT))
        assert good > 100 and refused > 1000 and slowest < SOON, (good, refused, slowest)
        # No call waits for a store that is away, and what needs no room there goes on.
        told = client.ask("GET", "none")
        assert told == NONE or told.startswith(FAILED), told
        recent = [it for it in range(COUNT) if not client.ask("GET", f"key{it}").startswith(FAILED)]
        assert client.ask("SET", f"key{recent[0]}", value(recent[0])) == OK
        with Store(tried.work, store.folder):
            def is_back():
                told = client.ask("SET", "back", b"b" * 100)
                assert told == OK or told.startswith((b"-OOM", b"-ERR far device")), told
                return outcomes(client, range(0, COUNT, 50))[1] > 0 and int(client.info()["lost_buckets"]) > 0
            until(is_back, "a store that is back, and what it has lost")
            good, refused, _ = outcomes(client, range(COUNT))
            lost = int(client.info()["lost_buckets"])
            assert good > 100 and refused > 1000 and lost >= refused / 3, (good, refused, lost)
            # New values go there and come back.
            fresh = [(f"new{at}", value(at)) for at in range(COUNT)]
            kept = [key for key, told in zip(fresh, (client.ask("SET", *it) for it in fresh)) if told == OK]
            told = [client.ask("GET", key) for key, _ in kept]
            assert len(kept) > 1000 and told == [bulk(it) for _, it in kept], (len(kept), len(told))
    return f"of {objects} objects {lost} are told as lost; {len(kept)} new values behind it"


def a_stopped_store_is_late(tried, _):
    with Store(tried.work) as store, over(tried, store) as server:
        client = server.client()
        filled(client)
        store.stop()
        began = time.monotonic()
        good, refused, slowest = outcomes(client, range(0, COUNT, 10))
        took = time.monotonic() - began
        # Each of four connections waits once, and no call behind that.
        assert good > 10 and refused > 100 and SOON < slowest < 5 * SHORT and took < 12 * SHORT, (good, refused, slowest, took)
        store.go_on()
        until(lambda: outcomes(client, range(0, COUNT, 10))[1] == 0, "all values again")
        # What was moved while the store was late may have been taken back; nothing is lost, and nothing is wrong.
        assert outcomes(client, range(COUNT))[:2] == (COUNT, 0) and client.info()["lost_buckets"] == "0"
    return f"{refused} of {good + refused} refused, the slowest after {slowest:.1f} s"


def others_go_on_beside_a_stopped_store(tried, _):
    """Clients of values in memory are answered while the store is stopped, by threads that wait for no call to it."""
    with Store(tried.work) as store, over(tried, store, "--threads", 4) as server:
        client = server.client()
        filled(client)
        assert all(client.ask("SET", f"hot{at}", "1") == OK for at in range(100))
        store.stop()
        outcomes(client, range(0, COUNT, 20))
        # Some may have gone to the store before it stopped. None goes there from now on.
        near = [at for at in range(100) if client.ask("GET", f"hot{at}") == bulk(b"1")]
        assert len(near) > 10, f"{len(near)} of 100 are in memory"
        slowest, until_then = 0, time.monotonic() + 3
        while time.monotonic() < until_then:
            began = time.monotonic()
            assert client.ask("GET", f"hot{random.choice(near)}") == bulk(b"1")
            slowest = max(slowest, time.monotonic() - began)
        assert slowest < SOON, slowest
        store.go_on()
    return f"the slowest of {len(near)} values after {slowest * 1000:.1f} ms"


def is_refusal(reply):
    return reply.startswith((b"-ERR far device", b"-OOM"))


def one_order_over_a_store_that_comes_and_goes(tried, counts):
    """Short runs of several clients, of values most of which lie in the store, while it is stopped, and is killed and started anew."""
    refused, runs = 0, counts["histories"] // 4
    with contextlib.ExitStack() as stores, Store(tried.work) as store, over(tried, store, "--buckets", 64, memory="32m") as server:
        clients = [server.client() for _ in range(CLIENTS)]
        reader = server.client()
        for run in range(runs):
            keys = [f"history{run}a", f"history{run}b"]
            # They push what stood before into the store, and lie in the buckets of the others.
            reader.ask_all([("SET", f"large{random.randrange(200)}", b"l" * 300_000) for _ in range(100 if run == 0 else 10)])
            calls = [[random_call(keys) for _ in range(random.randrange(2, 6))] for _ in clients]
            if run == runs * 3 // 4:
                store.kill()
                store = stores.enter_context(Store(tried.work, store.folder))
            elif run % 10 == 3:
                store.stop()
            elif run % 10 == 6:
                store.go_on()
            made = side_by_side(lambda at, client: replies_of(client, calls[at], 1), clients)
            left = {key: reader.ask("GET", key) for key in keys}
            asked, times = [], []
            for own, (replies, when) in zip(calls, made):
                kept = [at for at, reply in enumerate(replies) if not is_refusal(reply)]
                refused += len(replies) - len(kept)
                asked.append([(own[at], replies[at]) for at in kept])
                times.append([when[at] for at in kept])
            contents = None
            if not any(map(is_refusal, left.values())):
                values = {key: told[told.index(b"\n") + 1:-2] for key, told in left.items() if told != NONE}
                contents = [f"{key} {values[key]}" for key in sorted(values)]
            assert histories.is_found(asked, contents, answered, times), f"no order: {made}, {contents}"
        lost = reader.info()["lost_buckets"]
    assert refused > runs // 4, f"{refused} calls were refused in {runs} runs"
    return f"{refused} calls were refused in {runs} runs, {lost} buckets were lost"


def a_store_that_refuses_writes_is_left_alone(tried, _):
    """The store becomes a copy of one that is not there: it answers reads, and refuses all else. Then it takes writes again."""
    with Store(tried.work) as store, over(tried, store, "--threads", 1) as server:
        client, other, far = server.client(), server.client(), store.client()
        objects = filled(client)
        assert client.info()["far_state"] == "ok"
        assert far.ask("REPLICAOF", "127.0.0.1", "1") == OK

        def asked():
            """How many writes and removals the store has refused. Reads go on, as many as there are commands."""
            told = far.info("commandstats").values()
            return sum(int(it.partition("rejected_calls=")[2].partition(",")[0] or 0) for it in told)
        before, began, refused, took = asked(), time.monotonic(), 0, {"SET": [], "DEL": []}
        gone = set()
        while time.monotonic() < began + 5:
            at, now = random.randrange(COUNT), time.monotonic()
            # A key that goes leaves its object in the store, to be removed some day. Only some hundreds of these may wait.
            asked_for = ("DEL", f"key{at}") if now > began + 2 else ("SET", f"key{at}", value(at))
            client.send(request(*asked_for))
            assert other.ask("PING") == PONG
            told = client.reply()
            took[asked_for[0]].append(time.monotonic() - now)
            assert told in (OK, b":0\r\n", b":1\r\n") or told.startswith((FAILED, b"-OOM")), told
            refused += told.startswith(b"-")
            if told == b":1\r\n":
                gone.add(at)
        rate = (asked() - before) / (time.monotonic() - began)
        # Some may be late since the machine is busy.
        late = {name: sum(it >= .1 for it in seconds) / len(seconds) for name, seconds in took.items()}
        slowest = {name: max(it) for name, it in took.items()}
        assert refused > 10 and 0 < rate < 40 and max(late.values()) <= .25 and max(slowest.values()) < 5, (refused, rate, late, slowest)
        assert client.info()["far_state"] == "resting"
        # Reads go on meanwhile.
        left = [it for it in range(COUNT) if it not in gone]
        good, lost, _ = outcomes(client, left[::10])
        assert lost == 0, (good, lost)
        before, began = asked(), time.monotonic()
        time.sleep(2)
        idle = (asked() - before) / (time.monotonic() - began)
        assert idle < 20, idle
        assert far.ask("REPLICAOF", "NO", "ONE") == OK
        until(lambda: client.ask("SET", "key0", value(0)) == OK and client.info()["far_state"] == "ok", "writes that are taken again")
        assert outcomes(client, left)[:2] == (len(left), 0)
    return f"of {objects} objects; {len(gone)} removed, {refused} refused, the slowest {slowest}; {rate:.0f} refused writes a second, {idle:.0f} idle"


def several_stores_behind_a_proxy(tried, _):
    if shutil.which("nutcracker") is None:
        return "(skipped: no nutcracker)"
    with Proxied(tried.work) as two, over(tried, two) as server:
        client = server.client()
        objects = filled(client)
        each = [it.client().number("DBSIZE") for it in two.stores]
        assert min(each) > 300 and outcomes(client, range(COUNT))[:2] == (COUNT, 0), each
        two.stores[0].kill()
        good, refused, _ = outcomes(client, range(COUNT))
        assert refused > 200 and good > refused / 2, (good, refused)
    return f"{each} objects of {objects}; with one killed {refused} of {COUNT} are refused"


def a_store_asks_for_a_password(tried, _):
    with tempfile.NamedTemporaryFile("w") as good, tempfile.NamedTemporaryFile("w") as bad, Store(tried.work) as store:
        for file, text in ((good, "far secret\nno more of it\n"), (bad, "another\n")):
            file.write(text)
            file.flush()
        assert store.client().ask("CONFIG", "SET", "requirepass", "far secret") == OK
        with over(tried, store, "--far-password-file", good.name) as server:
            client = server.client()
            assert client.ask("PING") == PONG and filled(client, 1500) > 100
            assert outcomes(client, range(1500))[:2] == (1500, 0)
        for options in ((), ("--far-password-file", bad.name)):
            said = over(tried, store, *options).ended(1)
            assert f"far store {store.address}: " in said and "password" in said, said


def faults_of_a_store_at_the_start(tried, _):
    with socket.create_server(("127.0.0.1", 0)) as silent, socket.create_server(("127.0.0.1", 0)) as free:
        gone = free.getsockname()[1]
        free.close()
        said = tried.start("--far-resp", f"127.0.0.1:{gone}", far=None).ended(1)
        assert f"far store 127.0.0.1:{gone}: Connection refused" in said, said
        place = f"127.0.0.1:{silent.getsockname()[1]}"
        said = tried.start("--far-resp", place, "--far-timeout", 1, far=None).ended(1)
        assert f"far store {place}: " in said and "within 1 second" in said, said
    for options, text in [
        (("--far-resp", "nowhere"), "--far-resp nowhere: neither HOST:PORT nor the path of a socket"),
        (("--far-resp", ":1"), "--far-resp :1: neither"), (("--far-resp", "host:0"), "--far-resp host:0: neither"),
        (("--far-resp", "host:65536"), "neither"), (("--far-resp", "/" + "x" * 107), "neither"), (("--far-resp", ""), "neither"),
        (("--far-resp", "h:1", "--far", tried.work), "--far: it is of folders, and --far-resp takes their place"),
        (("--far-resp", "h:1", "--far-limit", "1m"), "--far-limit: it is of folders"),
        (("--far-timeout", 1), "--far-timeout: it is of a store, and there is no --far-resp"),
        (("--far-password-file", "x"), "--far-password-file: it is of a store"),
        (("--far-resp", "h:1", "--far-timeout", 0), "0"), (("--far-resp", "h:1", "--far-timeout", 3601), "3601"),
    ]:
        said = tried.start(*options, far=None).ended(1 if text is None else 2)
        assert text in said, (options, said)


TRIALS = [what_has_no_room_lies_in_a_store, a_killed_store_is_named, a_stopped_store_is_late, others_go_on_beside_a_stopped_store,
          one_order_over_a_store_that_comes_and_goes, a_store_that_refuses_writes_is_left_alone, several_stores_behind_a_proxy, a_store_asks_for_a_password,
          faults_of_a_store_at_the_start]
