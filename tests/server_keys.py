"""Trials of server.py: what several clients see of the same keys, what expires, and what SCAN finds."""
import random
import threading
import time

import histories
from server_parts import NONE, OK, PATIENCE, bulk, request, until

CLIENTS = 4


def side_by_side(work, clients):
    """Does `work(at, client)` of each client in a thread, all at once, and gives what they give."""
    gate = threading.Barrier(len(clients))
    made, faults = [None] * len(clients), []

    def run(at):
        try:
            gate.wait(PATIENCE)
            made[at] = work(at, clients[at])
        except Exception as fault:
            faults.append(fault)

    threads = [threading.Thread(target=run, args=(at,), daemon=True) for at in range(len(clients))]
    for thread in threads:
        thread.start()
    for thread in threads:
        thread.join(PATIENCE * 3)
        assert not thread.is_alive(), "a client waits"
    if faults:
        raise faults[0]
    return made


def number_in(value):
    return int(value) if value is not None else 0


def answered(held, words):
    """What a map of one thread replies to a command, as the bytes that come, and does."""
    name, key, *values = words
    found = held.get(key)
    if name in ("INCR", "INCRBY"):
        held[key] = b"%d" % (number_in(found) + int(values[0] if values else 1))
        return b":%b\r\n" % held[key]
    if name == "APPEND":
        held[key] = (found or b"") + values[0]
        return b":%d\r\n" % len(held[key])
    if name == "SETNX":
        held.setdefault(key, values[0])
        return b":%d\r\n" % (found is None)
    if name == "EXISTS":
        return b":%d\r\n" % (found is not None)
    if name in ("DEL", "GETDEL"):
        held.pop(key, None)
        return b":%d\r\n" % (found is not None) if name == "DEL" else bulk(found)
    if name in ("SET", "GETSET"):
        held[key] = values[0]
        return OK if name == "SET" else bulk(found)
    return bulk(found)


def random_call(keys):
    name = random.choice(["GET", "GET", "SET", "GETSET", "DEL", "GETDEL", "SETNX", "INCR", "INCRBY", "APPEND", "EXISTS"])
    value = {"SET": 1, "GETSET": 1, "SETNX": 1, "INCRBY": 1, "APPEND": 1}
    values = [b"%d" % random.randrange(1, 10)] if name in value else []
    return (name, random.choice(keys), *values)


def replies_of(client, calls, piece):
    """Asks the calls, so many at once, and gives their replies and when each began and ended."""
    replies, times = [], []
    for at in range(0, len(calls), piece):
        part = calls[at:at + piece]
        began = time.monotonic()
        client.send(b"".join(request(*it) for it in part))
        for _ in part:
            replies.append(client.reply())
            times.append((began, time.monotonic()))
    return replies, times


def one_order_explains_several_clients(tried, counts):
    clients = [tried.server.client() for _ in range(CLIENTS)]
    reader = tried.server.client()
    for run in range(counts["histories"]):
        keys = [f"history{run}a", f"history{run}b"]
        calls = [[random_call(keys) for _ in range(random.randrange(2, 7))] for _ in clients]
        piece = random.choice([1, 2, 6])
        made = side_by_side(lambda at, client: replies_of(client, calls[at], piece), clients)
        asked = [list(zip(own, replies)) for own, (replies, _) in zip(calls, made)]
        left = {key: reader.value("GET", key) for key in keys}
        contents = [f"{key} {left[key]}" for key in sorted(left) if left[key] is not None]
        assert histories.is_found(asked, contents, answered, [times for _, times in made]), f"no order: {made}, {contents}"


def no_increment_is_lost(tried, counts):
    each = counts["increments"] // 8
    clients = [tried.server.client() for _ in range(8)]
    made = side_by_side(lambda _, client: client.ask_all([("INCR", "counted")] * each), clients)
    told = [[int(it[1:]) for it in replies] for replies in made]
    assert all(it == sorted(it) for it in told), "one client's replies go back"
    assert sorted(number for own in told for number in own) == list(range(1, 8 * each + 1))
    assert clients[0].value("GET", "counted") == b"%d" % (8 * each)


def appends_and_float_sums_are_kept(tried, _):
    clients = [tried.server.client() for _ in range(4)]
    side_by_side(lambda at, client: client.ask_all([("APPEND", "joined", b"%d" % at)] * 200), clients)
    joined = clients[0].value("GET", "joined")
    assert [joined.count(b"%d" % at) for at in range(4)] == [200] * 4
    side_by_side(lambda _, client: client.ask_all([("INCRBYFLOAT", "sum", "0.25")] * 100), clients)
    assert clients[0].value("GET", "sum") == b"100"


def values_expire(tried, _):
    client, other = tried.server.client(), tried.server.client()
    for name in ("brief", "extended", "kept", "moved"):
        assert client.ask("SET", name, "value", "PX", 2000) == OK
    assert client.ask("EXPIRE", "extended", 100) == b":1\r\n"
    assert client.ask("PERSIST", "kept") == b":1\r\n" and client.ask("TTL", "kept") == b":-1\r\n"
    assert 0 < client.number("PTTL", "moved") <= 2000
    assert other.value("GET", "brief") == b"value"
    time.sleep(2.1)
    for of in (client, other):
        assert of.ask("GET", "brief") == NONE and of.ask("TTL", "brief") == b":-2\r\n"
        assert of.ask("EXISTS", "brief", "moved", "kept", "extended") == b":2\r\n"
        assert 90 <= of.number("TTL", "extended") <= 98
    # A new value is not taken away with the old one.
    assert client.ask("SET", "brief", "new") == OK
    assert client.ask("INCR", "moved") == b":1\r\n" and client.ask("TTL", "moved") == b":-1\r\n"
    assert other.value("GET", "brief") == b"new"
    # A plain SET takes the deadline away, and KEEPTTL keeps it.
    assert client.ask("SET", "extended", "1", "KEEPTTL") == OK and client.number("TTL", "extended") > 90
    assert client.ask("SET", "extended", "1") == OK and client.ask("TTL", "extended") == b":-1\r\n"
    assert client.ask("EXPIRE", "extended", -1) == b":1\r\n" and client.ask("GET", "extended") == NONE


def what_expires_goes_though_nobody_meets_it(tried, _):
    with tried.start() as server:
        client = server.client()
        client.ask_all([("SET", f"stays{at}", "value") for at in range(100)] + [("SET", f"later{at}", "value", "EX", 1000) for at in range(100)])
        client.ask_all([("SET", f"brief{at}", "value", "PX", 2000) for at in range(500)])
        assert client.number("DBSIZE") > 200
        until(lambda: client.number("DBSIZE") == 200, "the end of what is expired")
        assert client.info("stats")["expired_keys"] == "500"
        # A further round begins with the next value that has a deadline.
        assert client.ask("SET", "brief", "value", "PX", 50) == OK
        until(lambda: client.number("DBSIZE") == 200, "the end of one more")


def scan_all(client, *options):
    """The keys that SCAN gives from 0 to 0."""
    cursor, found = b"0", []
    for _ in range(1_000_000):
        cursor, keys = client.strings("SCAN", cursor, *options)
        found += keys
        if cursor == b"0":
            return found
    raise AssertionError("SCAN does not end")


def scan_gives_every_key_that_stays(tried, _):
    client, other = tried.server.client(), tried.server.client()
    assert client.ask("FLUSHALL") == OK and client.ask("DBSIZE") == b":0\r\n"
    assert client.ask("RANDOMKEY") == NONE and scan_all(client, "COUNT", "1000") == []
    stay = {b"stay%d" % at for at in range(2000)}
    client.ask_all([("SET", it, "1") for it in stay])
    going, ends = True, []

    def come_and_go():
        while going:
            names = [b"goes%d" % random.randrange(500) for _ in range(50)]
            other.ask_all([("SET", it, "1") for it in names] + [("DEL", it) for it in names])
        ends.append(True)

    thread = threading.Thread(target=come_and_go, daemon=True)
    thread.start()
    for line in ("COUNT 10", "COUNT 1", "COUNT 100000", "MATCH stay* COUNT 100", "TYPE string COUNT 500"):
        options = line.split()
        found = scan_all(client, *options)
        assert stay <= set(found), f"{options}: {len(stay - set(found))} keys are missing"
        assert all(it.startswith((b"stay", b"goes")) for it in found)
        assert "MATCH" not in options or set(found) == stay
    going = False
    thread.join(PATIENCE)
    assert ends, "the other client failed"
    assert set(scan_all(client, "MATCH", "stay1?", "COUNT", "1000")) == {b"stay1%d" % at for at in range(10)}
    assert scan_all(client, "TYPE", "list", "COUNT", "1000") == []
    assert client.number("DBSIZE") == len(scan_all(client, "COUNT", "1000")) == len(stay)
    assert client.value("RANDOMKEY") in stay
    assert other.ask("FLUSHDB") == OK and client.ask("DBSIZE") == b":0\r\n" and client.ask("GET", "stay1") == NONE


def a_page_of_scan_holds_up_nobody(tried, _):
    """A page looks at 1,000 keys and 65,536 buckets at most, whatever COUNT says, and goes on over empty buckets up to that."""
    if tried.is_redis:
        return "(skipped: redis-server takes any COUNT)"
    with tried.start(memory="128m", far=None) as server, server.client() as client:
        cursor, pages = b"0", 0
        while cursor != b"0" or not pages:
            cursor, keys = client.strings("SCAN", cursor)
            assert keys == []
            pages += 1
        assert pages <= 64, pages
        client.ask_all([("SET", f"key{at}", "1") for at in range(20_000)])
        cursor, found, longest, slowest = b"0", 0, 0, 0
        while cursor != b"0" or not found:
            began = time.monotonic()
            cursor, keys = client.strings("SCAN", cursor, "COUNT", 1_000_000_000)
            slowest = max(slowest, time.monotonic() - began)
            found, longest = found + len(keys), max(longest, len(keys))
        assert found == 20_000 and longest < 1_200 and slowest < 5, (found, longest, slowest)
        return f"an empty server has {pages} pages; {longest} keys at most, {slowest * 1000:.0f} ms at most"


def scan_gives_the_keys_of_one_database(tried, _):
    """Among many more keys of another one, and with patterns: just those of the database, each once."""
    client, other = tried.server.client(), tried.server.client()
    assert client.ask("FLUSHALL") == OK and other.ask("SELECT", 3) == OK
    assert client.ask_all([("SET", f"key:{at}", at) for at in range(5000)]) == [OK] * 5000
    assert other.ask_all([("SET", f"key:{at}", at) for at in range(4990, 5020)]) == [OK] * 30
    own, theirs = sorted(scan_all(client)), sorted(scan_all(other))
    assert own == sorted(b"key:%d" % at for at in range(5000))
    assert theirs == sorted(b"key:%d" % at for at in range(4990, 5020))
    assert sorted(scan_all(other, "MATCH", "key:499?")) == sorted(b"key:%d" % at for at in range(4990, 5000))
    assert all(4990 <= int(other.value("RANDOMKEY")[4:]) < 5020 for _ in range(20))
    assert other.ask("FLUSHDB") == OK and other.number("DBSIZE") == 0 and scan_all(other) == []
    assert client.number("DBSIZE") == 5000 and len(scan_all(client)) == 5000


TRIALS = [one_order_explains_several_clients, no_increment_is_lost, appends_and_float_sums_are_kept, values_expire,
          what_expires_goes_though_nobody_meets_it, scan_gives_every_key_that_stays, scan_gives_the_keys_of_one_database, a_page_of_scan_holds_up_nobody]
