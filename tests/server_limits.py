"""Trials of server.py: no request ends a worker, whatever it is or makes of its reply, and what is bounded is bounded."""
import math
import random
import time
from collections import Counter

from server_parts import MEBIBYTE, NONE, OK, PONG, bulk, request, until

# What the server may hold at once in these trials, by its own count of resident bytes.
MOST_RESIDENT = 600 * MEBIBYTE
# As much memory as has the greatest bound on replies, and few buckets.
MUCH = {"memory": "4g"}
FEW = ("--buckets", 1000)
# The longest value, and how many of them the reply to one request has room for.
VALUE = b"x" * MEBIBYTE
MOST_VALUES = 63
TOO_LARGE = b"-ERR reply is too large\r\n"
LONG_NAME = b"-ERR Client names cannot be longer than 1024 bytes.\r\n"
MANY_ARGUMENTS = b"-ERR Protocol error: unauthenticated multibulk length\r\n"
LONG_ARGUMENT = b"-ERR Protocol error: unauthenticated bulk length\r\n"
NO_LOGIN = b"-NOAUTH Authentication required.\r\n"
# A trial of chance fails less often than once in so many runs where nothing is wrong.
RUNS = 10**10


def array(*replies):
    return b"*%d\r\n" % len(replies) + b"".join(replies)


def executed(client, *asked):
    """The reply to EXEC of these."""
    told = client.ask_all([("MULTI",), *asked, ("EXEC",)])
    assert told[:-1] == [OK] + [b"+QUEUED\r\n"] * len(asked), told[:-1]
    return told[-1]


def is_well(server):
    server.answers()
    assert server.peak() < MOST_RESIDENT, f"{server.peak() >> 20} MiB were resident"


def an_mget_has_a_bounded_reply(tried, _):
    """What would pass the bound is refused whole, and what does not is answered whole."""
    with tried.start(*FEW, **MUCH) as server, server.client() as client:
        assert client.ask("SET", "k", VALUE) == OK and client.ask("SET", "small", "1") == OK
        for count in (MOST_VALUES + 1, 80, 4200):
            assert client.ask("MGET", *["k"] * count) == TOO_LARGE, count
        assert client.ask("MGET", *["small"] * 5000) == array(*[bulk(b"1")] * 5000)
        assert client.ask("MGET", *["k"] * MOST_VALUES) == array(*[bulk(VALUE)] * MOST_VALUES)
        assert client.ask("GET", "k") == bulk(VALUE)
        is_well(server)


def an_exec_has_a_bounded_reply(tried, _):
    """From the first command on for which there is no room each has an error, and none is run."""
    with tried.start(*FEW, **MUCH) as server, server.client() as client:
        assert client.ask("SET", "k", VALUE) == OK
        got = [("GET", "k")]
        said = executed(client, *got * 70, ("SET", "later", "1"), ("INCR", "number"))
        assert said == array(*[bulk(VALUE)] * MOST_VALUES, *[TOO_LARGE] * (70 - MOST_VALUES + 2))
        assert client.ask("MGET", "later", "number") == array(NONE, NONE)
        # An array within stays within the same bound, and one that is refused leaves room for others.
        said = executed(client, *got * 30, ("MGET", *["k"] * 40), ("MGET", *["k"] * 20), ("SET", "later", "1"))
        assert said == array(*[bulk(VALUE)] * 30, TOO_LARGE, array(*[bulk(VALUE)] * 20), OK)
        assert client.ask("GET", "later") == bulk(b"1")
        said = executed(client, *[("SET", f"key{at}", "1") for at in range(2000)])
        assert said == array(*[OK] * 2000)
        is_well(server)


def other_replies_are_bounded(tried, _):
    """Long requests, and requests of long replies, of one command each."""
    most = 8 * MEBIBYTE
    with tried.start("--value-limit", "8m", memory="512m") as server, server.client() as client:
        echoed = b"e" * (2 * most - len("ECHO"))
        assert client.ask("ECHO", echoed) == bulk(echoed)
        long = b"v" * most
        assert client.ask("SET", "long", long) == OK
        for asked in (("GETRANGE", "long", 0, -1), ("GET", "long"), ("GETDEL", "long")):
            assert client.ask(*asked) == bulk(long)
        assert client.ask("CLIENT", "SETNAME", "n" * 1024) == OK
        for name in ("n" * 1025, "n" * (4 * MEBIBYTE)):
            assert client.ask("CLIENT", "SETNAME", name) == LONG_NAME
            assert client.ask("HELLO", "2", "SETNAME", name) == LONG_NAME
        assert client.value("CLIENT", "GETNAME") == b"n" * 1024
        assert client.ask("HELLO", "2", "SETNAME", "short").startswith(b"*14\r\n")
        assert client.value("CLIENT", "GETNAME") == b"short"
        docs = client.ask("COMMAND", "DOCS", "get")
        assert client.ask("COMMAND", "DOCS", *["get"] * 65_000) == docs
        assert client.ask("KEYS", "*").startswith(b"-ERR 'keys' is not supported")
        assert len(client.ask("x" * 4_000_000)) < 1000
        is_well(server)


def a_page_of_scan_is_bounded(tried, _):
    """Long keys, many more than a page has room for."""
    names = {b"%03d" % at + b"k" * 60_000 for at in range(300)}
    with tried.start() as server, server.client() as client:
        for name in names:
            assert client.ask("SET", name, "1") == OK
        cursor, found, pages = b"0", set(), 0
        while cursor != b"0" or not pages:
            said = client.strings("SCAN", cursor, "COUNT", 100_000_000)
            cursor, keys = said
            assert sum(len(it) for it in keys) <= MEBIBYTE
            found.update(keys)
            pages += 1
        assert found == names, f"{len(names - found)} are missing"
        said = executed(client, *[("SCAN", "0", "COUNT", 100_000_000)] * 40)
        assert len(said) < 41 * MEBIBYTE
        is_well(server)
    return f"{pages} pages"


def pages_of(client):
    """The keys of each bucket that has one: SCAN of one key gives those of one bucket."""
    cursor, pages = b"0", []
    while cursor != b"0" or not pages:
        cursor, keys = client.strings("SCAN", cursor, "COUNT", 1)
        pages.append(keys)
    return [it for it in pages if it]


def each_key_is_drawn_as_often_as_it_should(tried, counts):
    """RANDOMKEY draws one of the buckets that have a key, and one of its keys, each as often as any other.

    Let p be how often a key should come, of n draws. By Hoeffding's inequality its share differs from p by more than e with a chance of
    2 exp(-2 n e^2) at most. With e as large as here that is less than 1 of RUNS for all keys together. That 1,000 draws of a bucket
    meet no key, after which the next one in order is taken, has a chance below 10^-35, as 5 of 64 buckets have keys at least. That 16
    names fall into fewer has one below 10^-13.
    """
    seed = random.randrange(1 << 32)
    print(f"the seed of the keys' names: {seed}", flush=True)
    names = [b"%d" % it for it in random.Random(seed).sample(range(10**9), 16)]
    draws = counts["draws"]
    margin = math.sqrt(math.log(2 * len(names) * RUNS) / (2 * draws))
    orders = []
    for _ in range(2):
        with tried.start("--buckets", 64) as server:
            client = server.client()
            client.ask_all([("SET", it, "1") for it in names])
            pages = pages_of(client)
            assert sorted(it for page in pages for it in page) == sorted(names)
            assert len(pages) > 4, "the hash puts all keys into few buckets"
            drawn = []
            for at in range(4):
                other = server.client()
                for _ in range(0, draws // 4, 1000):
                    drawn += other.ask_all([("RANDOMKEY",)] * 1000)
            orders.append(drawn[:200])
            often = Counter(drawn)
            assert set(often) <= {bulk(it) for it in names}
            for page in pages:
                should = 1 / (len(pages) * len(page))
                for key in page:
                    share = often[bulk(key)] / len(drawn)
                    assert abs(share - should) < margin, f"seed {seed}: {key} has {share}, not {should}"
    # The shares of a draw are 1/5 at most, so that two starts agree in 200 of them less often than once in 10^139.
    assert orders[0] != orders[1], "two starts draw the same"
    return f"{2 * draws} draws of {len(names)} keys in {len(pages)} buckets, each share within {margin:.4f}"


def an_expired_key_is_not_drawn(tried, _):
    with tried.start() as server:
        client = server.client()
        client.ask_all([("SET", f"brief{at}", "1", "PX", 30) for at in range(500)])
        time.sleep(0.05)
        assert client.ask("RANDOMKEY") == NONE
        assert client.ask("SET", "stays", "1") == OK
        client.ask_all([("SET", f"brief{at}", "1", "PX", 30) for at in range(500)])
        time.sleep(0.05)
        assert set(client.ask_all([("RANDOMKEY",)] * 20)) == {bulk(b"stays")}


def an_unauthenticated_client_asks_for_little(tried, _):
    """Where a password is set a large request of who has not said it is refused, and its connection is closed."""
    words = tried.runtime.parent / "limits_password"
    words.write_text("secret\n")
    login, reset = request("AUTH", "secret"), request("RESET")
    large = [(["PING"] + ["x"] * 10, MANY_ARGUMENTS), (["GET", "k" * 16_385], LONG_ARGUMENT),
             (["MGET"] + ["k" * 16_385] * 10, MANY_ARGUMENTS), (["SET"] + ["k"] * 60_000, MANY_ARGUMENTS),
             (["AUTH", "s" * 100_000], LONG_ARGUMENT)]
    small = [["MGET"] + ["k"] * 9, ["GET", "k" * 16_384]]
    with tried.start("--password-file", words) as server:
        for arguments, refusal in large:
            # The bytes behind RESET are under way when it is answered.
            with server.client() as client:
                client.send(login + reset + request(*arguments) + request("PING"))
                assert [client.reply() for _ in range(3)] == [OK, b"+RESET\r\n", refusal], arguments[:2]
                assert client.is_ended()
            with server.client() as client:
                assert client.ask("AUTH", "secret") == OK and client.ask("RESET") == b"+RESET\r\n"
                client.send(request(*arguments))
                assert client.reply() == refusal, arguments[:2]
                assert client.is_ended()
        for arguments in small:
            with server.client() as client:
                client.send(login + reset + request(*arguments) + login + request("PING"))
                assert [client.reply() for _ in range(5)] == [OK, b"+RESET\r\n", NO_LOGIN, OK, PONG]
                # Who has logged in asks for as much as ever.
                assert client.ask("MGET", *["k"] * 5000) == array(*[NONE] * 5000)
                assert client.ask("SET", "k", VALUE) == OK and client.ask("DEL", "k") == b":1\r\n"
        with server.client() as client:
            assert client.ask("AUTH", "secret") == OK
            until(lambda: client.info("clients")["connected_clients"] == "1", "the end of the others")


def a_look_at_an_empty_map_is_short(tried, _):
    """RANDOMKEY and FLUSHALL look at each of 4,194,304 empty buckets, and read none. They took 147 and 226 ms when they did."""
    with tried.start("--buckets", 4_194_304, memory="1g", far=None) as server, server.client() as client:
        took = {}
        for command, reply in (("RANDOMKEY", NONE), ("FLUSHALL", OK)):
            before = server.processor_seconds()
            for _ in range(20):
                assert client.ask(command) == reply
            # What others do on this machine is not in it.
            took[command] = (server.processor_seconds() - before) / 20
    assert max(took.values()) < 0.05, took
    return ", ".join(f"{command} took {seconds * 1e3:.0f} ms of a processor" for command, seconds in took.items())


TRIALS = [an_mget_has_a_bounded_reply, an_exec_has_a_bounded_reply, other_replies_are_bounded, a_page_of_scan_is_bounded,
          each_key_is_drawn_as_often_as_it_should, an_expired_key_is_not_drawn, an_unauthenticated_client_asks_for_little,
          a_look_at_an_empty_map_is_short]
