"""Trials of server.py: how keys are stored: chosen ones are as fast as others, and what lists keys lists the clients'."""
import itertools
import random
import time

from server_keys import scan_all
from server_parts import NONE, OK

KEYS = 100_000
LONGEST = 65_528
TOO_LONG = b"-ERR key is too long\r\n"


def colliding():
    """Keys of one value of the table's hash, 31 * h + byte, which "Aa" and "BB" leave the same."""
    return [b"".join(it) for it in itertools.islice(itertools.product((b"Aa", b"BB"), repeat=17), KEYS)]


def seconds_to_set(client, keys, most=60):
    """How long it takes to set the keys, which may be so many seconds."""
    began = time.monotonic()
    for at in range(0, len(keys), 500):
        replies = client.ask_all([("SET", key, "1") for key in keys[at:at + 500]])
        assert replies == [OK] * len(replies), set(replies)
        took = time.monotonic() - began
        assert took < most, f"{at + 500} of {len(keys)} keys took {took:.1f} s, more than {most:.1f}"
    return took


def chosen_keys_are_as_fast_as_others(tried, _):
    chosen = colliding()
    others = [random.randbytes(len(chosen[0])) for _ in chosen]
    with tried.start(memory="64m", far=None) as server, server.client() as client:
        seconds_to_set(client, [b"first%d" % at for at in range(10_000)])
        plain = seconds_to_set(client, others)
        took = seconds_to_set(client, chosen, 5 * plain + 0.5)
        assert client.ask("EXISTS", *chosen[:1000]) == b":1000\r\n"
        return f"{took:.2f} s, random ones {plain:.2f} s"


def keys_come_back_as_they_were(tried, _):
    """SCAN and RANDOMKEY give the clients' keys, whatever their bytes."""
    with tried.start() as server, server.client() as client:
        keys = {b"", b"\x00", b"\xff\xfe\r\n\x00", b"k" * LONGEST, b"user:1"} | {random.randbytes(9) for _ in range(50)}
        assert client.ask_all([("SET", key, b"v" + key[:9]) for key in keys]) == [OK] * len(keys)
        found = scan_all(client, "COUNT", 1000)
        assert sorted(found) == sorted(keys)
        assert scan_all(client, "MATCH", "user:?", "COUNT", 1000) == [b"user:1"]
        assert all(client.value("GET", key) == b"v" + key[:9] for key in keys)
        assert {client.value("RANDOMKEY") for _ in range(200)} <= keys
        assert client.number("DEL", *keys) == len(keys) and client.ask("DBSIZE") == b":0\r\n"


def a_key_has_65528_bytes_at_most(tried, _):
    with tried.start() as server, server.client() as client:
        most, more = b"m" * LONGEST, b"m" * (LONGEST + 1)
        assert client.ask("SET", most, "1") == OK and client.ask("INCR", most) == b":2\r\n"
        for words in (("SET", more, "1"), ("GET", more), ("TTL", more), ("SETEX", more, 10, "1"), ("GETRANGE", more, 0, 1)):
            assert client.ask(*words) == TOO_LONG, words[0]
        assert client.ask("MGET", most, more, "none") == b"*3\r\n$1\r\n2\r\n" + TOO_LONG + NONE
        assert client.ask("EXISTS", most, more) == TOO_LONG and client.ask("DEL", more, most) == TOO_LONG
        assert client.ask("MSET", "a", "1", more, "2", "b", "3") == TOO_LONG
        assert client.ask("MGET", most, "a", "b") == b"*3\r\n$1\r\n2\r\n$1\r\n1\r\n" + NONE
        assert client.ask("MULTI") == OK and client.ask("GET", more) == b"+QUEUED\r\n"
        assert client.ask("EXEC") == b"*1\r\n" + TOO_LONG


TRIALS = [chosen_keys_are_as_fast_as_others, keys_come_back_as_they_were, a_key_has_65528_bytes_at_most]
