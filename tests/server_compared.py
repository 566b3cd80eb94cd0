"""Random commands, of which redis-server and the server are to reply byte for byte the same on one connection each."""
import random
import re
import time

from server_parts import OK, Redis, bulk, request

KEYS = [b"a", b"b", b"c", b"key:1", b"key:2", b"key:3", b"", b"\x00\xff\r\n", b"counter", b"long" * 60]
VALUES = [b"", b"0", b"1", b"-1", b"17", b"x", b"some text", b"\r\n", b"\x00\x01\xfe", b"9223372036854775807",
          b"-9223372036854775808", b"1.5", b" 1", b"01", b"z" * 300, b"0.25", b"nan"]
NUMBERS = [b"0", b"1", b"-1", b"5", b"-7", b"100", b"9223372036854775807", b"-9223372036854775808", b"9223372036854775808", b"x",
           b"", b"1.0", b" 1", b"+1"]
OFFSETS = [b"0", b"1", b"2", b"7", b"8", b"15", b"100", b"4294967295", b"4294967296", b"-1", b"x", b"01", b""]
PLACES = [b"0", b"1", b"-1", b"3", b"-3", b"100", b"-100", b"x", b"9223372036854775807"]
# Of these sums no digit is lost, by numbers of 64 bits and of 80.
STEPS = [b"0.5", b"-0.25", b"1.5", b"2", b"-3", b"1024.125", b"abc", b"", b"1e2"]
OPTIONS = [b"NX", b"XX", b"GET", b"KEEPTTL"]
# Seconds that are long beside the trial's, and such as are refused.
SECONDS = [b"1000", b"5000", b"100000", b"0", b"-1", b"x", b"9223372036854775807"]
UNKNOWN = [b"NOTHING", b"nothing\r\n", b"x" * 200]
# Commands that need an argument.
ALONE = [b"GET", b"SET", b"MSET", b"INCR", b"EXPIRE", b"DEL", b"GETRANGE", b"AUTH", b"ECHO", b"CLIENT"]
LINES = [b"PING\r\n", b"ping\n", b"GET a\r\n", b"SET a 1\n", b"  GET   a  \r\n", b"NOTHING here\r\n", b"\r\n", b"ECHO\n"]
# A difference of so much, in the reply's unit, between the times that are told.
SLACK = {b"TTL": 1, b"PTTL": 50, b"EXPIRETIME": 1, b"PEXPIRETIME": 50}


def later(unit, past=True):
    """A time that is far from now, or long past, in seconds or milliseconds."""
    now = int(time.time())
    return b"%d" % (random.choice([now + 1000, now + 100000, *[1] * past]) * unit)


def key():
    return random.choice(KEYS)


def value():
    return random.choice(VALUES)


def deadline():
    """Words that say how long a value lasts, of SET; not one that is past, since Redis may count its key for a while."""
    return random.choice([
        (b"EX", random.choice(SECONDS)), (b"PX", random.choice(SECONDS) + b"000"), (b"EXAT", later(1, past=False)),
        (b"PXAT", later(1000, past=False)), (b"EX",), (b"PERSIST",),
    ])


def words_of_set():
    words = [it for it in OPTIONS if random.random() < 0.2]
    if random.random() < 0.3:
        words += deadline()
    return (b"SET", key(), value(), *words)


def words_of_getex():
    """Redis passes over a lifetime that is none where the key has no value."""
    ends = [(b"EX", b"1000"), (b"PX", b"5000000"), (b"EXAT", later(1)), (b"PXAT", later(1000))]
    return (b"GETEX", key(), *random.choice([*ends, (b"PERSIST",), (b"EX",), ()]))


def words_of_expiry():
    name = random.choice([b"EXPIRE", b"PEXPIRE", b"EXPIREAT", b"PEXPIREAT"])
    if name.endswith(b"AT"):
        when = later(1000 if name[:1] == b"P" else 1)
    else:
        when = random.choice(SECONDS) + (b"000" if name[:1] == b"P" else b"")
    only = [(), (), (), (b"NX",), (b"XX",), (b"GT",), (b"LT",), (b"NX", b"XX"), (b"GT", b"LT"), (b"no",)]
    return (name, key(), when, *random.choice(only))


def keys(most):
    return [key() for _ in range(random.randrange(1, most))]


# The databases that are used. After a SELECT of another one farserve and redis-server differ, see `refused_selects_are_those_of_redis`.
DATABASES = [b"0", b"1", b"1", b"15"]
# What SELECT refuses.
NO_DATABASES = [b"16", b"-1", b"x", b"00", b"1.0", b"", b"2147483648", b"-9223372036854775808", b"9223372036854775808"]


# What is asked, by how often.
ASKED = [
    (12, words_of_set),
    (12, lambda: (b"GET", key())),
    (3, lambda: (b"SETEX", key(), random.choice(SECONDS), value())),
    (2, lambda: (b"PSETEX", key(), random.choice(SECONDS) + b"000", value())),
    (3, lambda: (b"SETNX", key(), value())),
    (3, lambda: (b"GETSET", key(), value())),
    (3, lambda: (b"GETDEL", key())),
    (4, words_of_getex),
    (5, lambda: (random.choice([b"DEL", b"UNLINK"]), *keys(4))),
    (3, lambda: (random.choice([b"EXISTS", b"TOUCH"]), *keys(5))),
    (3, lambda: (b"STRLEN", key())),
    (5, lambda: (b"APPEND", key(), value())),
    (4, lambda: (b"GETRANGE", key(), random.choice(PLACES), random.choice(PLACES))),
    (3, lambda: (b"GETBIT", key(), random.choice(OFFSETS))),
    (3, lambda: (b"SETRANGE", key(), random.choice([*PLACES[:6], b"-1"]), value())),
    (6, lambda: (random.choice([b"INCR", b"DECR"]), random.choice([b"counter", key()]))),
    (5, lambda: (random.choice([b"INCRBY", b"DECRBY"]), random.choice([b"counter", key()]), random.choice(NUMBERS))),
    (4, lambda: (b"SET", random.choice([b"counter", b"float"]), random.choice([b"0", b"10", b"-3", b"0.5", b"text"]))),
    (4, lambda: (b"INCRBYFLOAT", b"float", random.choice(STEPS))),
    (5, lambda: (b"MGET", *keys(6))),
    (4, lambda: (b"MSET", *(it for pair in ((key(), value()) for _ in range(random.randrange(1, 4))) for it in pair))),
    (1, lambda: (b"MSET", *[value()] * random.randrange(5))),
    (6, lambda: (random.choice(list(SLACK)), key())),
    (8, words_of_expiry),
    (3, lambda: (b"PERSIST", key())),
    (3, lambda: (b"TYPE", key())),
    (3, lambda: (b"DBSIZE",)),
    (1, lambda: (random.choice([b"FLUSHALL", b"FLUSHDB"]), *random.choice([(), (b"SYNC",), (b"ASYNC",), (b"no",)]))),
    (2, lambda: (b"PING", *random.choice([(), (b"text",), (b"a", b"b")]))),
    (2, lambda: (b"ECHO", value())),
    (4, lambda: (b"SELECT", random.choice(DATABASES))),
    (2, lambda: (b"CLIENT", b"GETNAME")),
    (2, lambda: (b"CLIENT", b"SETNAME", random.choice([b"me", b"", b"a b"]))),
    (2, lambda: (random.choice(UNKNOWN), *random.choice([(), (b"one",), (b"one", b"y" * 200, b"two")]))),
    (3, lambda: (random.choice(ALONE),)),
    (2, lambda: (random.choice([b"get", b"Set", b"strLEN", b"mget"]), key(), *[value()] * random.randrange(2))),
    (2, lambda: (b"AUTH", *random.choice([(b"any",), (b"default", b"any"), (b"a", b"b", b"c")]))),
]


def queued():
    """A transaction: mostly what is asked anyway, and now and then one that is refused, is nested or is given up."""
    inner = [command() for _ in range(random.randrange(5))]
    inner = [it for it in inner if it[0].upper() not in (b"DBSIZE", *SLACK)]
    if random.random() < 0.1:
        inner.append((b"MULTI",))
    return [(b"MULTI",), *inner, random.choice([(b"EXEC",), (b"EXEC",), (b"DISCARD",)])]


def command():
    return random.choices([it for _, it in ASKED], [often for often, _ in ASKED])[0]()


def brief_life():
    """A value that is gone before it is asked for again."""
    name = key()
    return [random.choice([(b"SET", name, b"brief", b"PX", b"15"), (b"PSETEX", name, b"15", b"brief")]), None,
            random.choice([(b"GET", name), (b"TTL", name), (b"EXISTS", name), (b"SET", name, b"new", b"XX")]), (b"GET", name)]


def inline():
    """The same without lengths, as somebody types it."""
    return random.choice(LINES)


def commands(count):
    """As many commands: each is a tuple of words, bytes that are sent as they are, or None, where it is waited."""
    made = []
    while len(made) < count:
        draw = random.random()
        if draw < 0.04:
            made += queued()
        elif draw < 0.06:
            made += brief_life()
        elif draw < 0.08:
            made.append(inline())
        elif draw < 0.085:
            made += [(b"RESET",)]
        else:
            made.append(command())
    return made


def is_close(asked, own, theirs):
    """Whether two replies tell the same, and times nearly the same."""
    slack = SLACK.get(asked[0].upper()) if isinstance(asked, tuple) and asked else None
    if slack and own != theirs and own[:1] == theirs[:1] == b":":
        own, theirs = int(own[1:]), int(theirs[1:])
        return min(own, theirs) >= 0 and abs(own - theirs) <= slack
    return own == theirs


def replies_are_those_of_redis(tried, counts):
    seed = random.randrange(1 << 32)
    random.seed(seed)
    with Redis(tried.work) as peer:
        own, theirs = tried.server.client(), peer.client()
        for client in (own, theirs):
            client.ask("FLUSHALL")
        for number, asked in enumerate(commands(counts["commands"])):
            if asked is None:
                time.sleep(0.03)
                continue
            data = request(*asked) if isinstance(asked, tuple) else asked
            own.send(data)
            theirs.send(data)
            if re.fullmatch(rb"\s*", data):
                continue
            told = own.reply(), theirs.reply()
            assert is_close(asked, *told), f"seed {seed}, command {number}, {asked}: {told[0]} and not {told[1]}"
        assert own.ask("PING") == theirs.ask("PING")


def refused_selects_are_those_of_redis(tried, counts):
    """SELECT itself replies as Redis does. After a refused one redis-server still has the old database, and farserve has none."""
    if tried.is_redis:
        return
    with Redis(tried.work) as peer:
        own, theirs = tried.server.client(), peer.client()
        for client in (own, theirs):
            assert client.ask("FLUSHALL") == OK and client.ask("SET", "k", "v") == OK
        for word in NO_DATABASES:
            assert own.ask("SELECT", word) == theirs.ask("SELECT", word), word
            assert theirs.ask("GET", "k") == bulk(b"v")
            told = own.ask("GET", "k")
            assert re.fullmatch(rb"-ERR no database is selected, since SELECT (-?[0-9]+ )?was refused\r\n", told), (word, told)
            for words in (("FLUSHALL",), ("FLUSHDB",), ("DEL", "k"), ("SCAN", "0"), ("DBSIZE",), ("RANDOMKEY",)):
                assert own.ask(*words) == told, (word, words)
            assert own.ask("PING") == theirs.ask("PING")
            assert own.ask("SELECT", "0") == theirs.ask("SELECT", "0") == OK
            assert own.ask("GET", "k") == bulk(b"v")
        for words in (("SELECT",), ("SELECT", "1", "2"), ("GET", "k")):
            assert own.ask(*words) == theirs.ask(*words), words


def databases_are_those_of_redis(tried, counts):
    """What is of one database, and what is of all: also within EXEC, and what INFO says of them."""
    asked = [("FLUSHALL",), ("MSET", "a", "0", "b", "0"), ("SELECT", "3"), ("SET", "a", "3"), ("DBSIZE",), ("MULTI",), ("GET", "a"), ("SELECT", "0"),
             ("GET", "a"), ("SELECT", "7"), ("SET", "c", "7"), ("EXEC",), ("GET", "c"), ("DBSIZE",), ("INFO", "keyspace"), ("RANDOMKEY",),
             ("SELECT", "3"), ("FLUSHDB",), ("DBSIZE",), ("RANDOMKEY",), ("INFO", "keyspace"), ("SELECT", "0"), ("DBSIZE",), ("MGET", "a", "b"),
             ("MULTI",), ("SELECT", "7"), ("DISCARD",), ("DBSIZE",), ("SELECT", "7"), ("RESET",), ("DBSIZE",), ("SELECT", "9"), ("FLUSHALL",), ("DBSIZE",),
             ("SELECT", "0"), ("DBSIZE",), ("SELECT", "7"), ("DBSIZE",), ("INFO", "keyspace"), ("CONFIG", "GET", "databases")]
    with Redis(tried.work) as peer:
        own, theirs = tried.server.client(), peer.client()
        for number, words in enumerate(asked):
            assert own.ask(*words) == theirs.ask(*words), f"command {number}, {words}"


def as_many_databases_as_are_asked_for(tried, _):
    """By an option of farserve alone."""
    for count in () if tried.is_redis else (1, 3, 256):
        with tried.start("--databases", count) as server:
            client = server.client()
            assert client.ask("SELECT", count - 1) == OK and client.ask("SET", "k", "v") == OK
            assert client.ask("SELECT", count).startswith(b"-ERR DB index is out of range")
            assert client.strings("CONFIG", "GET", "databases") == [b"databases", b"%d" % count]
            assert f"db{count - 1}:keys=1,".encode() in client.value("INFO", "keyspace")


TRIALS = [replies_are_those_of_redis, refused_selects_are_those_of_redis, databases_are_those_of_redis, as_many_databases_as_are_asked_for]
