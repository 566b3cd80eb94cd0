"""What soak.py has checked: clients of redis-py, each with keys of its own, which know what their values are."""
import random
import threading
import time

import redis

PATIENCE = 60
KEYS = 400
PIECE = 8
# In seconds, and in milliseconds: less than goes by until a key is written anew.
LONGEST_EXPIRY = 20
SHORT_EXPIRY = 5, 50, 200
MOST_VALUE = 20_000


class Wrong(Exception):
    """A reply that no order of eviction and expiry explains."""


class Checker:
    """A client that alone writes its keys, and so knows each value, unless it was evicted or has expired: then it is missed. Any
    other reply is wrong. Keys with `n` are counters, the others texts that have their key and a number of their own in them."""

    def __init__(self, address, seed):
        self.client = redis.Redis(*address, socket_timeout=PATIENCE)
        self.random = random.Random(seed)
        self.keys = [f"soak{seed}:{'n' if at % 4 == 0 else 't'}{at}" for at in range(KEYS)]
        # Of a key that was set and not seen missed: its value, and from and until when it may expire, or None.
        self.held = {}
        self.made, self.calls, self.lost, self.refused = 0, 0, 0, 0
        self.fault = None
        self.is_ended = threading.Event()
        self.thread = threading.Thread(target=self.run, daemon=True)

    def run(self):
        try:
            while not self.is_ended.is_set():
                self.turn()
        except Exception as fault:
            self.fault = f"{type(fault).__name__}: {str(fault)[:500]}"

    def end(self):
        self.is_ended.set()
        self.thread.join(PATIENCE)
        self.client.close()

    def text(self, key):
        self.made += 1
        start = f"{key}={self.made};"
        return (start * (self.random.choice((20, 500, MOST_VALUE)) // len(start) + 1)).encode()

    def call(self, key):
        """A command on the key, as the words of it."""
        draw = self.random.random()
        if draw < 0.35:
            return "GET", key
        if draw < 0.45:
            return "DEL", key
        value = b"%d" % self.random.randrange(10**9) if ":n" in key else self.text(key)
        if draw < 0.6:
            return "SET", key, value
        if draw < 0.75:
            if draw < 0.68:
                return "SET", key, value, "EX", self.random.randrange(1, LONGEST_EXPIRY)
            return "SET", key, value, "PX", self.random.choice(SHORT_EXPIRY)
        return ("INCR", key) if ":n" in key else ("APPEND", key, b"+%d" % self.made)

    def turn(self):
        """Asks one command, several in a pipeline or between MULTI and EXEC, or MGET."""
        keys = self.random.sample(self.keys, PIECE)
        draw = self.random.random()
        began = time.time()
        if draw < 0.15:
            replies = self.client.mget(keys)
            for key, reply in zip(keys, replies):
                self.check(("GET", key), reply, began)
            return
        calls = [self.call(key) for key in keys]
        if draw < 0.5:
            pipeline = self.client.pipeline(transaction=draw < 0.3)
            for words in calls:
                pipeline.execute_command(*words)
            replies = pipeline.execute(raise_on_error=False)
        else:
            calls, replies = calls[:1], [self.one(calls[0])]
        for words, reply in zip(calls, replies, strict=True):
            self.check(words, reply, began)

    def one(self, words):
        try:
            return self.client.execute_command(*words)
        except redis.ResponseError as error:
            return error

    def now_held(self, key, began):
        """The value that the key must have where it is not missed, None where it must be missed."""
        value, deadlines = self.held.get(key, (None, None))
        return None if deadlines and began > deadlines[1] else value

    def check(self, words, reply, began):
        """Looks whether the reply to a command, asked after `began`, is right, and notes what is held from then on."""
        name, key, *rest = words
        self.calls += 1
        wanted = self.now_held(key, began)
        kept = self.held.pop(key, None)
        if isinstance(reply, redis.ResponseError):
            # Room was waited for in vain, and what stood stands. Later versions of redis-py have a class in place of the word.
            if "OOM" not in str(reply) and type(reply).__name__ != "OutOfMemoryError":
                raise Wrong(f"{words[:2]}: {reply}")
            self.refused += 1
            if kept:
                self.held[key] = kept
        elif name == "SET":
            after = rest[2] / (1000 if rest[1] == "PX" else 1) if rest[1:] else 0
            # The server counts whole milliseconds.
            ends = (began + after - 0.001, time.time() + after) if after else None
            self.require(reply in (True, b"OK"), words, reply, wanted)
            self.held[key] = rest[0], ends
        elif name == "GET":
            self.require(reply is None or reply == wanted, words, reply, wanted)
            self.keep(key, kept, reply, wanted is not None and reply is not None)
        elif name == "DEL":
            self.require(reply == 0 or reply == 1 and wanted is not None, words, reply, wanted)
            self.lost += reply == 0 and self.is_sure(kept)
        elif name == "INCR":
            follows = wanted is not None and reply == int(wanted) + 1
            self.require(follows or reply == 1, words, reply, wanted)
            self.keep(key, kept, b"%d" % reply, follows)
        else:
            follows = wanted is not None and reply == len(wanted) + len(rest[0])
            self.require(follows or reply == len(rest[0]), words, reply, wanted)
            self.keep(key, kept, wanted + rest[0] if follows else rest[0], follows)

    def keep(self, key, kept, value, follows):
        """Notes the value of a key, which has its old deadline where it follows from what was held, and else is new."""
        if value is not None:
            self.held[key] = value, kept[1] if follows else None
        if not follows:
            self.lost += self.is_sure(kept)

    def is_sure(self, kept):
        """Whether what was held can't have expired yet, and so was evicted."""
        return bool(kept) and (kept[1] is None or time.time() < kept[1][0])

    def require(self, is_right, words, reply, wanted):
        if not is_right:
            told = [it if it is None else it[:60] for it in (reply if isinstance(reply, bytes) else str(reply), wanted)]
            raise Wrong(f"{words[:2]}: the reply is {told[0]}, and what was set is {told[1]}")
