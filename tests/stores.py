"""Runs farrun with its devices in redis-server: stores.py FARTABLE FARRUN WORK.

Over a store that does what it should, farrun prints what fartable does. Over one that is killed, stopped, emptied or full, and over
a peer that replies something else, each command is replied as a map does, or refused and changes nothing: `device`, or where no
frame can be emptied or no old version removed `full` and `limbo full`. Behind it what lies in frames goes on, and what the store
still has. The contents are told whole, or refused as `device`. Each trial tells how often what was refused, and is wrong where
nothing was that has to be.
"""
import contextlib
import os
import random
import re
import shutil
import signal
import subprocess
import sys
import tempfile
import time
from collections import Counter

from histories import calls, is_one_after_another
from random_runs import command
from server_parts import PATIENCE, ROOT
from stores_parts import Bridge, Proxied, Ran, Store

USAGE = "usage: farrun [--far DIR | --far-resp-in PIPE --far-resp-out PIPE]... [--lanes N] BUCKETS FRAMES LIMIT FILE..."
KEY = re.compile(rb"[0-9a-f]{32}:([0-9a-f]{2}):[0-9a-f]{16}")
# Nearly each key alone in its bucket, and few frames, so that nearly all lie in the store.
SETTINGS = [4096, 16, 4096]
KEYS = [f"k{at:03}" for at in range(150)]
FRESH = [f"n{at:03}" for at in range(150)]
FILE = [
    *(f"put {key} {key}-1" for key in KEYS), *(f"get {key}" for key in KEYS), *(f"put {key} {key}-2" for key in KEYS),
    *(f"del {key}" for key in KEYS[::2]), *(f"get {key}" for key in KEYS), *(f"put {key} {key}-1" for key in FRESH),
    *(f"get {key}" for key in FRESH + KEYS),
]
# Lanes, the part of a run's requests, and whether a store is broken before that request or behind it.
PARTS = [(1, .03, "before"), (1, .4, "behind"), (1, .75, "before"), (4, .1, "behind"), (4, .5, "before"), (4, .98, "behind")]


class Trials:
    def __init__(self, fartable, farrun, work):
        self.fartable, self.farrun, self.work = fartable, farrun, work
        self.wrong = self.count = 0
        self.chance = random.Random(1)

    def expect(self, holds, what):
        if not holds:
            self.wrong += 1
            print(f"WRONG: {what}")

    def run(self, what, files, bridge, settings=SETTINGS, may_lack=False, may="device"):
        """A run that has a history, and is refused nothing but what it may be."""
        self.count += 1
        ran = Ran(self.farrun, settings, files, bridge)
        fault = ran.fault(may_lack)
        self.expect(fault is None, f"{what}: {fault}")
        # A file that holds may be told so over any device.
        others = set(ran.refused()) - {"held already", *may.split(", ")}
        self.expect(not others, f"{what}: refused as {others}")
        return ran

    def random_files(self, count):
        return [[command(self.chance, file, at) for at in range(40)] for file in range(count)]

    def requests(self, store, lanes):
        """How many requests a run makes over a store that does what it should."""
        return self.run("a run to count requests", [FILE], Bridge(store, lanes)).bridge.number


def same_as_fartable(trials, store):
    many = [f"put key{at * 7919 % 400} {at}" for at in range(1000)]
    examples = {name: (ROOT / f"examples/{name}.txt").read_text().splitlines() for name in ("first", "swapped", "other")}
    sets = [[examples["first"]], [examples["swapped"]], [examples["first"], examples["other"]], [many]]
    clients = [it.client() for it in store.stores]
    for files in sets:
        settings = [256, 16, 4096] if files == [many] else [4, 2, 4096]
        with tempfile.TemporaryDirectory() as folder:
            names = []
            for at, file in enumerate(files):
                names.append(os.path.join(folder, str(at)))
                with open(names[-1], "w") as out:
                    out.write("".join(f"{it}\n" for it in file))
            wanted = subprocess.run([trials.fartable, *map(str, settings), *names], capture_output=True, text=True, timeout=60).stdout
        for lanes in (1, 4):
            trials.count += 1
            for client in clients:
                client.ask("FLUSHALL")
                client.ask("CONFIG", "RESETSTAT")
            bridge = Bridge(store, lanes)
            ran = Ran(trials.farrun, settings, files, bridge)
            what = f"{len(files)} files, the first of {len(files[0])} lines, {lanes} lanes"
            trials.expect((ran.status, ran.out, ran.err, bridge.faults) == (0, wanted, "", []),
                          f"{what}: not what fartable prints: {ran.status}, {ran.err!r}, {bridge.faults}, {ran.out[:400]!r}")
            asked = sum((counted(client) for client in clients), Counter())
            trials.expect(asked == bridge.verbs, f"{what}: the stores were asked {asked}, and the bridge {bridge.verbs}")
            if files == [many]:
                look_at_keys(trials, clients, lanes, what)
                trials.expect(min(asked.values(), default=0) > 500, f"{what}: few requests: {asked}")
                print(f"as fartable, {lanes} lanes: {dict(bridge.verbs)}")


def counted(client):
    """How often a store was asked which of a device's commands."""
    told = client.info("commandstats")
    names = {name: told.get(f"cmdstat_{name.lower()}") for name in ("SET", "GET", "DEL")}
    return Counter({name.encode(): int(re.match("calls=([0-9]+)", it).group(1)) for name, it in names.items() if it})


def look_at_keys(trials, clients, lanes, what):
    """The keys that a run left, some in each store, and that the pattern of crates/resp_device/README.md finds them all."""
    trials.expect(all(client.number("DBSIZE") > 10 for client in clients), f"{what}: few keys")
    keys = [key for client in clients for key in client.strings("KEYS", "*")]
    named = [KEY.fullmatch(key) for key in keys]
    trials.expect(keys and all(named), f"{what}: keys {keys[:3]}")
    told = {(key[:32], it.group(1)) for key, it in zip(keys, named) if it}
    trials.expect(len({lane for _, lane in told}) == len(told) and all(int(lane, 16) < lanes for _, lane in told),
                  f"{what}: prefixes and lanes {told}")
    pattern = re.search(r"--pattern '(.*?)'", (ROOT / "crates/resp_device/README.md").read_text()).group(1)
    matching = [key for client in clients for key in client.strings("KEYS", pattern)]
    trials.expect(matching == keys, f"{what}: {len(matching)} of {len(keys)} keys match {pattern}")


def side_by_side(trials, store, runs=20):
    """Random files on threads, which are seen to run side by side, and to ask over each lane."""
    beside, refused, lanes = 0, Counter(), Counter()
    for number in range(runs):
        count = trials.chance.choice([1, 4])
        files = trials.random_files(trials.chance.randint(2, 3))
        ran = trials.run(f"run {number} on threads", files, Bridge(store, count),
                         [trials.chance.choice([1, 4, 64]), trials.chance.randint(1, 8), 4096], may="full, limbo full")
        refused += ran.refused()
        if count == 4:
            lanes.update(at for at, asked in enumerate(ran.bridge.requests) if asked)
        if ran.contents is not None:
            made = [calls(file, lines) for file, lines in zip(files, ran.replies)]
            beside += not is_one_after_another(made, ran.contents)
    trials.expect(beside > 0, "on threads: no files ran side by side")
    trials.expect(len(lanes) == 4, f"on threads: no requests of some lanes: {lanes}")
    print(f"{runs} runs on threads: {beside} in which files ran side by side; refused {dict(refused)}")


def broken(trials, what, start, act):
    """Runs over stores that `act` breaks at a request, early to late, before it is sent or behind that, and some on threads."""
    refused, lacking, values = Counter(), 0, 0
    with start() as store:
        totals = {lanes: trials.requests(store, lanes) for lanes in (1, 4)}
    for lanes, part, when in PARTS:
        with start() as store:
            at = int(totals[lanes] * part)
            bridge = Bridge(store, lanes, **{when: lambda number: number == at and act(store)})
            ran = trials.run(f"{what} {when} request {at}, {lanes} lanes", [FILE], bridge, may_lack=True)
            told = ran.refused()
            # Near the end no command is left, and the contents are what is refused.
            trials.expect(bool(told) != (part > .9), f"{what} {when} request {at}, {lanes} lanes: refused {dict(told)}")
            trials.expect(part > .9 or ran.values_behind_refusal() > 0, f"{what} {when} request {at}: what is local does not go on")
            # nutcracker replies errors, and closes nothing.
            trials.expect((bridge.closed > 0) != what.startswith("one of"), f"{what} {when} request {at}: {bridge.closed} pairs closed")
            refused += told
            lacking += ran.contents is None
            values += ran.values_behind_refusal() if told else 0
    trials.expect(lacking == 6 or what.startswith("one of"), f"{what}: {lacking} of 6 contents refused")
    print(f"{what}: refused {dict(refused)}, and {lacking} of 6 contents; {values} values behind refusals")
    on_threads(trials, what, start, lambda store, at: Bridge(store, 4, before=lambda number: number == at and act(store)))


def on_threads(trials, what, start, bridge_of):
    """Random files over a store that is broken at some request."""
    refused, lacking = Counter(), 0
    for _ in range(4):
        with start() as store:
            at = trials.chance.randint(5, 60)
            ran = trials.run(f"{what}, request {at}, on threads", trials.random_files(2), bridge_of(store, at), [64, 2, 4096],
                             may_lack=True, may="device, full, limbo full")
            refused += ran.refused()
            lacking += ran.contents is None
    trials.expect(refused["device"] > 0, f"{what}: nothing was refused on threads")
    print(f"{what}, on threads: refused {dict(refused)}, and {lacking} of 4 contents")


def emptied(trials, store):
    """The store loses its objects once those of all keys lie there."""
    refused, client = Counter(), store.client()
    for lanes in (1, 4):
        at = trials.requests(store, lanes) // 2
        bridge = Bridge(store, lanes, before=lambda number: number == at and client.ask("FLUSHALL"))
        ran = trials.run(f"emptied, {lanes} lanes", [FILE], bridge, may_lack=True)
        refused += ran.refused()
        fresh = [reply for asked, reply in ran.behind_refusal() if asked.startswith("get n")]
        trials.expect(ran.refused()["device"] > 0 and ran.contents is None, f"emptied, {lanes} lanes: nothing was lost")
        good = sum(reply.endswith("-1") for reply in fresh)
        trials.expect(good > 100, f"emptied, {lanes} lanes: of {len(fresh)} new keys {good} go on")
    print(f"emptied: refused {dict(refused)}; of {len(fresh)} new keys {good} go on")
    on_threads(trials, "emptied", lambda: contextlib.nullcontext(store),
               lambda store, at: Bridge(store, 4, before=lambda number: number == at and client.ask("FLUSHALL")))


def full(trials, store):
    """The store takes nothing more, and after so many refusals does again."""
    client = store.client()
    for lanes in (1, 4):
        at = trials.requests(store, lanes) // 3
        errors = []

        def before(number):
            if number == at:
                client.ask("CONFIG", "SET", "maxmemory", 1)

        def change(_, __, number, reply):
            if reply.startswith(b"-OOM"):
                errors.append(number)
                if len(errors) == 50:
                    client.ask("CONFIG", "SET", "maxmemory", 0)
            return reply

        what = f"full, {lanes} lanes"
        # Nothing is lost, so the contents are there.
        ran = trials.run(what, [FILE], Bridge(store, lanes, before, change=change), may="device, full")
        client.ask("CONFIG", "SET", "maxmemory", 0)
        refused = ran.refused()
        trials.expect(len(errors) == 50 and refused["device"] > 0, f"{what}: {len(errors)} errors, refused {dict(refused)}")
        last = max((place for place, reply in enumerate(ran.replies[0]) if reply in ("device", "full")), default=0)
        trials.expect(last < len(FILE) - 400, f"{what}: refused up to command {last}")
        print(f"{what}: {len(errors)} times -OOM, refused {dict(refused)}, the last is command {last} of {len(FILE)}")


def flipped(reply):
    """Another byte in the midst of a value."""
    at = len(reply) - 5
    return reply[:at] + bytes([reply[at] ^ 1]) + reply[at + 1:]


def wrong_peers(trials, store):
    # What replies to which request are instead, and whether the pipe is used behind it.
    peers = [
        ("a flipped bit", b"GET", flipped, True),
        ("a shorter value", b"GET", lambda reply: b"$1\r\nx\r\n", True),
        ("a longer value", b"GET", lambda reply: b"$4096\r\n%b\r\n" % (b"x" * 4096), False),
        ("a value that is none", b"GET", lambda reply: b"$-1\r\n", True),
        ("an error", b"DEL", lambda reply: b"-ERR no\r\n", True),
        ("a surplus reply", b"GET", lambda reply: reply + b"+OK\r\n", False),
        ("a surplus reply", b"SET", lambda reply: reply * 2, False),
        ("another type", b"GET", lambda reply: b":1\r\n", False),
        ("another type", b"SET", lambda reply: b"$2\r\nOK\r\n", False),
        ("another type", b"DEL", lambda reply: b"+OK\r\n", False),
        ("no reply at all", b"SET", lambda reply: b"no\r\n", False),
        ("half a reply", b"GET", lambda reply: reply[:len(reply) // 2], False),
    ]
    counts = []
    for name, verb, altered, goes_on in peers:
        for lanes in (1, 4):
            # Where the pipe is used no more, the first one is all.
            hit, most = [], 8 if goes_on else 1

            def change(lane, words, number, reply):
                if len(hit) < most and number > 300 and words[0] == verb:
                    hit.append((lane, bridge.requests[lane]))
                    return altered(reply)
                return reply

            bridge = Bridge(store, lanes, change=change)
            what = f"{name} to {verb.decode()}, {lanes} lanes"
            ran = trials.run(what, [FILE], bridge, may_lack=not goes_on)
            trials.expect(len(hit) == most, f"{what}: {len(hit)} were altered")
            further = bridge.requests[hit[-1][0]] - hit[-1][1] if hit else 0
            refused = sum(ran.refused().values())
            trials.expect((further > 0) == goes_on, f"{what}: {further} further requests")
            # A remove that fails is tried again, and nobody waits for it.
            trials.expect(refused > 0 if verb == b"GET" or not goes_on else refused == 0, f"{what}: {refused} refused")
            trials.expect(not goes_on or refused <= most, f"{what}: {refused} refused")
            counts.append(refused)
    print(f"wrong peers: refused {counts}")

    def bridge_of(store, at):
        def change(_, words, number, reply):
            return flipped(reply) if words[0] == b"GET" and number > at and number % 4 == 0 else reply
        return Bridge(store, 4, change=change)

    # Each fourth value from some request on, where it is a GET's.
    on_threads(trials, "flipped bits", lambda: contextlib.nullcontext(store), bridge_of)


def out_of_step(trials, store):
    """Each reply from one on is the one before it."""
    refused = Counter()
    for number in range(300, 310):
        late = []

        def change(lane, words, at, reply):
            late.append(reply)
            return late[-2] if at > number else reply

        refused += trials.run(f"out of step from {number}", [FILE], Bridge(store, 1, change=change), may_lack=True).refused()
    trials.expect(refused["device"] > 0, "out of step: nothing was refused")
    print(f"out of step: refused {dict(refused)} in 10 runs")


def proxied(trials):
    if shutil.which("nutcracker") is None:
        print("skipped: stores behind a proxy (no nutcracker)")
        return
    with Proxied(trials.work) as two:
        same_as_fartable(trials, two)
        side_by_side(trials, two, 10)
    broken(trials, "one of two killed", lambda: Proxied(trials.work), lambda two: two.stores[0].kill())


def words(trials, store):
    def told(status, text, *given):
        trials.count += 1
        ran = subprocess.run([trials.farrun, *map(str, given)], stdin=subprocess.DEVNULL, capture_output=True, text=True, timeout=PATIENCE)
        trials.expect((ran.returncode, ran.stdout, ran.stderr) == (status, "", f"{text}\n"), f"{given}: {ran}")

    def pair(replies, requests):
        return "--far-resp-in", replies, "--far-resp-out", requests

    none, fifo, rest = f"{trials.work}/none", f"{trials.work}/fifo", (4, 2, 4096, "-")
    os.mkfifo(fifo)
    # The pipe for requests is opened first: nobody opens the other end of this one.
    missing = "cannot open: No such file or directory; make both pipes first, and let this user use them"
    told(2, f"far-resp 1: {missing}", *pair(fifo, none), *rest)
    told(2, "far-resp 1: cannot open: is a directory", *pair(fifo, trials.work), *rest)
    good = pair(fifo, fifo)
    for given in [good[:2], good[2:], (*good, *good[:2]), (*good, *good[2:]), (*good, "--far", trials.work), (*good, "--lanes", 2),
                  (*good * 2, "--lanes", 1), good * 65]:
        told(2, USAGE, *given, *rest)
    told(2, USAGE, *good, 4, 2, "x", "-")
    for status, text, given in [
        (2, f"far-resp 1: {missing}", lambda options: (options[0], none, *options[2:], *rest)),
        (2, f"far-resp 2: {missing}", lambda options: (*options, *pair(fifo, none), *rest)),
        (2, f"far-resp 2: {missing}", lambda options: (*options, "--lanes", 2, *pair(fifo, none), *rest)),
        (2, "bad config 1: BUCKETS 0: no number from 1 to 65536; 1024 would do", lambda options: (*options, 0, 2, 4096, "-")),
        (1, "file 1: cannot open", lambda options: (*options, 4, 2, 4096, none)),
    ]:
        with Bridge(store, 1) as bridge:
            told(status, text, *given(bridge.options))
        trials.expect((bridge.number, bridge.faults) == (0, []), f"{text}: {bridge.number} requests, {bridge.faults}")


def main(fartable, farrun, work):
    # So that all that was started ends with it.
    signal.signal(signal.SIGTERM, lambda *_: sys.exit(143))
    trials = Trials(fartable, farrun, work)

    def timed(trial, *given):
        began = time.monotonic()
        trial(trials, *given)
        if "TIMES" in os.environ:
            print(f"    {trial.__name__}: {time.monotonic() - began:.1f} seconds")

    with Store(work) as store:
        for trial in (same_as_fartable, side_by_side, emptied, full, wrong_peers, out_of_step, words):
            timed(trial, store)
    timed(broken, "killed", lambda: Store(work), Store.kill)
    timed(broken, "stopped", lambda: Store(work), Store.stop)
    timed(proxied)
    print(f"{trials.count} trials, {trials.wrong} wrong")
    sys.exit(1 if trials.wrong else 0)


if __name__ == "__main__":
    main(*map(os.path.abspath, sys.argv[1:]))
