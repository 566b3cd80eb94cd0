"""Tries bin/farserve from outside, beside redis-server: server.py FOLDER [--long | --half] [--redis] [TRIAL]...

A TRIAL is the name of a function of the files beside this one; all are made where none is named, with --half half of them
(halves.py). --redis puts redis-server into the place of bin/farserve, for those trials that it can pass, so that a trial which asks
for too much is found out.
"""
import os
import resource
import sys
import time
import traceback
from pathlib import Path

import server_clients
import server_compared
import server_ends
import server_files
import server_guards
import server_keys
import server_limits
import server_log
import server_memory
import server_reasons
import server_refused
import server_renewal
import server_room
import server_slots
import server_spread
import server_stores
import server_unauthenticated
from halves import taken
from server_parts import Farserve, Redis

SHORT = {"commands": 2000, "histories": 200, "increments": 4000, "strings": 20_000, "clients": 1000, "draws": 20_000}
# Twice as many clients, some of whom have just gone, are fewer than the 10,000 that the gateway takes.
LONG = {"commands": 100_000, "histories": 10_000, "increments": 100_000, "strings": 1_000_000, "clients": 4900, "draws": 400_000}
PARTS = [server_compared, server_keys, server_clients, server_guards, server_unauthenticated]


class Tried:
    """What the trials try: a server that they share, and others that they start."""

    def __init__(self, work, is_redis):
        self.work, self.is_redis = work, is_redis
        self.runtime = Path(work) / "runtime"
        self.runtime.mkdir()
        os.environ["XDG_RUNTIME_DIR"] = str(self.runtime)
        self.shared = None

    def start(self, *options, **others):
        return (Redis if self.is_redis else Farserve)(self.work, *options, **others)

    @property
    def server(self):
        """The shared one, anew where the last one has ended."""
        if self.shared is None or self.shared.process.poll() is not None:
            self.shared = self.start().__enter__()
        return self.shared

    def let_go(self):
        if self.shared is not None:
            self.shared.__exit__()
            self.shared = None


def tell(trial, tried, counts):
    """Makes a trial, prints how it went, and gives whether it went well."""
    began = time.monotonic()
    try:
        told = trial(tried, counts) or ""
        is_well = tried.shared is None or tried.shared.process.poll() is None
        told = f"ok {told}" if is_well else f"FAILED: the server has ended: {tried.shared.text()}"
    except Exception as fault:
        own = [it for it in traceback.extract_tb(fault.__traceback__) if "server_" in it.filename]
        places = " < ".join(f"{Path(it.filename).name}:{it.lineno}" for it in reversed(own))
        is_well, told = False, f"FAILED: {type(fault).__name__} {str(fault)[:1000]}, {places}"
    print(f"{trial.__name__.replace('_', ' ')}: {told.rstrip()} ({time.monotonic() - began:.1f} s)", flush=True)
    return is_well


def main():
    work, *words = sys.argv[1:]
    is_long, is_redis = "--long" in words, "--redis" in words
    names = [it for it in words if not it.startswith("--")]
    files = resource.getrlimit(resource.RLIMIT_NOFILE)[1]
    resource.setrlimit(resource.RLIMIT_NOFILE, (files, files))
    # Threads here wait for each other often, and a switch is 5 ms else.
    sys.setswitchinterval(1e-4)
    parts = PARTS + [server_ends, server_files, server_room, server_slots, server_limits, server_memory, server_reasons, server_refused, server_renewal,
                     server_spread, server_stores, server_log] * (not is_redis)
    trials = taken([it for part in parts for it in part.TRIALS if it.__name__ in names or not names], words)
    tried = Tried(work, is_redis)
    counts = dict(LONG if is_long else SHORT)
    counts["clients"] = min(counts["clients"], files - 200)
    wrong = 0
    for trial in trials:
        # The ends are looked at where nothing else is there.
        if trial in server_ends.TRIALS:
            tried.let_go()
        if not tell(trial, tried, counts):
            wrong += 1
            tried.let_go()
    tried.let_go()
    print(f"{len(trials)} trials of the server, {wrong} wrong")
    sys.exit(1 if wrong else 0)


if __name__ == "__main__":
    main()
