"""Has bin/farserve run under load, and looks whether it stays as it is: soak.py LOAD FOLDER MINUTES; soak.sh says more.

LOAD is the program of bench/load, FOLDER has the scratch files. Over the last half of the lines these count as flat:

- resident memory of the program and of the gateway, and the bytes on disk: the line of least squares rises over that half by less
  than 3 % of the mean or half a MiB, as a system short of memory takes pages of programs and gives them back;
- open files of each: always as many;
- p99 of the gets of small values: its median in the last quarter is at most 1.5 times that in the third.

No more values may be lost than INFO says were evicted, and none by a renewal of the map.
"""
import json
import os
import subprocess
import sys
import time
from pathlib import Path
from statistics import linear_regression, mean, median

from server_parts import OK, Client, Farserve
from soak_clients import Checker

EVERY = 10
MOST_GROWTH = 0.03
MOST_RISE = 0.5
MOST_P99 = 1.5
MEMORY = "64m"
LIMIT = "192m"
# So few that the map is renewed every few minutes.
NAMES = 5_000_000
MEBIBYTE = 1 << 20
# Both together have 260 MB of keys and values, which is more than memory and disk hold.
SMALL = ["--keys", "300000", "--value", "512", "--gets", "80", "--draw", "zipf", "--connections", "12", "--threads", "1"]
LARGE = ["--keys", "8000", "--value", "12000", "--gets", "80", "--draw", "uniform", "--connections", "4", "--threads", "1"]
CHECKERS = 4
LANES = 4
# Bytes of values that have all sizes of the loads' and checkers' buckets, and how many of each a client sets.
SIZES = [300 << step for step in range(9)]
SIZED = 8
GROWING = ("program, MiB", "gateway, MiB", "disk, MiB")
FILES = ("its files", "gateway's files")
COLUMNS = ("minute", *GROWING, *FILES, "far objects", "clients", "calls/s", "p99, µs", "hits, %", "checked/s", "lost", "evicted", "errors",
           "renewals", "pause, ms")


class Failed(Exception):
    """Why the soak is not well."""


def resident(pid):
    """MiB."""
    return int(Path(f"/proc/{pid}/status").read_text().partition("VmRSS:")[2].split()[0]) / 1024


class Soak:
    def __init__(self, load, server, minutes):
        self.load_program, self.server, self.minutes = load, server, minutes
        self.address = "{}:{}".format(*server.address)
        self.control = server.client()
        self.checkers = [Checker(server.address, seed) for seed in range(CHECKERS)]
        self.rows, self.seed = [], 0

    def start_load(self, shape, *words):
        self.seed += 1
        words = ["--protocol", "resp", "--address", self.address, "--seed", str(self.seed), *shape, *words]
        return subprocess.Popen([self.load_program, *words], stdout=subprocess.PIPE, text=True)

    def ended(self, load):
        told = load.communicate()[0]
        if load.returncode:
            raise Failed(f"the load has ended with status {load.returncode}: {told}")
        return json.loads(told)

    def fill(self):
        """Sets all keys, and before that some of each size by each thread: a scratch file is opened for the first of its size."""
        clients = [Client(self.server.address) for _ in range(2 * LANES)]
        sized = [(f"size{size}:{at}", b"x" * size) for size in SIZES for at in range(SIZED)]
        for at, client in enumerate(clients):
            for key, value in sized:
                assert client.ask("SET", f"{key}:{at}", value) == OK
        for load in [self.start_load(shape, "--seconds", "0", "--fill") for shape in (SMALL, LARGE)]:
            self.ended(load)
        for at, client in enumerate(clients):
            client.ask_all([("DEL", f"{key}:{at}") for key, _ in sized])
            client.close()

    def look(self):
        """What stands in a line of the servers' processes, files and INFO, while all are connected."""
        program, gateway = self.server.pid("farserve"), self.server.pid("gateway")
        lost = sum(it.lost for it in self.checkers)
        told = self.control.info()
        if lost > int(told["evicted_keys"]):
            raise Failed(f"{lost} values are lost, and {told['evicted_keys']} were evicted")
        if {told["renewal_lost_pairs"], told["renewal_lost_buckets"]} != {"0"}:
            raise Failed(f"a renewal lost {told['renewal_lost_pairs']} pairs and {told['renewal_lost_buckets']} buckets")
        return {"program, MiB": resident(program), "gateway, MiB": resident(gateway), "disk, MiB": int(told["far_bytes"]) / MEBIBYTE,
                "its files": self.server.files("farserve"), "gateway's files": self.server.files("gateway"),
                "far objects": int(told["far_objects"]), "clients": int(told["connected_clients"]), "lost": lost, "evicted": int(told["evicted_keys"]), "renewals": int(told["renewals"]), "pause, ms": int(told["renewal_last_ms"])}

    def line(self):
        """Runs both loads for ten seconds, and prints a line."""
        began, before = time.monotonic(), sum(it.calls for it in self.checkers)
        loads = [self.start_load(shape, "--seconds", str(EVERY)) for shape in (SMALL, LARGE)]
        time.sleep(EVERY * 0.8)
        row = self.look()
        small, large = (self.ended(it) for it in loads)
        checked = sum(it.calls for it in self.checkers) - before
        for fault in (it.fault for it in self.checkers if it.fault):
            raise Failed(fault)
        if self.server.process.poll() is not None:
            raise Failed(f"the server has ended: {self.server.text()}")
        row |= {"minute": (time.monotonic() - self.began) / 60, "calls/s": sum(it["calls_per_second"] for it in (small, large)),
                "p99, µs": small["gets"]["p99"], "hits, %": 100 * small["hit_rate"], "checked/s": checked / (time.monotonic() - began),
                "errors": sum(sum(it["errors"].values()) for it in (small, large)) + sum(it.refused for it in self.checkers)}
        for kind in {*small["errors"], *large["errors"]} - self.kinds:
            print(f"an error: {kind}", flush=True)
            self.kinds.add(kind)
        self.rows.append(row)
        print(" | ".join(f"{row[name]:.1f}" if isinstance(row[name], float) else str(row[name]) for name in COLUMNS), flush=True)

    def run(self):
        self.fill()
        for checker in self.checkers:
            checker.thread.start()
        print(" | ".join(COLUMNS))
        print("|".join(["---"] * len(COLUMNS)))
        self.began, self.kinds = time.monotonic(), set()
        while time.monotonic() - self.began < self.minutes * 60 - EVERY / 2:
            self.line()
        for checker in self.checkers:
            checker.end()


def growth(rows, name):
    """How much the line of least squares rises from the first to the last, in all and as a part of the mean, and its slope a minute."""
    times, values = [it["minute"] for it in rows], [it[name] for it in rows]
    slope = linear_regression(times, values).slope
    rise = slope * (times[-1] - times[0])
    return rise, rise / max(mean(values), 1e-9), slope


def judge(rows):
    """Prints for the last half of the lines what is flat, and gives whether all is."""
    half = rows[len(rows) // 2:]
    quarters = half[:len(half) // 2], half[len(half) // 2:]
    if not quarters[0]:
        raise Failed("there are too few lines to judge")
    print(f"\nover the last {half[-1]['minute'] - half[0]['minute']:.1f} minutes, by least squares:")
    is_well = True
    for name in GROWING:
        rise, part, slope = growth(half, name)
        is_flat = part < MOST_GROWTH or rise < MOST_RISE
        is_well &= is_flat
        bounds = f"below {100 * MOST_GROWTH:.0f} % or {MOST_RISE} MiB"
        print(f"{name}: {slope:+.4f} a minute, {rise:+.2f} in all, {100 * part:+.2f} %, {'flat' if is_flat else 'GROWS'} ({bounds})")
    for name in FILES:
        counts = [it[name] for it in half]
        is_flat = min(counts) == max(counts)
        is_well &= is_flat
        print(f"{name}: {growth(half, name)[2]:+.4f} a minute, {min(counts)} to {max(counts)}, {'flat' if is_flat else 'NOT EQUAL'}")
    third, last = (median(it["p99, µs"] for it in quarter) for quarter in quarters)
    is_flat = last <= MOST_P99 * third
    is_well &= is_flat
    slope = growth(half, "p99, µs")[2]
    print(f"{half[-1]['renewals'] - half[0]['renewals']} renewals, the longest pause {max(it['pause, ms'] for it in half)} ms")
    print(f"p99: {slope:+.1f} µs a minute, {third:.0f} µs and then {last:.0f}, {'flat' if is_flat else 'GROWS'} (at most {MOST_P99} times)")
    return is_well


def main(load, folder, minutes):
    words = ["--far-limit", LIMIT, "--policy", "allkeys", "--names", NAMES]
    with Farserve(folder, *words, memory=MEMORY) as server:
        soak = Soak(load, server, float(minutes))
        try:
            soak.run()
            is_well = judge(soak.rows)
        except (Failed, OSError, EOFError) as fault:
            print(f"FAILED: {type(fault).__name__} {fault}", flush=True)
            is_well = False
        calls, lost, refused = (sum(getattr(it, name) for it in soak.checkers) for name in ("calls", "lost", "refused"))
        print(f"{calls} calls checked, {lost} values lost to eviction, {refused} refused; {'well' if is_well else 'NOT WELL'}", flush=True)
    # Checkers that still wait for the server end with the process.
    sys.stdout.flush()
    os._exit(0 if is_well else 1)


if __name__ == "__main__":
    main(*sys.argv[1:])
