"""Of far.sh: prints the medians of its runs, draws them, and keeps scratch files out of the page cache.

    far.py tell RUNS PICTURE    prints markdown tables of the runs, and draws the picture
    far.py drop PID             as long as the process is there, has the pages of the files without names of its children written
                                and dropped, 20 times a second

A line of RUNS begins with `warm` or `cold`, the kind and the share, and goes on as `memory OPENED FILLED` in bytes, `used PEAK USER
SYSTEM` in KiB and seconds, or `SKEW GETS THREADS CALLS NANOSECONDS LOST [NEAR FAR_READS]`: how many calls
found their object in a frame, and how many objects they read from devices.
"""
import os
import sys
import time
from collections import defaultdict
from pathlib import Path
from statistics import median

KINDS = {"process": "devices in the process", "files": "scratch files", "reads": "plain preads"}
COLORS = {"process": "#2980b9", "files": "#c0392b", "reads": "#7f8c8d", "map": "#27ae60"}
PART = {1: "all", 2: "1/2", 4: "1/4", 8: "1/8", 16: "1/16"}
SKEWS = ("uniform", "zipf")


class Runs:
    """By folder, kind and share: the peaks and filled sizes in MB, and the processor seconds; and, by skew, gets and threads beside
    these, the nanoseconds a call of a thread, the part of calls that found no frame, and the reads from devices for each such call."""

    def __init__(self, path):
        self.peaks, self.filled, self.seconds = (defaultdict(list) for _ in range(3))
        self.times, self.misses, self.reads = (defaultdict(list) for _ in range(3))
        for line in Path(path).read_text().splitlines():
            folder, kind, share, *rest = line.split()
            key = folder, kind, int(share)
            if rest[0] == "memory":
                self.filled[key].append(int(rest[2]) / 1e6)
            elif rest[0] == "used":
                self.peaks[key].append(int(rest[1]) * 1024 / 1e6)
                self.seconds[key].append(float(rest[2]) + float(rest[3]))
            else:
                self.add_row(key, line, rest[0], *map(int, rest[1:]))

    def add_row(self, key, line, skew, gets, threads, calls, nanoseconds, lost, near=None, far_reads=0):
        if lost:
            print(f"{lost} calls were not done: {line}", file=sys.stderr)
        row = *key, skew, gets, threads
        self.times[row].append(nanoseconds * threads / calls)
        missed = calls - (calls if near is None else near)
        self.misses[row].append(missed / calls)
        self.reads[row].append(far_reads / max(missed, 1))

    def rate(self, *row):
        """Millions of calls a second."""
        return [row[-1] * 1e3 / took for took in self.times[row]]

    def shares(self):
        return sorted({share for folder, _, share in self.peaks if folder == "warm"})

    def miss_times(self, kind, share, folder="warm", threads=4):
        """Of each round, the nanoseconds that a miss takes of a thread: what its calls take beyond those of the same kind with all in
        memory, for each miss. Evenly drawn, 95 gets."""
        hits = self.times["warm", kind, 1, "uniform", 95, threads]
        misses = self.misses[folder, "files", share, "uniform", 95, threads]
        times = self.times[folder, kind, share, "uniform", 95, threads]
        return [(took - (1 - missed) * hit) / missed for took, hit, missed in zip(times, hits, misses) if missed]


def print_memory(runs):
    base = runs.filled["warm", "map", 1]
    print(f"A HashMap of the same pairs: {median(base):.0f} MB, at its peak {median(runs.peaks['warm', 'map', 1]):.0f}\n")
    print("Frames for | Devices | Resident, MB | of the HashMap's | at the peak, MB | processor, s\n---|---|---|---|---|---")
    for share in runs.shares():
        for kind in ("process", "files"):
            key = "warm", kind, share
            parts = [own / other for own, other in zip(runs.filled[key], base)]
            print(f"{PART[share]} | {KINDS[kind]} | {median(runs.filled[key]):.0f} | {median(parts):.2f} | {median(runs.peaks[key]):.0f} | {median(runs.seconds[key]):.1f}")


def print_rates(runs):
    print("\nFrames for | Calls | Drawn | Misses, % | Devices | 1 thread | 2 threads | 4 threads\n---|---|---|---|---|---|---|---")
    for share in runs.shares():
        for gets, skew in ((gets, skew) for gets in (95, 50, 0) for skew in SKEWS):
            for kind in KINDS:
                row = "warm", kind, share, skew, gets
                missed = 100 * median(runs.misses[*row, 4])
                cells = " | ".join(f"{median(runs.rate(*row, threads)):.2f}" for threads in (1, 2, 4))
                print(f"{PART[share]} | {gets} gets | {skew} | {missed:.1f} | {KINDS[kind]} | {cells}")


def print_misses(runs):
    print("\nFrames for | Files | Threads | a miss, ns | of a plain pread's, ns | ratio\n---|---|---|---|---|---")
    cases = [("warm", share) for share in runs.shares() if share > 1] + [("cold", 8)]
    for folder, share in cases:
        for threads in (1, 2, 4):
            own, bare = (runs.miss_times(kind, share, folder, threads) for kind in ("files", "reads"))
            if own and bare:
                parts = [one / other for one, other in zip(own, bare)]
                print(f"{PART[share]} | {folder} | {threads} | {median(own):.0f} | {median(bare):.0f} | {median(parts):.2f} ({min(parts):.2f}–{max(parts):.2f})")


WIDE, HIGH, TOP = 200, 150, 64


def panel(x, title, shares, lines):
    """Lines over the part that is local, each with the range of its rounds: (color, thick, values by share)."""
    top = max(max(of) for _, _, values in lines for of in values.values()) * 1.08

    def place(at, value):
        return x + 14 + at * (WIDE - 28) / max(len(shares) - 1, 1), TOP + HIGH - HIGH * value / top

    yield f'<text x="{x + WIDE / 2}" y="{TOP - 6}" text-anchor="middle" font-size="11">{title}</text>'
    yield f'<rect x="{x}" y="{TOP}" width="{WIDE}" height="{HIGH}" fill="none" stroke="#bbb"/>'
    for value in (0, top / 2, top):
        yield f'<text x="{x - 4}" y="{place(0, value)[1] + 4:.1f}" text-anchor="end" font-size="9" fill="#555">{value:.3g}</text>'
    for at, share in enumerate(shares):
        yield f'<text x="{place(at, 0)[0]:.1f}" y="{TOP + HIGH + 12}" text-anchor="middle" font-size="9" fill="#555">{PART[share]}</text>'
    for color, thick, values in lines:
        points = " ".join("{:.1f},{:.1f}".format(*place(at, median(values[share]))) for at, share in enumerate(shares))
        yield f'<polyline points="{points}" fill="none" stroke="{color}" stroke-width="{thick}"/>'
        for at, share in enumerate(shares):
            (a, low), (_, high) = place(at, min(values[share])), place(at, max(values[share]))
            yield f'<line x1="{a:.1f}" y1="{low:.1f}" x2="{a:.1f}" y2="{high:.1f}" stroke="{color}"/>'


def draw(runs, path):
    """Resident memory, and the throughput and hit rate of 95 gets in a hundred calls by 4 threads, over the part that is local."""
    shares = runs.shares()[::-1]
    base = runs.filled["warm", "map", 1]
    memory = [(COLORS["map"], 1.4, {share: base for share in shares})]
    memory += [(COLORS[kind], 2, {share: runs.filled["warm", kind, share] for share in shares}) for kind in ("process", "files")]
    panels = [("resident, MB", memory)]
    for skew in SKEWS:
        lines = [(COLORS[kind], 2, {share: runs.rate("warm", kind, share, skew, 95, 4) for share in shares}) for kind in KINDS if kind != "reads" or skew == "uniform"]
        panels.append((f"million calls a second, {skew}", lines))
    hits = [("#8e44ad", width, {share: [100 * (1 - it) for it in runs.misses["warm", "files", share, skew, 95, 4]] for share in shares}) for width, skew in zip((2, 1), SKEWS)]
    panels.append(("calls served from frames, %: uniform, and thin zipf", hits))
    parts = [f'<text x="46" y="18" font-size="13">1,000,000 pairs of 16 and 512 bytes in 2^20 buckets, by the part that has a frame; 95 % gets by 4 threads</text>']
    for at, (kind, name) in enumerate([("map", "HashMap, all in memory"), *KINDS.items()]):
        x = 46 + at * 190
        parts.append(f'<line x1="{x}" y1="34" x2="{x + 18}" y2="34" stroke="{COLORS[kind]}" stroke-width="2.5"/>')
        parts.append(f'<text x="{x + 22}" y="38" font-size="11">{name}</text>')
    for at, (title, lines) in enumerate(panels):
        parts += panel(46 + at * (WIDE + 50), title, shares, lines)
    width, height = 46 + len(panels) * (WIDE + 50), TOP + HIGH + 24
    head = f'<svg xmlns="http://www.w3.org/2000/svg" width="{width}" height="{height}" font-family="sans-serif">\n<rect width="100%" height="100%" fill="white"/>\n'
    Path(path).write_text(head + "\n".join(parts) + "\n</svg>\n")


def children(process):
    try:
        return [process, *map(int, Path(f"/proc/{process}/task/{process}/children").read_text().split())]
    except OSError:
        return []


def drop(process):
    while of := children(process):
        for file in [file for it in of for file in Path(f"/proc/{it}/fd").glob("*")]:
            try:
                if os.readlink(file).endswith(" (deleted)"):
                    opened = os.open(file, os.O_RDONLY)
                    os.fdatasync(opened)
                    os.posix_fadvise(opened, 0, 0, os.POSIX_FADV_DONTNEED)
                    os.close(opened)
            except OSError:
                pass
        time.sleep(0.05)


def main(command, *words):
    if command == "drop":
        drop(int(words[0]))
    else:
        runs = Runs(words[0])
        print_memory(runs)
        print_rates(runs)
        print_misses(runs)
        draw(runs, words[1])


main(*sys.argv[1:])
