#!/usr/bin/env python3
"""Prints the medians of the runs of compare.sh as markdown tables, and draws some of them: compare.py RUNS PICTURE.

A line of RUNS is `KIND KEYS VALUE SHARE memory OPENED FILLED`, or `KIND KEYS VALUE SHARE SKEW GETS THREADS CALLS NANOSECONDS
LOST ..`, where the nanoseconds go from the first thread's beginning to the last one's end.
"""
import sys
from collections import defaultdict
from statistics import median

THREADS = (1, 2, 4)
NAMES = {"table": "table", "dashmap": "DashMap", "mutexes": "64 locked maps", "mutex": "one locked map", "farmap": "far-memory map"}
SHORT = {"dashmap": "D", "mutexes": "64", "mutex": "1", "farmap": "F"}
COLORS = {"table": "#c0392b", "dashmap": "#2980b9", "mutexes": "#27ae60", "mutex": "#7f8c8d", "farmap": "#8e44ad"}
KEYS = {"one": 65_472, "many": 1_000_000}
PART = {1: "all", 4: "1/4"}
FRAMES = {"one": 65_536, "many": 1_048_576}


def read(path):
    """Millions of calls a second by workload and kind, one for each round, and resident bytes by keys, value and kind."""
    rates, memory = defaultdict(lambda: defaultdict(list)), defaultdict(list)
    with open(path) as runs:
        for line in runs:
            kind, keys, value, share, *rest = line.split()
            if rest[0] == "memory":
                memory[keys, int(value), int(share), kind].append((int(rest[1]), int(rest[2])))
                continue
            skew, (gets, threads, calls, nanoseconds, lost) = rest[0], map(int, rest[1:6])
            if lost:
                print(f"{lost} calls were not done: {line}", file=sys.stderr)
            workload = (int(share), keys, int(value), skew, gets, threads)
            rates[workload][kind].append(1_000 * calls / nanoseconds)
    return rates, memory


def compared(rates):
    """The table's median rate, its best peer, and the least, the median and the greatest part of that peer's rate."""
    peers = {kind: median(of) for kind, of in rates.items() if kind != "table"}
    best = max(peers, key=peers.get)
    parts = [own / other for own, other in zip(rates["table"], rates[best])]
    return median(rates["table"]), best, min(parts), median(parts), max(parts)


def cell(rates):
    own, best, least, part, most = compared(rates)
    mark = "**" if part < 0.5 else ""
    return f"{own:.2f} · {mark}{part:.2f}{mark} ({least:.2f}–{most:.2f}) {SHORT[best]}"


def print_rates(rates):
    print("| Memory | Keys | Value | Drawn | Gets, % | 1 thread | 2 threads | 4 threads |")
    print("|---|---|---|---|---|---|---|---|")
    for row in dict.fromkeys(workload[:-1] for workload in rates):
        share, keys, value, skew, gets = row
        cells = " | ".join(cell(rates[*row, threads]) for threads in THREADS)
        print(f"| {PART[share]} | {KEYS[keys]:,} | {value} | {skew} | {gets} | {cells} |")


def print_parts(rates):
    """Of the runs in memory: the table's part of the sharded map's rate, by threads."""
    print("\n| Keys | Value | Drawn | Gets, % | 1 thread | 2 threads | 4 threads |")
    print("|---|---|---|---|---|---|---|")
    for row in dict.fromkeys(workload[1:-1] for workload in rates if workload[0] == 1):
        of = [rates[1, *row, threads] for threads in THREADS]
        parts = [median(own / other for own, other in zip(each["table"], each["dashmap"])) for each in of]
        keys, value, skew, gets = row
        print(f"| {KEYS[keys]:,} | {value} | {skew} | {gets} | {' | '.join(f'{part:.2f}' for part in parts)} |")


def print_memory(memory):
    """Of the runs in memory: the bytes that are resident beyond those before the map was opened."""
    print("\n| Keys | Value | keys' and values' bytes, MB | " + " | ".join(NAMES.values()) + " | table's bytes a frame, empty |")
    print("|---" * (len(NAMES) + 4) + "|")
    for keys, value in dict.fromkeys((keys, value) for keys, value, share, _ in memory if share == 1):
        plain = KEYS[keys] * (16 + value)
        cells = []
        for kind in NAMES:
            filled = median(filled for _, filled in memory[keys, value, 1, kind])
            cells.append(f"{filled / plain:.2f} ({(filled - plain) / KEYS[keys]:.0f} a pair)")
        opened = median(opened for opened, _ in memory[keys, value, 1, "table"]) / FRAMES[keys]
        print(f"| {KEYS[keys]:,} | {value} | {plain / 1e6:.1f} | {' | '.join(cells)} | {opened:.0f} |")


WIDE, HIGH, LEFT, TOP = 190, 150, 46, 70


def panel(rates, x, y, title):
    """The rates of each kind by 1, 2 and 4 threads, with the range of the rounds."""
    top = max(max(of) for threads in THREADS for of in rates[threads].values()) * 1.08
    def place(at, rate):
        return x + 14 + at * (WIDE - 28) / 2, y + HIGH - HIGH * rate / top
    yield f'<text x="{x + WIDE / 2}" y="{y - 6}" text-anchor="middle" font-size="11">{title}</text>'
    yield f'<rect x="{x}" y="{y}" width="{WIDE}" height="{HIGH}" fill="none" stroke="#bbb"/>'
    for rate in (0, top / 2, top):
        height = place(0, rate)[1]
        yield f'<text x="{x - 4}" y="{height + 4:.1f}" text-anchor="end" font-size="9" fill="#555">{rate:.1f}</text>'
    for at, threads in enumerate(THREADS):
        yield f'<text x="{place(at, 0)[0]}" y="{y + HIGH + 12}" text-anchor="middle" font-size="9" fill="#555">{threads}</text>'
    for kind in rates[1]:
        middle = [place(at, median(rates[threads][kind])) for at, threads in enumerate(THREADS)]
        points = " ".join(f"{a:.1f},{b:.1f}" for a, b in middle)
        thick = 2.5 if kind == "table" else 1.4
        yield f'<polyline points="{points}" fill="none" stroke="{COLORS[kind]}" stroke-width="{thick}"/>'
        for at, threads in enumerate(THREADS):
            a, low = place(at, min(rates[threads][kind]))
            high = place(at, max(rates[threads][kind]))[1]
            yield f'<line x1="{a:.1f}" y1="{low:.1f}" x2="{a:.1f}" y2="{high:.1f}" stroke="{COLORS[kind]}" stroke-width="1"/>'


def draw(rates, path):
    """Millions of calls a second with values of 64 bytes: all in memory, one key a bucket, and with memory for a quarter."""
    rows = [(share, skew) for share in (1, 4) for skew in ("uniform", "zipf")]
    parts = []
    for down, (share, skew) in enumerate(rows):
        for across, gets in enumerate((95, 50, 0)):
            of = {threads: rates[share, "one", 64, skew, gets, threads] for threads in THREADS}
            title = f"memory for {PART[share]}, {skew}, {gets} % gets"
            parts += panel(of, LEFT + across * (WIDE + 44), TOP + down * (HIGH + 48), title)
    width, height = LEFT + 3 * (WIDE + 44), TOP + len(rows) * (HIGH + 48)
    for at, (kind, name) in enumerate(NAMES.items()):
        x = LEFT + at * 132
        parts.append(f'<line x1="{x}" y1="34" x2="{x + 18}" y2="34" stroke="{COLORS[kind]}" stroke-width="2.5"/>')
        parts.append(f'<text x="{x + 22}" y="38" font-size="11">{name}</text>')
    head = f"Millions of calls a second by 1, 2 and 4 threads: {KEYS['one']:,} keys of 16 bytes, one a bucket, values of 64"
    parts.append(f'<text x="{LEFT}" y="18" font-size="13">{head}</text>')
    with open(path, "w") as picture:
        picture.write(f'<svg xmlns="http://www.w3.org/2000/svg" width="{width}" height="{height}" font-family="sans-serif">\n')
        picture.write('<rect width="100%" height="100%" fill="white"/>\n' + "\n".join(parts) + "\n</svg>\n")


def main(runs, picture):
    rates, memory = read(runs)
    print_rates(rates)
    print_parts(rates)
    print_memory(memory)
    draw(rates, picture)


main(*sys.argv[1:])
