"""Of server.sh: reads what redis-benchmark tells, and prints the medians.

    server.py keep ROUND KIND SHAPE     of a run's output on standard input a line for each command: ROUND, KIND, the command,
                                        calls a second, milliseconds of p50, p99 and p99.9, and SHAPE
    server.py tell RESULTS PICTURE      prints a markdown table of these lines, and draws the medians of calls a second
"""
import re
import sys
from collections import defaultdict
from pathlib import Path
from statistics import median

PARTS = (50, 99, 99.9)


def latency(text, part):
    """The least milliseconds of redis-benchmark's cumulative distribution that so much of the calls took at most."""
    rows = [(float(share), float(took)) for share, took in re.findall(r"([\d.]+)% <= ([\d.]+) milliseconds", text)]
    return min(took for share, took in rows if share >= part)


def keep(round_, kind, shape):
    for name, text in re.findall(r"====== (\w+) ======(.*?)(?=====|\Z)", sys.stdin.read(), re.S):
        rate = re.search(r"throughput summary: ([\d.]+)", text)[1]
        print(round_, kind, name, rate, *(latency(text, part) for part in PARTS), shape)


def draw(path, medians):
    """Bars for each shape and command: farserve's beside redis-server's, whose is 1."""
    kinds = (("farserve", "#1f77b4"), ("redis-server", "#bbbbbb"))
    width, height, base, unit = 110 * len(medians) + 60, 300, 230, 80
    parts = [f'<text x="{60 + 110 * at}" y="20" font-size="13" fill="{colour}">{name}</text>' for at, (name, colour) in enumerate(kinds)]
    parts += [f'<text x="8" y="{base - unit * line + 4}" font-size="11">{line}</text><path d="M30 {base - unit * line}H{width}" stroke="#dddddd"/>' for line in range(3)]
    for at, ((shape, name), (own, theirs)) in enumerate(medians.items()):
        x = 45 + 110 * at
        for bar, (rate, (_, colour)) in enumerate(zip((own, theirs), kinds)):
            tall = unit * rate / theirs
            parts.append(f'<rect x="{x + 38 * bar}" y="{base - tall:.1f}" width="34" height="{tall:.1f}" fill="{colour}"/>')
            parts.append(f'<text x="{x + 38 * bar + 17}" y="{base - tall - 4:.1f}" font-size="11" text-anchor="middle">{rate:.0f}k</text>')
        parts += [f'<text x="{x + 36}" y="{base + 18 * line}" font-size="12" text-anchor="middle">{text}</text>' for line, text in ((1, name), (2, shape))]
    head = f'<svg xmlns="http://www.w3.org/2000/svg" width="{width}" height="{height}" font-family="sans-serif">\n<rect width="100%" height="100%" fill="white"/>\n'
    Path(path).write_text(head + "\n".join(parts) + "\n</svg>\n")


def tell(path, picture):
    rates, times = defaultdict(dict), defaultdict(list)
    for line in Path(path).read_text().splitlines():
        round_, kind, name, rate, *rest = line.split(" ", 7)
        *took, shape = rest
        rates[shape, name, kind][round_] = float(rate) / 1000
        times[shape, name, kind].append([float(it) for it in took])
    print("Connections | Command | farserve, thousands a second | redis-server | ratio | farserve p50, p99, p99.9 ms | redis-server")
    print("---|---|---|---|---|---|---")
    medians = {}
    for shape, name in dict.fromkeys(key[:2] for key in rates):
        own, theirs = rates[shape, name, "farserve"], rates[shape, name, "redis"]
        ratio = median(own[round_] / theirs[round_] for round_ in own)
        both = [" ".join(f"{median(column):.2f}" for column in zip(*times[shape, name, kind])) for kind in ("farserve", "redis")]
        medians[shape, name] = median(own.values()), median(theirs.values())
        print(f"`{shape}` | {name} | {median(own.values()):.0f} | {median(theirs.values()):.0f} | {ratio:.2f} | {' | '.join(both)}")
    draw(picture, medians)


if __name__ == "__main__":
    {"keep": keep, "tell": tell}[sys.argv[1]](*sys.argv[2:])
