"""Of cluster.sh: reads lines KIND COMMAND RATE, in calls a second, and prints a markdown table of the medians, in thousands."""
import sys
from collections import defaultdict
from statistics import median

KINDS = {"alone": "one farserve, without nutcracker", "1": "1 shard", "2": "2 shards", "4": "4 shards"}


def main():
    rates = defaultdict(list)
    for line in sys.stdin:
        kind, command, rate = line.split()
        rates[kind, command].append(float(rate) / 1000)
    print("Cache | SET, thousands a second | GET\n---|---|---")
    for kind, name in KINDS.items():
        print(name, *(f"{median(rates[kind, it]):.0f}" for it in ("SET", "GET")), sep=" | ")


main()
