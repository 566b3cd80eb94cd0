"""Runs the program on random files of one to four threads, and looks for a history of each:
random_runs.py PROGRAM [RUNS] [SEED] [OPTION..].

The options stand before the settings, as `--far DIR` of farrun. Every run has to end with status 0, and with replies and
contents that histories.py finds a history for. At least one run in a hundred has to be one that no order of whole files
explains, so that files are seen to run side by side.
"""
import collections
import os
import random
import sys

from histories import REFUSALS, is_one_after_another, judge, run


def command(chance, file, number):
    """A random command: most ask the map, some hold, show, release, evict or ask where a key's object lies."""
    key = chance.choice("abcei")
    value = chance.choice("123") if chance.random() < .5 else f"{file}.{number}"
    kinds = [f"put {key} {value}", f"get {key}", f"del {key}", f"putnew {key} {value}", f"putif {key} {chance.choice('123')} {value}",
             f"put {key} {value}", f"hold {key}", "show", "release", "evict", f"where {key}"]
    return chance.choices(kinds, [8, 8, 3, 2, 4, 8, 1, 1, 2, 3, 1])[0]


def main(program, runs=10_000, seed=1, *options):
    chance = random.Random(seed)
    wrong = beside = 0
    refused = collections.Counter()
    for number in range(runs):
        count = chance.randint(2, 4)
        files = [[command(chance, file, at) for at in range(chance.randint(1, 60))] for file in range(count)]
        settings = [*options, chance.choice([1, 2, 4, 64]), chance.randint(1, 8), 4096]
        found, told = judge(files, *run(program, settings, files))
        if told:
            wrong += 1
            print(f"run {number}, settings {settings}, files {files}: {told}")
            continue
        made, contents, replies = found
        refused.update(reply for lines in replies for reply in lines if reply in REFUSALS)
        beside += not is_one_after_another(made, contents)
    print(f"{runs} runs, {wrong} wrong; {beside} in which files ran side by side; refusals: {dict(refused)}")
    sys.exit(1 if wrong or beside * 100 < runs else 0)


if __name__ == "__main__":
    main(os.path.abspath(sys.argv[1]), *map(int, sys.argv[2:4]), *sys.argv[4:])
