"""Runs the program with each of its growths refused in turn: allocation_failures.py PROGRAM LIBRARY.

LIBRARY is refuse_allocation.c, built. Each run must end in one of three ways. Status 1, the text `memory` and no output.
Status 1, the text `contents: memory`, and the replies alone. Or status 0 with replies and contents. A reply may be `memory`,
and then the command has changed nothing: histories.py has to find a history that all other replies, and the contents,
come from. A refused growth may pass unseen: of a removal, which is tried again later, or of a thread's start.
"""
import collections
import os
import re
import sys
import tempfile

from histories import calls, is_found, run, split

SETTINGS = [4, 2, 4096]
# A run of the files of this module makes far fewer requests.
MOST_RUNS = 2_000
SIMPLE = ["put a 1", "put e 2", "put i 3", "del e", "get a", "get e", "get i"]
# Each command, at a key that is there and at one that is not, beside others in its bucket, and swaps between them.
ALL = [
    *["put a 1", "putnew e 2", "put b 4", "putnew e 3", "put a 5", "putif a 5 6", "putif a 5 7", "putif i 1 2"],
    *["del e", "del e", "evict", "where a", "put i 8", "hold a", "show", "hold e", "evict", "get a", "release"],
    *["put c 1", "put d 1", "get b", "get e", "del a", "del b", "get i", "where c", "show"],
]
THREE = [
    ["put a 1", "evict", "get a", "del a", "get b", "put e 1", "where e"],
    ["put b 2", "put c 2", "put d 2", "hold b", "put b 3", "show", "release", "get e"],
    ["put e 3", "putif a 1 4", "evict", "putnew a 5", "get c", "get d"],
]
RUNS = [("the simple file", [SIMPLE]), ("the file of all commands", [ALL]), ("three files", THREE)]
# The last file is so long that it is read in parts. Its commands would ask for memory more than a thousand times, so that
# only the growths of the reading, and some behind it, are refused.
LONG = [["put a 1"], ["put b 2", *[f"putif c {'x' * 255} {'y' * 255}"] * 520]]
MOST_READING = 60


def judge(files, status, out, err):
    """Gives how the run ended in a few words, and whether it may end so."""
    if (status, out, err) == (1, "", "memory\n"):
        return "memory", True
    said = f"status {status}, output {out!r}, error {err!r}"
    parts = split(out, files)
    if parts is None:
        return said, False
    replies, contents = parts
    made = [calls(file, lines) for file, lines in zip(files, replies)]
    if None in made or not is_found(made, contents):
        return f"no history: {said}", False
    refusals = sum(reply == "memory" for lines in replies for reply in lines)
    if contents is None:
        return "contents: memory", (status, err) == (1, "contents: memory\n")
    return "replied memory" if refusals else "unseen", (status, err) == (0, "")


def run_refused(program, library, settings, files, refused):
    """Runs the program with these growths refused, and gives its status, output and error text, and how many it asked for, if
    it told."""
    with tempfile.NamedTemporaryFile("r") as told:
        environment = {"LD_PRELOAD": library, "REFUSED": refused, "GROWTHS": told.name}
        ended = run(program, settings, files, environment)
        requests = re.fullmatch(r"(\d+)\n", told.read())
    return ended, int(requests[1]) if requests else None


def sweep(program, library, files, ends, most=None):
    """Refuses each growth in turn, or so many, and gives how often the runs ended in which way, and how many ended wrongly."""
    ways = collections.Counter()
    wrong = 0
    for number in range(1, (most or MOST_RUNS) + 1):
        ended, requests = run_refused(program, library, SETTINGS, files, f"{number}{ends}")
        said, passes = judge(files, *ended)
        if not passes or requests is None:
            wrong += 1
            print(f"{number}{ends}: WRONG: {said}")
        if requests is not None and requests < number:
            return number - 1, ways, wrong + (said != "unseen")
        ways[said] += 1
    if most:
        return most, ways, wrong
    print(f"WRONG: after {MOST_RUNS} runs a growth is still refused, or no run told how many there were")
    return MOST_RUNS, ways, wrong + 1


def main(program, library):
    runs = wrong = 0
    for name, files in RUNS:
        for ends, what in (("", "each growth alone"), ("..", "each growth and all behind it")):
            more, ways, faults = sweep(program, library, files, ends)
            print(f"{name}, refusing {what}: {more} growths, {faults} runs wrong; {dict(ways)}")
            runs, wrong = runs + more, wrong + faults
    for ends, what in (("", "alone"), ("..", "and all behind it")):
        more, ways, faults = sweep(program, library, LONG, ends, MOST_READING)
        print(f"a long file, refusing each of the first {MOST_READING} growths {what}: {faults} runs wrong; {dict(ways)}")
        runs, wrong = runs + more, wrong + faults
    print(f"{runs} growths refused, {wrong} runs wrong")
    sys.exit(1 if wrong else 0)


if __name__ == "__main__":
    main(*map(os.path.abspath, sys.argv[1:]))
