"""Runs the program with starts of threads refused: thread_starts.py PROGRAM LIBRARY.

LIBRARY is refuse_start.c, built. Each start of a run's threads is refused alone, and with all behind it. Every run has to
end with status 0, and with replies and contents that histories.py finds a history for, and has to ask for each other start
as the run does of which none is refused.
"""
import os
import sys
import tempfile

from histories import judge, run

SETTINGS = [4, 2, 4096]
FILES = [
    ["put a 1", "evict", "get a", "del a", "get b", "put e 1", "where e"],
    ["put b 2", "put c 2", "put d 2", "hold b", "put b 3", "show", "release", "get e"],
    ["put e 3", "putif a 1 4", "evict", "putnew a 5", "get c", "get d"],
]
# A run that writes one bucket more often than a limbo holds spares: somebody has to reclaim them.
MANY = [[f"put a {number}" for number in range(300)], [f"put b {number}" for number in range(300)]]
# Two files of more than 262,144 bytes, which are read and parsed in parts, in as few commands as may be.
FILLING = [f"putif {'k' * 255} {'x' * 255} {'y' * 255}"] * 340
LONG = [["put a 1", *FILLING], ["put b 2", *FILLING]]
CASES = [("one file", FILES[:1]), ("two files of 300 puts", MANY), ("three files", FILES), ("two long files", LONG)]


def run_refused(program, library, files, refused):
    """Gives what is wrong with a run whose starts are refused so, if anything, and how many it asked for."""
    with tempfile.NamedTemporaryFile("r") as told:
        environment = {"LD_PRELOAD": library, "REFUSED": refused, "STARTS": told.name}
        _, why = judge(files, *run(program, SETTINGS, files, environment))
        asked = told.read().strip()
    return why, int(asked) if asked.isdigit() else 0


def main(program, library):
    runs = wrong = 0
    for name, files in CASES:
        why, starts = run_refused(program, library, files, "0")
        # Each file has a thread of its own or the program's, and one more is the evictor's where there are several.
        if not why and starts < len(files):
            why = f"{starts} starts"
        told = [("0", why)]
        for refused in (f"{number}{ends}" for number in range(1, starts + 1) for ends in ("", "..")):
            why, asked = run_refused(program, library, files, refused)
            told.append((refused, why or (asked != starts and f"{asked} starts, and not {starts}")))
        print(f"{name}: {starts} starts")
        for refused, why in told:
            runs += 1
            if why:
                wrong += 1
                print(f"refusing {refused}: {why}")
    print(f"{runs} runs, {wrong} wrong")
    sys.exit(1 if wrong else 0)


if __name__ == "__main__":
    main(*map(os.path.abspath, sys.argv[1:]))
