"""Tries bin/fardump from outside, with bin/farserve, redis-server and servers that misbehave: fardump.py FOLDER [--long] [TRIAL]...

A TRIAL is the name of a function of the files fardump_*.py; all are made if none is named. --long has more keys.
"""
import sys
import time
import traceback
from pathlib import Path

import fardump_faults
import fardump_files
import fardump_pairs
from fardump_parts import Tried


def tell(trial, tried):
    """Makes a trial, prints how it went, and gives whether it went well."""
    began = time.monotonic()
    try:
        is_well, told = True, f"ok {trial(tried) or ''}"
    except Exception as fault:
        own = [it for it in traceback.extract_tb(fault.__traceback__) if "fardump" in it.filename]
        places = " < ".join(f"{Path(it.filename).name}:{it.lineno}" for it in reversed(own))
        is_well, told = False, f"FAILED: {type(fault).__name__} {str(fault)[:1500]}, {places}"
    print(f"{trial.__name__.replace('_', ' ')}: {told.rstrip()} ({time.monotonic() - began:.1f} s)", flush=True)
    return is_well


def main():
    work, *words = sys.argv[1:]
    names = [it for it in words if not it.startswith("--")]
    parts = [fardump_pairs, fardump_files, fardump_faults]
    trials = [it for part in parts for it in part.TRIALS if it.__name__ in names or not names]
    tried = Tried(work, "--long" in words)
    wrong = sum(not tell(it, tried) for it in trials)
    print(f"{len(trials)} trials of dumps, {wrong} wrong")
    sys.exit(1 if wrong or not trials else 0)


if __name__ == "__main__":
    main()
