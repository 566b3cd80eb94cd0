"""Tries how programs are started and built: starts.py FOLDER [--long] [TRIAL]...

A TRIAL is the name of a function of the files starts_*.py; all are made if none is named. --long starts and ends a server more often,
and really builds a program in a folder with a space in its name.
"""
import signal
import sys
import time
import traceback
from pathlib import Path

import starts_builds
import starts_files
import starts_options
import starts_server
from starts_parts import Skipped, Tried

PARTS = [starts_files, starts_options, starts_builds, starts_server]


def tell(trial, tried, is_long):
    """Makes a trial, prints how it went, and gives whether it went well."""
    began = time.monotonic()
    try:
        is_well, told = True, f"ok {trial(tried, is_long) or ''}"
    except Skipped as why:
        is_well, told = True, f"skipped: {why}"
    except Exception as fault:
        own = [it for it in traceback.extract_tb(fault.__traceback__) if "starts_" in it.filename]
        places = " < ".join(f"{Path(it.filename).name}:{it.lineno}" for it in reversed(own))
        is_well, told = False, f"FAILED: {type(fault).__name__} {str(fault)[:1500]}, {places}"
    print(f"{trial.__name__.replace('_', ' ')}: {told.rstrip()} ({time.monotonic() - began:.1f} s)", flush=True)
    return is_well


def main():
    # (who runs this in the background may ignore it, and all that is started here would then)
    signal.signal(signal.SIGINT, signal.default_int_handler)
    work, *words = sys.argv[1:]
    names = [it for it in words if not it.startswith("--")]
    trials = [it for part in PARTS for it in part.TRIALS if it.__name__ in names or not names]
    tried = Tried(work)
    wrong = sum(not tell(trial, tried, "--long" in words) for trial in trials)
    print(f"{len(trials)} trials of starts, {wrong} wrong")
    sys.exit(1 if wrong else 0)


if __name__ == "__main__":
    main()
