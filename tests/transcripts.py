"""Plays case files side by side, each by a run of the program in a new folder: transcripts.py PROGRAM [FILE..].

Without a FILE all of tests/cases are played. Prints what the runs print of cases that went otherwise, and how many passed. The
status is 1 where a case failed, or a run did not end by itself.
"""
import os
import re
import subprocess
import sys
import tempfile
from concurrent.futures import ThreadPoolExecutor
from pathlib import Path

CASES = Path(__file__).resolve().parent / "cases"
# Seconds that the cases of one file may take on a busy machine.
LIMIT = 600


def play(program, path, words=(), environment=None):
    """Gives the status of the run, and what it printed: (None, TEXT) where it had to be ended."""
    with tempfile.TemporaryDirectory() as folder:
        how = {"cwd": folder, "capture_output": True, "text": True, "errors": "replace", "timeout": LIMIT}
        try:
            ran = subprocess.run([program, *words, str(path)], env={**os.environ, **(environment or {})}, **how)
        except subprocess.TimeoutExpired:
            return None, f"{path}: it had not ended after {LIMIT} seconds\n"
    return ran.returncode, ran.stdout + ran.stderr


def counts(said):
    """How many cases passed and failed, as the last line says, or None."""
    last = re.search(r"^(\d+) passed, (\d+) failed\n\Z", said, re.M)
    return (int(last[1]), int(last[2])) if last else None


def main(program, *paths):
    paths = [Path(it).resolve() for it in paths] or sorted(CASES.rglob("*.txt"))
    passed = failed = 0
    with ThreadPoolExecutor(os.cpu_count()) as pool:
        for path, (status, said) in zip(paths, pool.map(lambda it: play(program, it), paths)):
            count = counts(said)
            if count is None or status != (1 if count[1] else 0):
                print(f"{said.rstrip()}\n{path}: the run ended with status {status}")
                failed += 1
                continue
            if count[1]:
                print(said.rpartition(f"{count[0]} passed")[0].rstrip().replace(f"{CASES.parent.parent}/", ""))
            passed, failed = passed + count[0], failed + count[1]
    print(f"{passed} cases of {len(paths)} files passed, {failed} failed")
    return 1 if failed or not passed else 0


if __name__ == "__main__":
    sys.exit(main(*sys.argv[1:]))
