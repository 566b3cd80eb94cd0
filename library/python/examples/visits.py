"""Counts the URLs of files, one a line, in a map that may be larger than its memory: `visits.py FOLDER FILE..`. Scratch files are
in the folder. Prints the ten most frequent."""
import heapq
import sys
from concurrent.futures import ThreadPoolExecutor

import farmap

THREADS = 4


def count_in(path, visits):
    with open(path, "rb") as lines, visits.session() as session:
        for line in lines:
            session.change(line.rstrip(b"\n"), lambda old: (int.from_bytes(old or b"", "little") + 1).to_bytes(8, "little"))


def main(words):
    if len(words) < 2:
        return "usage: visits.py FOLDER FILE.."
    folder, *paths = words
    with farmap.open(memory="64m", far=folder, threads=THREADS) as visits:
        with ThreadPoolExecutor(THREADS) as threads:
            for told in [threads.submit(count_in, path, visits) for path in paths]:
                told.result()
        counts = ((-int.from_bytes(count, "little"), url) for url, count in visits.items())
        for count, url in heapq.nsmallest(10, counts):
            print(-count, url.decode(errors="replace"))
    return 0


if __name__ == "__main__":
    sys.exit(main(sys.argv[1:]))
