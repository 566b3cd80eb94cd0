"""How long clients wait while a server's map is renewed: renewal.py FOLDER [--quick]; renewal.sh says more."""
import contextlib
import subprocess
import sys
from pathlib import Path
from statistics import median

BENCH = Path(__file__).resolve().parent
sys.path.insert(0, str(BENCH.parent / "tests"))

from server_parts import MEBIBYTE, OK, Client, Farserve, request
from server_renewal import nothing_is_lost, renewals

# MiB of the server's memory, its keys, bytes of their values, whether most lie on disk, and whether the disk has to be read.
SHAPES = [(1024, 1_000_000, 64, False, False), (1024, 1_000_000, 512, False, False), (256, 1_000_000, 512, True, False),
          (256, 250_000, 4096, True, False), (256, 250_000, 4096, True, True)]
MOST_BUCKETS = 1 << 18
RENEWALS = 3
# Each draws as many names as it has keys.
SPENDING = request("MSET", *(it for at in range(500) for it in (f"spent{at}", "x")))
# Seconds.
PATIENCE = 600


def fill(client, count, size):
    for first in range(0, count, 1000):
        asked = [("SET", f"key{at}", b"%0*d" % (size, at)) for at in range(first, min(first + 1000, count))]
        assert set(client.ask_all(asked)) == {OK}


def renew(client):
    """Changes keys until another renewal came, and gives its pause in seconds."""
    before = renewals(client)
    while renewals(client) == before:
        client.send(SPENDING * 20)
        assert {client.reply() for _ in range(20)} == {OK}
    return int(client.info("far")["renewal_last_ms"]) / 1000


@contextlib.contextmanager
def pages_dropped(process):
    """The system writes and drops the pages of the process's files without names meanwhile."""
    dropper = subprocess.Popen(["/usr/bin/python3", "-B", BENCH / "far.py", "drop", str(process)])
    try:
        yield
    finally:
        dropper.kill()
        dropper.wait()


def measure(work, memory, count, size, is_far, drops, times):
    """The objects on disk, how many seconds each renewal took, and the most bytes that were resident."""
    buckets = min(1 << (count - 1).bit_length(), MOST_BUCKETS)
    options = "--buckets", buckets, "--names", 16 * buckets
    with Farserve(work, *options, memory=f"{memory}m", far="far" if is_far else None) as server, Client(server.address, PATIENCE) as client:
        fill(client, count, size)
        far = int(client.info("far")["far_objects"])
        with pages_dropped(server.pid("farserve")) if drops else contextlib.nullcontext():
            pauses = [renew(client) for _ in range(times)]
        nothing_is_lost(client)
        return far, pauses, server.peak()


def main():
    work, is_quick = sys.argv[1], "--quick" in sys.argv
    print("Memory, MiB | Keys | Bytes | On disk | Pages | Pause, s | Microseconds a key | Resident, MiB\n---|---|---|---|---|---|---|---")
    for memory, count, size, is_far, drops in SHAPES:
        if is_quick:
            memory, count = memory // 16, count // 50
        far, pauses, peak = measure(work, memory, count, size, is_far, drops, 1 if is_quick else RENEWALS)
        pause = median(pauses)
        told = memory, f"{count:,}", size, f"{far:,}", "dropped" if drops else "kept", f"{pause:.2f}", f"{pause / count * 1e6:.1f}"
        print(*told, f"{peak / MEBIBYTE:.0f}", sep=" | ", flush=True)


main()
