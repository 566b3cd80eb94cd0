"""Trials of server.py: scratch files without objects keep their bytes for a while, and give them back when nobody waits, or when they are needed."""
import time
from pathlib import Path

from server_parts import MEBIBYTE, OK, bulk, until
from server_reasons import FULL, mounted

# Values of these many bytes are in slots of 4 KiB and of 64 KiB.
SMALL, LARGE = 3000, 60_000
# Files are not cut before they were without objects for so many seconds.
GRACE = 4


def value(size, number):
    return b"%0*d" % (size, number)


def set_until_refused(client, size, most):
    """Sets values of this size until one is refused for want of room. Gives how many were set."""
    for at in range(0, most, 20):
        told = client.ask_all([("SET", f"key{it}", value(size, it)) for it in range(at, at + 20)])
        if set(told) != {OK}:
            assert all(it == OK or it.startswith(FULL) for it in told), told
            return at + told.index(next(it for it in told if it != OK))
    raise AssertionError("nothing was refused")


def set_all(client, size, count):
    for at in range(0, count, 20):
        told = client.ask_all([("SET", f"key{it}", value(size, it)) for it in range(at, min(at + 20, count))])
        assert set(told) == {OK}, told


def far(client):
    told = client.info("far")
    return int(told["far_objects"]), int(told["far_bytes"])


def empty(client):
    """Removes all keys, and waits until no object is on disk."""
    assert client.ask("FLUSHALL") == OK
    # What the calls before left is let go by later ones.
    until(lambda: client.ask("SET", "k", "1") == OK and far(client)[0] == 0, "the end of the objects")


def files_without_objects_are_cut(tried, _):
    """After some seconds, and with no further call of a client. Until then the next objects go into the same bytes."""
    with tried.start(memory="32m") as server:
        client = server.client()
        set_all(client, LARGE, 2000)
        files, room = server.scratch(), far(client)[1]
        assert 70 * MEBIBYTE < files <= room, (files, room)
        began = time.monotonic()
        empty(client)
        kept, took = server.scratch(), time.monotonic() - began
        assert took > GRACE or kept == files, (kept, files, took)
        set_all(client, LARGE, 2000)
        assert server.scratch() <= files * 5 / 4, (server.scratch(), files)
        assert client.ask("GET", "key7") == bulk(value(LARGE, 7))
        empty(client)
        began = time.monotonic()
        until(lambda: server.scratch() == 0, "files of no bytes")
        took = time.monotonic() - began
        assert far(client) == (0, 0), far(client)
        set_all(client, LARGE, 1000)
        assert client.ask("GET", "key7") == bulk(value(LARGE, 7))
        assert far(client)[0] > 0
    return f"{files / MEBIBYTE:.0f} MiB of files were cut after {took:.1f} seconds"


def takes_other_values(server, client, limit):
    """Filled with small values, emptied, and filled with large ones at once: they get the bytes of the small ones. Gives how many bytes the files
    have then.
    """
    small = set_until_refused(client, SMALL, 100_000)
    assert far(client)[1] > limit / 2, far(client)
    empty(client)
    large = set_until_refused(client, LARGE, 100_000)
    objects, room = far(client)
    assert objects * 65_536 > limit / 2 and server.scratch() <= room, (objects, room)
    for at in range(0, large, 7):
        assert client.ask("GET", f"key{at}") == bulk(value(LARGE, at)), at
    return room, f"{small} small values, then {large} large ones"


def a_limit_is_not_met_by_bytes_of_no_object(tried, _):
    limit = 64 * MEBIBYTE
    with tried.start("--far-limit", limit, memory="32m") as server:
        room, told = takes_other_values(server, server.client(), limit)
        assert room <= limit, room
        return told


def a_disk_is_not_filled_by_bytes_of_no_object(tried, _):
    folder = Path(tried.work) / "small"
    folder.mkdir()
    with mounted(folder, "size=64m") as is_mounted:
        if not is_mounted:
            return "(skipped: no leave to mount a tmpfs)"
        with tried.start(memory="32m", far=folder) as server:
            # Pages behind an object's end are no blocks of the disk.
            room, told = takes_other_values(server, server.client(), 64 * MEBIBYTE)
            assert room <= 72 * MEBIBYTE, room
            return told


TRIALS = [files_without_objects_are_cut, a_limit_is_not_met_by_bytes_of_no_object, a_disk_is_not_filled_by_bytes_of_no_object]
