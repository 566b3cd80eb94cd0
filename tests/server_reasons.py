"""Trials of server.py: a device that fails says why, to the client, in INFO and at the start, and the server goes on."""
import contextlib
import ctypes
import os
import subprocess
import tempfile
import time
from pathlib import Path

from server_parts import OK, bulk, until
from stores_parts import Store

FULL = b"-OOM command not allowed when used memory > 'maxmemory'."
# More values, of so many bytes, than fit into the memory and onto the disks here.
COUNT, SIZE = 4000, 30_000
# Of Linux: prctl's number for a capability that the program started next doesn't get, and root's leave to pass permissions.
CAPBSET_DROP, DAC_OVERRIDE = 24, 1


def value(number):
    return b"%0*d" % (SIZE, number)


def without_leave():
    """Has root, too, be refused by permissions."""
    if os.geteuid() == 0:
        assert ctypes.CDLL(None).prctl(CAPBSET_DROP, DAC_OVERRIDE, 0, 0, 0) == 0


@contextlib.contextmanager
def mounted(folder, options):
    """A tmpfs at this folder. Gives whether there is one: it takes root's leave."""
    is_done = subprocess.run(["mount", "-t", "tmpfs", "-o", options, "none", folder], stderr=subprocess.DEVNULL).returncode == 0
    try:
        yield is_done
    finally:
        if is_done:
            subprocess.run(["umount", "--lazy", folder], check=True)


def sets_until_refused(client, text):
    """Sets values until one is refused, with this reason in the refusal. Gives how many were set."""
    for at in range(COUNT):
        told = client.ask("SET", f"key{at}", value(at))
        if told != OK:
            assert told == FULL + b" Far device failed: " + text + b"\r\n", (at, told)
            return at
    raise AssertionError("nothing was refused")


def is_in_info(client, text, kind):
    """INFO has this reason as the last one, a time of now, and counts of this kind alone."""
    told, now = client.info("far"), time.time()
    counts = {it.removeprefix("device_errors_"): int(told[it]) for it in told if it.startswith("device_errors_")}
    assert told["last_device_error"] == text, told
    assert now - 60 < int(told["last_device_error_time"]) < now + 2, (told["last_device_error_time"], now)
    assert [it for it in counts if counts[it]] == [kind], counts
    return counts[kind]


def goes_on(client, count):
    """What was set before can be read, and keys that go make room."""
    wrong = [at for at in range(count) if client.ask("GET", f"key{at}") != bulk(value(at))]
    assert not wrong, (len(wrong), count)
    assert client.ask("DEL", *[f"key{at}" for at in range(count // 2)]) == b":%d\r\n" % (count // 2)
    until(lambda: client.ask("SET", "more", value(0)) == OK, "room for a value")
    assert client.value("GET", "more") == value(0)


def no_error(client):
    told = client.info("far")
    assert (told["last_device_error"], told["last_device_error_time"]) == ("none", "0"), told
    assert {told[it] for it in told if it.startswith("device_errors_")} == {"0"}, told


def a_full_disk_says_so(tried, _):
    folder = Path(tried.work) / "full"
    folder.mkdir()
    with mounted(folder, "size=8m") as is_mounted:
        if not is_mounted:
            return "(skipped: no leave to mount a tmpfs)"
        with tried.start(memory="48m", far=folder) as server:
            client = server.client()
            no_error(client)
            count = sets_until_refused(client, b"no space left on device")
            failed = is_in_info(client, "no space left on device", "no_space")
            goes_on(client, count)
    return f"after {count} values, {failed} calls failed"


def a_limit_of_the_disk_says_so(tried, _):
    with tried.start("--far-limit", "4m", memory="48m") as server:
        client = server.client()
        count = sets_until_refused(client, b"no space left on device")
        is_in_info(client, "no space left on device", "no_space")
        goes_on(client, count)


def is_met_without_a_client(client, text):
    """Sets values until INFO has this reason. No client has met it: what fails is what makes room beside their calls."""
    for at in range(COUNT):
        assert client.ask("SET", f"key{at}", value(at)) == OK, at
        if at % 10 == 0 and client.info("far")["last_device_error"] != "none":
            break
    told = client.info("far")
    assert told["last_device_error"] == text and told["refused_memory"] == told["refused_device"] == "0", told


def fails_for(tried, name, spoil, mend, text, kind):
    """A server whose folder is spoilt after the start, and mended again."""
    folder = Path(tried.work) / name
    with tried.start(memory="48m", far=folder, prepare=without_leave) as server:
        client = server.client()
        no_error(client)
        spoil(folder)
        try:
            is_met_without_a_client(client, text)
            count = sets_until_refused(client, text.encode())
            is_in_info(client, text, kind)
        finally:
            mend(folder)
        until(lambda: client.ask("SET", "mended", value(0)) == OK, "a folder that can be used again")
        goes_on(client, count)
        assert int(client.info("far")["far_objects"]) > 0
    return f"after {count} values"


def a_folder_that_is_gone_says_so(tried, _):
    """The files have no names, so the folder is empty, and goes. The first file of another size can't be made then."""
    return fails_for(tried, "gone", os.rmdir, os.mkdir, "no such file or directory", "missing")


def a_folder_without_permission_says_so(tried, _):
    return fails_for(tried, "closed", lambda it: it.chmod(0o500), lambda it: it.chmod(0o700), "permission denied", "permission_denied")


def a_read_only_folder_says_so(tried, _):
    with contextlib.ExitStack() as disks:
        folder = Path(tried.work) / "only_read"
        folder.mkdir()
        with mounted(folder, "ro") as is_mounted:
            if not is_mounted:
                return "(skipped: no leave to mount a tmpfs)"

        def spoil(it):
            assert disks.enter_context(mounted(it, "ro"))
        return fails_for(tried, "only_read", spoil, lambda _: disks.close(), "read-only file system", "read_only")


def a_killed_store_says_so(tried, _):
    """Calls of what is there fail since the store is away, then since it is back with nothing; and new values have room nowhere."""
    failed = b"-ERR far device failed: "
    with Store(tried.work) as store, tried.start("--far-resp", store.address, "--far-timeout", 2, memory="48m", far=None) as server:
        client = server.client()
        for at in range(2000):
            assert client.ask("SET", f"key{at}", value(at)) == OK
        no_error(client)
        store.kill()
        told = {client.ask("GET", f"key{at}")[:60] for at in range(0, 2000, 10)} - {bulk(value(at))[:60] for at in range(2000)}
        assert told == {failed + b"store unreachable\r\n"}, told
        is_in_info(client, "store unreachable", "unreachable")
        assert client.info("far")["far_state"] == "resting"
        # FLUSHALL meets it too, and SCAN.
        assert client.ask("SCAN", 0, "COUNT", 1000) == failed + b"store unreachable\r\n"
        for at in range(COUNT):
            told = client.ask("SET", f"new{at}", value(at))
            if told.startswith(b"-OOM"):
                break
            assert told in (OK, failed + b"store unreachable\r\n"), told
        assert told == FULL + b" Far device failed: store unreachable\r\n", told
        with Store(tried.work, store.folder):
            lost = failed + b"store has lost the object\r\n"
            until(lambda: lost in {client.ask("GET", f"key{at}") for at in range(0, 2000, 50)}, "what a store has lost")
            told = client.info("far")
            assert int(told["device_errors_lost"]) > 0 and int(told["device_errors_unreachable"]) > 0, told
            until(lambda: client.ask("SET", "fresh", value(1)) == OK, "a value that is taken again")
            assert client.value("GET", "fresh") == value(1)


def a_store_that_refuses_says_so(tried, _):
    with Store(tried.work) as store, tried.start("--far-resp", store.address, memory="48m", far=None) as server:
        client, far = server.client(), store.client()
        assert client.ask("SET", "a", "b") == OK and far.ask("REPLICAOF", "127.0.0.1", "1") == OK
        count = sets_until_refused(client, b"store replied with an error")
        is_in_info(client, "store replied with an error", "refused")
        assert far.ask("REPLICAOF", "NO", "ONE") == OK
        until(lambda: client.ask("SET", "more", value(0)) == OK, "a store that takes writes again")
        goes_on(client, count)


def a_server_without_far_memory_has_no_such_error(tried, _):
    with tried.start(memory="48m", far=None) as server:
        client = server.client()
        for at in range(COUNT):
            told = client.ask("SET", f"key{at}", value(at))
            if told != OK:
                break
        assert told == FULL + b"\r\n", told
        no_error(client)


def folders_that_cannot_be_opened_at_the_start(tried, _):
    work = Path(tempfile.mkdtemp(dir=tried.work))
    (work / "file").write_text("")
    (work / "shut").mkdir()
    (work / "shut").chmod(0o500)
    (work / "disk").mkdir()
    asked = [
        (work / "none", "No such file or directory; make the folder before the start"),
        (work / "file", "Not a directory; name a folder"),
        (work / "shut", "Permission denied; the server's user has to be able to make files in it"),
        ("", "the path is empty; name a folder"),
    ]

    def said(folder):
        return tried.start("--far", folder, far=None, prepare=without_leave).ended(2)
    for folder, text in asked:
        assert f"--far {folder}: cannot open: {text}\n" in said(folder), said(folder)
    with mounted(work / "disk", "ro") as is_mounted:
        if is_mounted:
            assert "cannot open: Read-only file system; name a folder on a disk that takes writes\n" in said(work / "disk")
    with mounted(work / "disk", "size=4m,nr_inodes=1") as is_mounted:
        if is_mounted:
            assert "cannot open: No space left on device; make room on its disk\n" in said(work / "disk")


TRIALS = [a_full_disk_says_so, a_limit_of_the_disk_says_so, a_folder_that_is_gone_says_so, a_folder_without_permission_says_so,
          a_read_only_folder_says_so, a_killed_store_says_so, a_store_that_refuses_says_so, a_server_without_far_memory_has_no_such_error,
          folders_that_cannot_be_opened_at_the_start]
