"""Tries examples/cluster/run.sh, a cache of four shards behind nutcracker: cluster.py FOLDER

Each trial is a function of TRIALS, and they are made in turn on one cache. A value names its key, so that one of another key, or an
older one, is found out.
"""
import contextlib
import os
import re
import signal
import sys
import time
import traceback
from collections import Counter
from pathlib import Path

import redis
from cluster_parts import EXAMPLE, KEYS, RUN, SHARDS, Cluster, free_ports, gives, got, options, pipelines, run, value
from server_parts import MEBIBYTE, OK, PATIENCE, Client, Process, request, until

PASSED = ["PING", "COMMAND", "AUTH x", "TYPE a", "TOUCH a b", "EXISTS a b", "UNLINK a b", "GETEX a EX 1", "PTTL a", "LPUSH l 1"]
CLOSED = ["SCAN 0", "RANDOMKEY", "DBSIZE", "FLUSHALL", "FLUSHDB", "EXPIRETIME a", "PEXPIRETIME a", "MULTI", "EXEC", "DISCARD",
          "PING x", "ECHO x", "HELLO", "SELECT 0", "CLIENT ID", "RESET", "QUIT", "INFO", "CONFIG GET maxmemory", "COMMAND COUNT",
          "SLOWLOG LEN", "KEYS *"]


def keys_are_spread(cluster):
    client = cluster.redis()
    for key in KEYS:
        assert client.set(key, value(key))
    assert got(client, KEYS) == {"value": len(KEYS)}
    cluster.look()
    sizes = [it.redis().dbsize() for it in cluster.shards]
    assert [len(it.keys) for it in cluster.shards] == sizes
    assert min(sizes) > len(KEYS) / SHARDS / 2 and sum(sizes) == len(KEYS), sizes
    assert client.mget(KEYS[:100]) == [value(it) for it in KEYS[:100]]
    return f"{sizes} keys"


def a_killed_shard_is_missed_alone(cluster):
    client, shard = cluster.redis(), cluster.shards[1]
    its, others = shard.keys, sorted(set(KEYS) - set(shard.keys))
    shard.kill()
    told = got(client, its)
    assert told["value"] == 0 and told["none"] > 0, told
    assert got(client, others) == {"value": len(others)}
    # For longer than nutcracker leaves the shard out, so that it fails again meanwhile.
    piped, end = Counter(), time.monotonic() + 2.5
    while time.monotonic() < end:
        piped += pipelines(cluster, KEYS)
    assert piped.total() > 0

    def is_set():
        with contextlib.suppress(redis.RedisError):
            return client.set(its[0], value(its[0])) and gives(client, its[0], value(its[0]))
    until(is_set, "another shard in the place of the killed one")

    shard.start()
    cluster.await_shard(shard, its[1])
    anew = got(client, its)
    assert anew == {"value": 1, "none": len(its) - 1}, anew
    for key in its:
        assert client.set(key, value(key))
    assert shard.redis().dbsize() == len(its)
    assert got(client, KEYS) == {"value": len(KEYS)}
    return f"{dict(told)}, pipelines: {dict(piped)}"


def old_values_can_come_back(cluster):
    """Tries what the docs warn of: a paused shard comes back with the values that it had, and one that stood in keeps its own."""
    client, shard = cluster.redis(), cluster.shards[2]
    key = shard.keys[0]
    faults = Counter()

    def is_missed():
        try:
            return client.get(key) is None
        except redis.RedisError as fault:
            faults[str(fault)] += 1
    shard.signal(signal.SIGSTOP)
    try:
        until(is_missed, "another shard in the place of the paused one")
        assert client.set(key, "newer") and client.get(key) == b"newer"
    finally:
        shard.signal(signal.SIGCONT)
    until(lambda: gives(client, key, value(key)), "the paused shard's value")

    assert client.set(key, "newest") and client.get(key) == b"newest"
    shard.kill()
    until(lambda: gives(client, key, b"newer"), "the value of the shard that stood in")
    shard.start()
    cluster.await_shard(shard, key)
    return dict(faults)


def without_ejection_keys_stay_where_they_are(cluster):
    """Tries a nutcracker beside the other, which leaves no shard out."""
    settings = (EXAMPLE / "nutcracker.yml").read_text()
    head = settings[:settings.index("  servers:\n")]
    port = free_ports(2)
    for name, word in (("listen", f"127.0.0.1:{port}"), ("auto_eject_hosts", "false")):
        head, count = re.subn(rf"(?m)^  {name}: .*", f"  {name}: {word}", head)
        assert count == 1, name
    servers = [f"    - 127.0.0.1:{it.port}:1 shard{at}\n" for at, it in enumerate(cluster.shards, 1)]
    file = Path(cluster.work) / "stays.yml"
    file.write_text(head + "  servers:\n" + "".join(servers))
    shard = cluster.shards[3]
    its = shard.keys[:20]
    with Process(["nutcracker", "-c", file, "-a", "127.0.0.1", "-s", port + 1]):
        client = redis.Redis(port=port, socket_timeout=PATIENCE)

        def is_there():
            with contextlib.suppress(redis.RedisError):
                return client.ping()
        until(is_there, "nutcracker")
        assert got(client, its) == {"value": len(its)}
        shard.kill()
        told = got(client, its)
        assert sum(told.values()) - told["value"] - told["none"] == len(its), told
        for key in its:
            with contextlib.suppress(redis.RedisError):
                raise AssertionError(f"{key} is set: {client.set(key, 'elsewhere')}")
        shard.start()

        def is_back():
            with contextlib.suppress(redis.RedisError):
                return client.set(its[0], value(its[0]))
        until(is_back, "the shard")
        assert got(client, its) == {"value": 1, "none": len(its) - 1}
        # What timed out may be done yet.
        shard.signal(signal.SIGSTOP)
        try:
            raise AssertionError(f"a paused shard answers {client.set(its[0], 'late')}")
        except redis.RedisError as fault:
            told[str(fault)] += 1
        finally:
            shard.signal(signal.SIGCONT)
        until(lambda: shard.redis().get(its[0]) == b"late", "what timed out")
    return dict(told)


def what_is_passed(cluster):
    """Tries which requests nutcracker passes on: it closes the connection at others, without a reply."""
    def told(*words):
        with Client(cluster.address) as client:
            client.send(request(*words))
            try:
                return client.reply()
            except (EOFError, ConnectionError):
                return None

    for words in PASSED:
        assert told(*words.split()) is not None, words
    for words in CLOSED:
        assert told(*words.split()) is None, words
    with cluster.redis().pipeline(transaction=False) as pipe:
        assert pipe.set("a", 1).incr("a").get("b").execute() == [True, 2, None]
    assert told("SET", "k" * 16_000, "") == OK and told("SET", "k" * 16_384, "") is None
    assert told("SET", "largest", "v" * MEBIBYTE) == OK


def too_large_requests_fail_their_shard(cluster):
    """Tries what the docs warn of: a shard closes its one connection at a request that is too large, which counts as a failure."""
    client, shard = cluster.redis(), cluster.shards[0]
    key = shard.keys[0]
    faults = Counter()

    def is_missed():
        for _ in range(3):
            with Client(cluster.address) as other:
                told = other.ask("SET", key, b"v" * (8 * MEBIBYTE))
                assert told.startswith(b"-"), told
                faults[told.decode().strip()] += 1
        return gives(client, key, None)
    until(is_missed, "another shard in the place of one that closed")
    cluster.await_shard(shard, key)
    assert got(client, shard.keys) == {"value": len(shard.keys)}
    return dict(faults)


def what_it_shows(cluster):
    """Has run.sh show what it shows, whole, and then ends one by ^C."""
    def left():
        return [it.name for it in Path(cluster.work).iterdir() if it.name.startswith("cluster-")]

    before = left()
    ran = run(*options(cluster.work, "--calls", 2000))
    assert ran.returncode == 0, ran
    for part in ("SET [0-9]+, GET [0-9]+\n", "is killed", r"times \(nil\)\n", "started again", "    1000 times its value\n$"):
        assert re.search(part, ran.stdout), (part, ran)
    assert left() == before, (left(), before)
    with Process([RUN, *options(cluster.work, "--calls", 1_000_000)]) as shown:
        until(lambda: shown.process.stdout.readline(), "its first line")
        os.killpg(shown.process.pid, signal.SIGINT)
        status = shown.process.wait(PATIENCE)
        assert status == 130, (status, shown.text())
        assert left() == before, (left(), before)

        def is_alone():
            try:
                os.killpg(shown.process.pid, 0)
            except ProcessLookupError:
                return True
        until(is_alone, "the end of all that was started")


def wrong_words(cluster):
    usage = "usage: run.sh"
    for words, status, part in (("--shards 0", 2, usage), ("--shards", 2, usage), ("--what 1", 2, usage), ("--calls -1", 2, usage),
                                ("--far /nowhere", 2, "no folder"), (f"--port {free_ports(6)} --memory 1m", 2, "too little"),
                                (f"--port {cluster.port()}", 1, "is taken")):
        ran = run("--far", cluster.work, *words.split())
        assert ran.returncode == status and part in ran.stderr and not ran.stdout, (words, ran)
    folder = Path(cluster.work) / "few"
    folder.mkdir()
    for name in ("bash", "env", "dirname", "readlink"):
        (folder / name).symlink_to(Path("/usr/bin") / name)
    ran = run(env={"PATH": str(folder)})
    assert ran.returncode == 3 and ran.stderr == "run.sh: needs nutcracker: apt-get install nutcracker\n", ran


TRIALS = [keys_are_spread, a_killed_shard_is_missed_alone, old_values_can_come_back, without_ejection_keys_stay_where_they_are,
          what_is_passed, too_large_requests_fail_their_shard, what_it_shows, wrong_words]


def tell(trial, cluster):
    """Makes a trial, prints how it went, and gives whether it went well."""
    began = time.monotonic()
    try:
        is_well, told = True, f"ok {trial(cluster) or ''}"
    except Exception as fault:
        own = [it for it in traceback.extract_tb(fault.__traceback__) if "cluster" in it.filename]
        places = " < ".join(f"{Path(it.filename).name}:{it.lineno}" for it in reversed(own))
        is_well, told = False, f"FAILED: {type(fault).__name__} {str(fault)[:1000]}, at {places}"
    print(f"{trial.__name__.replace('_', ' ')}: {told.rstrip()} ({time.monotonic() - began:.1f} s)", flush=True)
    return is_well


def main():
    # What is started here ends also where this is told to, and hears ^C also where this does not.
    signal.signal(signal.SIGTERM, lambda *_: sys.exit(143))
    signal.signal(signal.SIGINT, signal.default_int_handler)
    work = sys.argv[1]
    # A killed farserve leaves its pipes there.
    os.environ["XDG_RUNTIME_DIR"] = work
    with Cluster(work) as cluster:
        cluster.await_ready()
        wrong = sum(not tell(trial, cluster) for trial in TRIALS)
    print(f"{len(TRIALS)} trials of the cluster, {wrong} wrong")
    sys.exit(1 if wrong else 0)


if __name__ == "__main__":
    main()
