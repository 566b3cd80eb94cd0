"""Trials of server.py: which changes are refused where memory or disk is full. Without --far only memory refuses one, and with
--policy allkeys nothing does while another key could go.
"""
import random
import threading

from server_ends import SLACK
from server_parts import MEBIBYTE, OK, bulk, until

FULL = b"-OOM command not allowed"
# Larger than any value that is set here. A value is a part of it.
BYTES = random.Random(7).randbytes(2 * MEBIBYTE)


def value_of(number, size):
    at = number * 4099 % MEBIBYTE
    return BYTES[at:at + size]


def is_refused_by_no_device(client):
    told = client.info("far")
    counts = {it: told[it] for it in ("device_failures", "refused_device", "swap_outs")}
    assert set(counts.values()) == {"0"}, counts


def one_bucket_takes_each_change(tried, _):
    """A map of one bucket, which is never empty after the first change: each worker may change it, and none needs a device."""
    for policy in ("noeviction", "allkeys"):
        with tried.start("--buckets", 1, "--policy", policy, far=None) as server:
            clients = [server.client() for _ in range(16)]
            for at in range(320):
                client = clients[at % 16]
                assert client.ask("SET", "a", at) == OK
                assert client.number("INCR", "a") == at + 1
                assert client.ask("SET", f"b{at % 40}", "x" * at) == OK
                assert client.number("DEL", f"b{at % 40}") == 1
            changes_at_once(clients)
            is_refused_by_no_device(clients[0])


def changes_at_once(clients):
    """Each client changes a key of its own while all others do: old versions wait for their readers, and take no frame that lacks."""
    wrong = []

    def change(number, client):
        asked = [("SET", f"own{number}", at) if at % 2 else ("INCRBY", f"own{number}", 1) for at in range(400)]
        wrong.extend(it for it in client.ask_all(asked) if it[:1] not in b"+:")
    at_once(change, clients)
    assert not wrong, wrong[:3]


def at_once(call, clients):
    threads = [threading.Thread(target=call, args=it) for it in enumerate(clients)]
    for thread in threads:
        thread.start()
    for thread in threads:
        thread.join()


def set_values(clients, count, size_of, first=0):
    """Has each client set its share of so many values, and gives the replies by the numbers of the values."""
    replies, piece = {}, 4

    def set_own(number, client):
        numbers = range(first + number, first + count, len(clients))
        for at in range(0, len(numbers), piece):
            part = numbers[at:at + piece]
            told = client.ask_all([("SET", f"key{it}", value_of(it, size_of(it))) for it in part])
            replies.update(zip(part, told))
    at_once(set_own, clients)
    assert len(replies) == count, f"{count - len(replies)} had no reply"
    return replies


def only_memory_refuses_without_far(tried, counts):
    """All buckets are filled long before memory is: the first refusal comes when that is full, and says so."""
    memory, size = 48 * MEBIBYTE, 2_000
    with tried.start("--buckets", 503, memory="48m", far=None) as server:
        clients = [server.client() for _ in range(8)]
        # A bucket has some keys after this, so none is empty.
        assert set(set_values(clients, 5_000, lambda it: size).values()) == {OK}
        replies = set_values(clients, 10_000, lambda it: size, 5_000)
        told = set(replies.values()) - {OK}
        refused = [it for it in replies if replies[it] != OK]
        assert len(told) == 1 and min(told).startswith(FULL), told
        held, most = (15_000 - len(refused)) * size, int(clients[0].info("far")["most_in_frames"])
        assert most * 0.8 < held < most * 1.3, f"{held / MEBIBYTE:.1f} MiB were set before the first refusal, of {most / MEBIBYTE:.1f}"
        assert clients[0].ask("GET", f"key{min(refused)}") == b"$-1\r\n" and clients[0].ask("GET", "key7") == bulk(value_of(7, size))
        is_refused_by_no_device(clients[0])
        until(lambda: int(clients[0].info("far")["refused_memory"]) == len(refused), "a count of all refusals")
        # What takes no room is done, and so is what finds some again.
        assert clients[0].ask("DEL", *[f"key{it}" for it in range(2_000)]) == b":2000\r\n"
        assert set(set_values(clients, 100, lambda it: size).values()) == {OK}
        peak = server.peak()
        assert peak < memory * SLACK, f"{peak / MEBIBYTE:.1f} MiB were resident"
    return f"{held / MEBIBYTE:.1f} MiB were set, {peak / MEBIBYTE:.1f} were resident"


def of_sizes(least, most):
    """Sizes between these powers of two, as many of each."""
    drawn = random.Random(5)
    sizes = [int(2 ** drawn.uniform(least, most)) for _ in range(4_096)]
    return lambda number: sizes[number % len(sizes)]


def sets_of_all_sizes(server, counts, memory):
    """Sets far more than there is room for, large values first and then those from 10 bytes to a MiB, and none is refused."""
    clients = [server.client() for _ in range(4)]
    count = min(counts["increments"], 20_000) // 2
    large = count // 5
    replies = set_values(clients, large, of_sizes(17, 18))
    size_of = of_sizes(3.33, 20)
    replies |= set_values(clients, count, size_of, large)
    wrong = {it: told for it, told in replies.items() if told != OK}
    assert not wrong, f"{len(wrong)} of {len(replies)} were refused: {set(wrong.values())}"
    last = range(large + count - 200, large + count)
    kept = [it for it in last if clients[0].ask("GET", f"key{it}") == bulk(value_of(it, size_of(it)))]
    assert len(kept) > 5, f"{len(kept)} of the last 200 were kept"
    peak = server.peak()
    assert peak < memory * SLACK, f"{peak / MEBIBYTE:.1f} MiB were resident"
    return f"{len(replies)} set, {int(clients[0].info('stats')['evicted_keys'])} evicted, {peak / MEBIBYTE:.1f} MiB resident"


def nothing_is_refused_where_keys_may_go(tried, counts):
    with tried.start("--policy", "allkeys", memory="64m", far=None) as server:
        told = sets_of_all_sizes(server, counts, 64 * MEBIBYTE)
        is_refused_by_no_device(server.client())
        return told


def nothing_is_refused_where_keys_may_go_from_a_full_disk(tried, counts):
    """The disk is full of small values, whose places serve no large one, before other values are set."""
    limit = 96 * MEBIBYTE
    with tried.start("--policy", "allkeys", "--far-limit", limit, memory="32m") as server:
        client, at = server.client(), 0
        while int(client.info("far")["far_bytes"]) < limit - MEBIBYTE:
            asked = [("SET", f"small{it}", value_of(it, 3_000)) for it in range(at, at + 500)]
            assert client.ask_all(asked) == [OK] * 500
            at += 500
            assert at < 100_000, "the disk does not get full"
        told = sets_of_all_sizes(server, counts, 32 * MEBIBYTE)
        assert 0 < server.scratch() <= limit
        return f"{at} small ones, {told}"


def what_is_read_stays(tried, _):
    """1,000 keys are read again and again while 50,000 others are set once, five times as much as there is room for: these go."""
    size, hot = 2_000, [f"hot{it}" for it in range(1_000)]
    with tried.start("--policy", "allkeys", memory="64m", far=None) as server:
        client = server.client()
        assert client.ask_all([("SET", it, value_of(at, size)) for at, it in enumerate(hot)]) == [OK] * len(hot)
        for first in range(0, 50_000, 500):
            asked = [("SET", f"cold{it}", value_of(it, size)) for it in range(first, first + 500)]
            assert client.ask_all(asked) == [OK] * 500
            kept = client.number("EXISTS", *hot)
        evicted, peak = int(client.info("stats")["evicted_keys"]), server.peak()
        assert evicted > 25_000, f"{evicted} were evicted"
        assert kept >= 950, f"{kept} of 1,000 were kept"
        assert peak < 64 * MEBIBYTE * SLACK, f"{peak / MEBIBYTE:.1f} MiB were resident"
    return f"{kept} of 1,000 were kept, {evicted} were evicted"


TRIALS = [
    one_bucket_takes_each_change,
    only_memory_refuses_without_far,
    nothing_is_refused_where_keys_may_go,
    nothing_is_refused_where_keys_may_go_from_a_full_disk,
    what_is_read_stays,
]
