"""Trials of gateway.py: links of devices to a far store."""
import contextlib
import os
import random
import socket
import struct
import time
from concurrent.futures import ThreadPoolExecutor
from pathlib import Path

from gateway_parts import CLOSE, DATA, MEBIBYTE, OPEN, PATIENCE, fill, frame, is_closed, pong, received, sender, until
from gateway_stores import (PING, PONG, SHORT, WAIT, FarGateway, Redis, Store, exchange, free_port, has_redis, joined,
                          opened)

CLOSED = (CLOSE, b"")
LARGE = os.urandom(MEBIBYTE) * 20


def took(began, least, most):
    seconds = time.monotonic() - began
    assert least <= seconds <= most, f"it came after {seconds:.2f} s"


def a_call_goes_to_the_store_and_back(work, _):
    for unix in ("", work):
        with Store(unix) as store, FarGateway(work, store.address, links=3) as gateway:
            links = joined(gateway, store)
            for turn in range(20):
                for at, device in enumerate(gateway.devices):
                    exchange(device, links[at], 1, b"%d of %d" % (turn, at), b"%d to %d" % (turn, at))
            device, link = gateway.devices[1], links[1]
            for byte in frame(DATA, 1, b"in") + frame(DATA, 1) + frame(DATA, 1, b" pieces") + frame(WAIT, 1):
                device.sendall(bytes([byte]))
                time.sleep(0.002)
            assert received(link, 9) == b"in pieces"
            for byte in b"so too":
                link.sendall(bytes([byte]))
                time.sleep(0.002)
            assert device.reply(1, 6) == b"so too"
            pong(gateway.client())
            assert gateway.rests()


def large_objects_go_both_ways(work, _):
    with Store() as store, FarGateway(work, store.address) as gateway:
        device = gateway.device
        for at, number in enumerate((2**64 - 1, 0)):
            link = opened(device, store, number, at)
            with sender(device, 2 * frame(DATA, number, LARGE) + frame(WAIT, number)):
                assert received(link, 2 * len(LARGE)) == 2 * LARGE
            with sender(link, LARGE):
                assert device.reply(number, len(LARGE)) == LARGE
        assert gateway.memory() < 16 * MEBIBYTE, gateway.memory()


def who_takes_nothing_stops_the_other(work, _):
    with Store() as store, FarGateway(work, store.address) as gateway:
        device, [link] = gateway.device, joined(gateway, store)
        device.ask(1, b"much")
        assert received(link, 4) == b"much"
        sent = fill(link, LARGE, 20)
        assert gateway.memory() < 16 * MEBIBYTE, gateway.memory()
        assert gateway.rests(), "it is busy with a device that waits"
        pong(gateway.client())
        assert len(device.reply(1, sent)) == sent
        with sender(device, frame(DATA, 1, LARGE)):
            time.sleep(0.3)
            assert gateway.memory() < 16 * MEBIBYTE, gateway.memory()
            assert gateway.rests(), "it is busy with a store that waits"
            began = time.monotonic()
            pong(gateway.client())
            # The store is given up after five seconds.
            took(began, 0, 4)
            assert received(link, len(LARGE)) == LARGE
        exchange(device, link, 1)


def an_open_ends_the_old_connection(work, _):
    with Store() as store, FarGateway(work, store.address) as gateway:
        device, old = gateway.device, opened(gateway.device, store, 5, 0)
        device.sendall(frame(DATA, 5, b"half of a request"))
        assert received(old, 17) == b"half of a request"
        old.sendall(b"of the old one")
        assert not device.is_quiet(PATIENCE)
        link = opened(device, store, 6, 1)
        assert is_closed(old)
        device.sendall(frame(DATA, 5, b"stale") + frame(WAIT, 5) + frame(DATA, 7, b"of no number") + frame(WAIT, 7))
        exchange(device, link, 6)
        link = opened(device, store, 5, 2)
        exchange(device, link, 5)
        link.close()
        assert device.take(5) == CLOSED
        device.sendall(frame(DATA, 5, b"for nobody") + frame(WAIT, 5))
        exchange(device, opened(device, store, 8, 3), 8)
        until(lambda: len(store.came) == 5, "the last spare")
        assert device.is_quiet(0.1) and len(store.came) == 5


def a_store_that_goes_away_is_found_again(work, _):
    with Store() as store, FarGateway(work, store.address) as gateway:
        device, [link] = gateway.device, joined(gateway, store)
        exchange(device, link, 1)
        device.ask(1, b"a last one")
        store.link(1)
        store.close()
        assert device.take(1) == CLOSED
        time.sleep(0.1)
        began = time.monotonic()
        for number in range(2, 50):
            device.open(number)
            device.ask(number, b"is it there?")
            assert device.take(number) == CLOSED
        took(began, 0, 5)
        time.sleep(1)
        assert gateway.rests(), "it is busy without a store"
        pong(gateway.client())
        with Store(port=store.port) as again:
            began = time.monotonic()
            exchange(device, opened(device, again, 50, 0), 50)
            took(began, 0, 10)


def a_spare_that_the_store_ends_is_replaced(work, _):
    with Store() as store, FarGateway(work, store.address) as gateway:
        device = gateway.device
        store.link(0).close()
        store.link(1).sendall(b"nobody asked")
        exchange(device, opened(device, store, 1, 2), 1)
        store.link(3)
        time.sleep(1)
        store.closes = True
        began = time.monotonic()
        store.link(3).close()
        until(lambda: len(store.greeted) >= 7, "three spares more")
        # The first at once, and then one a second.
        assert len(store.came) - 4 <= 1 + time.monotonic() - began, f"{len(store.came)} connections"
        assert gateway.rests(), "it is busy with a store that closes"
        count = len(store.greeted)
        until(lambda: len(store.greeted) > count, "another one")
        store.closes = False
        exchange(device, opened(device, store, 2, len(store.came)), 2)


def a_late_store_is_closed_and_no_idle_one(work, _):
    with Store() as store, FarGateway(work, store.address, "--far-timeout", "3", links=6) as gateway:
        links = joined(gateway, store)
        idle, late, whole, half, stuck, slow = gateway.devices
        until(lambda: len(store.greeted) == 12, "the spares")
        # A wait that no longer counts, while the next spare is made, whose greeting gets no answer.
        store.greeting = [(PING, b"")]
        idle.sendall(frame(WAIT, 1))
        idle.joins(store.greeted[6:12], 2)
        idle.sendall(frame(WAIT, 1))
        until(lambda: len(store.greeted) == 13, "the next spare of the first link")
        store.greeting = [(PING, PONG)]
        with sender(stuck, frame(DATA, 1, LARGE) + frame(WAIT, 1)), sender(slow, frame(DATA, 1, LARGE) + frame(WAIT, 1)):
            # A reply came whole before its end was waited for, and of another half is to come.
            for at in (2, 3):
                gateway.devices[at].ask(1, b"?")
                assert received(links[at], 1) == b"?"
                links[at].sendall(b"half")
                assert not gateway.devices[at].is_quiet(PATIENCE)
            links[2].sendall(b" and half")
            time.sleep(0.1)
            assert whole.reply(1, 13) == b"half and half" and half.take(1) == (DATA, b"half")
            late.ask(1, b"?")
            half.sendall(frame(WAIT, 1))
            assert late.is_quiet(1.5) and half.is_quiet(0), "it was closed too early"
            left = len(LARGE)
            while any(it.is_quiet(0) for it in (late, half, stuck)):
                assert left > 200_000, "it was not closed"
                left -= len(received(links[5], 200_000))
                time.sleep(0.1)
            for device in (late, half, stuck):
                assert device.take(1) == CLOSED
            assert all(it.is_quiet(0) for it in (idle, whole, slow))
            received(links[5], left)
        links[5].sendall(b"taken")
        assert slow.take(1) == (DATA, b"taken")
        until(lambda: len(store.greeted) == 14, "another spare in its place")
        for at in (2, 5):
            exchange(gateway.devices[at], links[at], 1)


def calls_end_in_any_way(work, clients):
    """A request is how long it is, how long a reply it wants, and the byte of both; the store may end it half way."""
    sizes = [1, 100, 70_000, 700_000]

    def serve(link):
        with contextlib.suppress(OSError):
            while head := received(link, 9):
                sent, wanted, byte = struct.unpack(">IIc", head)
                how = random.randrange(9)
                if how == 2:
                    break
                assert received(link, sent) == byte * sent
                cut = wanted - 1 if how < 2 else random.randrange(wanted)
                link.sendall(byte * cut)
                time.sleep(random.choice([0, 0.001]))
                if how == 0:
                    link.setsockopt(socket.SOL_SOCKET, socket.SO_LINGER, struct.pack("ii", 1, 0))
                if how < 2:
                    break
                link.sendall(byte * (wanted - cut))
        link.close()

    def call(device):
        number, kind, whole = 0, CLOSE, 0
        for _ in range(clients // 4):
            if kind == CLOSE or random.random() < 0.1:
                number += 1
                time.sleep(random.choice([0, 0.003]))
                device.open(number)
            sent, wanted, byte = random.choice(sizes), random.choice(sizes), random.choice([b"a", b"b", b"c"])
            device.ask(number, struct.pack(">IIc", sent, wanted, byte) + byte * sent)
            came, kind = 0, DATA
            while came < wanted:
                kind, data = device.take(number)
                came += len(data)
                if kind == CLOSE:
                    break
                assert data == byte * len(data), "a byte of another call"
                if came < wanted:
                    device.sendall(frame(WAIT, number))
            assert came <= wanted and (kind == CLOSE) == (came < wanted)
            whole += kind == DATA
        return whole

    with Store(serve=serve) as store, FarGateway(work, store.address, links=3) as gateway:
        with ThreadPoolExecutor() as pool:
            whole = list(pool.map(call, gateway.devices))
        assert all(clients / 16 < it < clients // 4 for it in whole), whole
        assert gateway.rests()


def connections(client):
    """How many redis-server has."""
    client.sendall(b"INFO clients\r\n")
    told = b""
    while not told.endswith(b"\r\n") or told.count(b"\r\n") < 3:
        told += client.recv(1 << 16)
    return int(told.partition(b"connected_clients:")[2].split()[0])


def redis_is_the_store(work, _):
    if not has_redis():
        print("skipped: redis-server as the far store (it is not there)")
        return
    port, path, file = free_port(), f"{work}/redis", Path(work, "secret")
    file.write_text("a secret\n")
    password = ("--far-password-file", file)
    data = b"x" * 3 * MEBIBYTE
    request = b"*3\r\n$3\r\nSET\r\n$1\r\nk\r\n$%d\r\n%s\r\n" % (len(data), data)

    def calls(device, number):
        device.ask(number, request)
        assert device.reply(number, 5) == b"+OK\r\n"
        device.ask(number, b"*2\r\n$3\r\nGET\r\n$1\r\nk\r\n")
        assert device.reply(number, 10 + len(data)).endswith(b"\r\n" + data + b"\r\n")

    def comes_back(device, numbers):
        began = time.monotonic()
        for number in numbers:
            device.open(number)
            device.ask(number, PING)
            if device.take(number) == (DATA, PONG):
                took(began, 0, 10)
                return number
            time.sleep(0.02)
        raise AssertionError("the store does not come back")

    with Redis(work, unix=path), FarGateway(work, path) as gateway:
        gateway.device.open(1)
        calls(gateway.device, 1)
    address = f"127.0.0.1:{port}"
    with Redis(work, port, password="a secret") as redis, FarGateway(work, address, *SHORT, *password) as gateway:
        device = gateway.device
        device.open(1)
        calls(device, 1)
        with socket.create_connection(("127.0.0.1", port), PATIENCE) as client:
            client.sendall(b"AUTH 'a secret'\r\n")
            assert received(client, 5) == b"+OK\r\n"
            until(lambda: connections(client) == 3, "a spare beside the link and this one")
            client.sendall(b"CLIENT KILL TYPE normal\r\n")
            assert received(client, 4) == b":2\r\n"
        assert device.take(1) == CLOSED
        number = comes_back(device, range(2, 200))
        redis.stop()
        began = time.monotonic()
        device.ask(number, PING)
        assert device.take(number) == CLOSED
        took(began, 1, 10)
        redis.go_on()
        number = comes_back(device, range(201, 400))
        redis.process.kill()
        assert device.take(number) == CLOSED
        redis.process.wait()
        with Redis(work, port, password="a secret"):
            calls(device, comes_back(device, range(400, 600)))


TRIALS = [
    a_call_goes_to_the_store_and_back, large_objects_go_both_ways, who_takes_nothing_stops_the_other,
    an_open_ends_the_old_connection, a_store_that_goes_away_is_found_again, a_spare_that_the_store_ends_is_replaced,
    a_late_store_is_closed_and_no_idle_one, calls_end_in_any_way, redis_is_the_store,
]
