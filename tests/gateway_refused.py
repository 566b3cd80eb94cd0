"""Trials of gateway.py: the system refuses the gateway memory."""
import contextlib
import random
import resource
import select
import time
from pathlib import Path

from gateway_guarded import AUTH, OK, guarded, request
from gateway_memory import lazy_client
from gateway_parts import CLOSE, DATA, MEBIBYTE, PATIENCE, Gateway, asked, frame, is_closed, pong, received, until
from gateway_stores import FarGateway, Store, exchange, opened

# No other limit is to come first.
AMPLE = ["--output-limit", str(1 << 40), "--clients-memory", str(1 << 40), "--connections", "100000"]
# Kibibytes beyond what the gateway has when it is ready.
STEPS = [0, 4, 64, 256, 1024, 1500, 2048, 3000, 4096, 6000, 8192, 12_000, 16_384, 30_000, 60_000, 100_000]


def bound(gateway, kibibytes):
    """Refuses the gateway more memory than that beyond what it has now, none of it where None."""
    size = resource.RLIM_INFINITY
    if kibibytes is not None:
        size = 1024 * (kibibytes + int(Path(f"/proc/{gateway.process.pid}/status").read_text().partition("VmSize:")[2].split()[0]))
    resource.prlimit(gateway.process.pid, resource.RLIMIT_AS, (size, resource.RLIM_INFINITY))


def lives(gateway):
    assert gateway.process.poll() is None, f"it has ended with {gateway.process.returncode}: {gateway.process.stderr.read()[-300:]}"


def may_pong(gateway, client):
    """Asks: a right reply comes, or the end."""
    try:
        client.sendall(b"PING\n")
        told = received(client, 7)
    except OSError as fault:
        assert not isinstance(fault, TimeoutError), "no reply and no end"
        told = b""
    assert told in (b"+PONG\r\n", b"", b"-ERR ma"), told
    lives(gateway)
    return told == b"+PONG\r\n"


def are_served_again(gateway):
    """Sees that new clients are served once those are gone who took the memory, and that each close came."""
    for client in gateway.clients:
        client.close()
    gateway.clients.clear()
    until(lambda: lives(gateway) or not any(it.halves for it in gateway.workers), "all closes")
    clients = []

    def is_served():
        client = gateway.client()
        clients.append(client)
        return may_pong(gateway, client)

    until(is_served, "a new client's turn")
    for client in clients:
        client.close()


def exhaust(gateway):
    """Has more clients come, of which the worker is not told, until one is refused: no memory is left."""
    gateway.workers[0].reads.clear()
    bound(gateway, 0)
    with select.epoll() as told:
        while not told.poll(0.002):
            assert len(gateway.clients) < 15_000, "none was refused"
            told.register(gateway.client(), select.EPOLLIN)


def refused_memory_ends_clients_alone(work, _):
    for kibibytes in STEPS:
        with Gateway(work, *AMPLE, workers=2) as gateway:
            pingers = [gateway.client() for _ in range(10)]
            for client in pingers:
                pong(client)
            bound(gateway, kibibytes)
            heavy = [lazy_client(gateway) for _ in range(30)]
            for _ in range(5):
                for client in heavy:
                    with contextlib.suppress(OSError):
                        client.sendall(b"BIG %d\n" % MEBIBYTE)
                for client in pingers:
                    may_pong(gateway, client)
                pingers = [it for it in pingers if not is_over(it)]
            are_served_again(gateway)


def is_over(client):
    client.setblocking(False)
    try:
        return client.recv(1) == b""
    except BlockingIOError:
        return False
    except OSError:
        return True
    finally:
        client.settimeout(PATIENCE)


def refused_memory_refuses_new_clients(work, clients):
    for kibibytes in (0, 64, 256, 600):
        with Gateway(work, *AMPLE, workers=2) as gateway:
            pong(gateway.client())
            bound(gateway, kibibytes)
            # What the workers are told of them waits too.
            for worker in gateway.workers:
                worker.reads.clear()
            for _ in range(min(4 * clients, 4000)):
                gateway.client().sendall(b"ECHO %s\n" % (b"x" * random.randrange(3000)))
            lives(gateway)
            for worker in gateway.workers:
                worker.reads.set()
            if kibibytes == 0:
                until(lambda: any(b"rejected_connections" in it for it in gateway.workers[0].notes()), "that clients were refused")
            are_served_again(gateway)


def refused_memory_for_unauthenticated_clients(work, clients):
    long = request(b"SET", b"k", b"x" * 20_000)
    for kibibytes in (0, 64, 512, 2000):
        with guarded(work, *AMPLE) as (gateway, worker):
            asked(gateway.client(), AUTH[:-1], OK)
            bound(gateway, kibibytes)
            worker.answers = False
            for _ in range(min(2 * clients, 4000)):
                with contextlib.suppress(OSError):
                    gateway.client().sendall(random.choice([long, AUTH + long, AUTH + request(b"RESET") + long]))
            lives(gateway)
            worker.answers = True
            for text in list(worker.notes_held):
                worker.take_note(text)
            for client in gateway.clients:
                client.close()
            gateway.clients.clear()
            until(lambda: lives(gateway) or not worker.halves, "all closes")


def closes_are_owed_until_there_is_memory(work, _):
    with Gateway(work, *AMPLE) as gateway:
        worker = gateway.workers[0]
        clients = [gateway.client() for _ in range(200)]
        for client in clients:
            pong(client)
        exhaust(gateway)
        # An end of each goes both ways at once, or the worker's comes first.
        for client in clients[100:]:
            client.close()
        time.sleep(0.1)
        worker.closing.update(range(50, 150))
        worker.send(b"".join(frame(CLOSE, it) for it in range(50, 150)))
        for client in clients[50:100]:
            assert is_closed(client)
        lives(gateway)
        assert gateway.rests(), "it is busy while closes are owed"
        worker.reads.set()
        until(lambda: lives(gateway) or not any(50 <= it < 200 for it in worker.halves), "closes that were owed")
        told = [number for kind, number, _ in worker.frames if kind == CLOSE]
        assert sorted(it for it in told if it < 200) == list(range(50, 200)), told
        for client in clients[:50]:
            pong(client)
        bound(gateway, None)
        are_served_again(gateway)


def refused_memory_closes_a_link(work, _):
    """The store takes nothing, or the device."""
    large = frame(DATA, 1, b"x" * MEBIBYTE) * 24
    for _ in range(3):
        with Store() as store, FarGateway(work, store.address, "--far-timeout", "60") as gateway:
            device, link = gateway.device, opened(gateway.device, store, 1, 0)
            exchange(device, link, 1)
            exhaust(gateway)
            # It is closed, and what comes then is passed over.
            device.sendall(large)
            lives(gateway)
            assert device.take(1) == (CLOSE, b"")
            # The next connections are made while there is no memory.
            for number in (2, 3):
                exchange(device, opened(device, store, number, number - 1), number)
            gateway.workers[0].reads.set()
            are_served_again(gateway)
        with Store() as store, FarGateway(work, store.address, "--far-timeout", "60") as gateway:
            device, link = gateway.device, opened(gateway.device, store, 1, 0)
            device.ask(1, b"much")
            assert received(link, 4) == b"much"
            exhaust(gateway)
            with contextlib.suppress(OSError):
                link.sendall(large)
            lives(gateway)
            kind = DATA
            while kind == DATA:
                kind, data = device.take(1)
            assert is_closed(link)
            gateway.workers[0].reads.set()
            are_served_again(gateway)


TRIALS = [
    refused_memory_ends_clients_alone, refused_memory_refuses_new_clients, refused_memory_for_unauthenticated_clients,
    closes_are_owed_until_there_is_memory, refused_memory_closes_a_link,
]
