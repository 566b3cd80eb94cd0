"""Trials of gateway.py: how clients share a worker."""
import random
import threading
import time

from gateway_parts import DATA, PATIENCE, Gateway, Worker, fill, pong, received, sender, until

# What may wait for a worker that several share, with what it is at work on: a packet, its pipe, and a packet.
SHARE = 4096 + 16384 + 4096
LINE = 100
SLOW = b"LATE 0.001".ljust(LINE - 1) + b"\n"


class Counting(Worker):
    """A worker that counts the lines that it has answered."""

    answered = before_ping = 0

    def answer(self, connection, command, *words):
        if command == b"PING":
            self.before_ping = self.answered
        super().answer(connection, command, *words)
        self.answered += 1


def bytes_before(worker, client):
    """How many bytes the worker answers from now on until this client's question is."""
    before = worker.answered
    pong(client)
    return (worker.before_ping - before) * LINE


def waits_little(worker, client):
    """Sees that little is answered before this client's questions. Some may be late since this machine is busy."""
    waited = sorted(bytes_before(worker, client) for _ in range(5))
    assert waited[1] <= SHARE and waited[-1] <= 131072, f"so many bytes were answered before its own: {waited}"


def a_piece_of_one_holds_up_nobody(work, _):
    with Gateway(work, kind=Counting) as gateway:
        worker = gateway.workers[0]
        greedy, other = gateway.client(), gateway.client()
        pong(greedy)
        pong(other)
        with sender(greedy, SLOW * 2500):
            time.sleep(0.2)
            waits_little(worker, other)
            assert received(greedy, 2500 * 5) == b"late\n" * 2500


def what_waits_of_one_alone_is_followed_by_the_next(work, _):
    with Gateway(work, kind=Counting) as gateway:
        worker = gateway.workers[0]
        greedy = gateway.client()
        pong(greedy)
        with sender(greedy, SLOW * 4000):
            until(lambda: worker.answered > 200, "that much is on the way")
            other = gateway.client()
            first = bytes_before(worker, other)
            # Two turns that wait, the pipe and a packet, and what comes before it is asked on a busy machine.
            assert SHARE < first <= 5 * 65536, first
            waits_little(worker, other)
            assert received(greedy, 4000 * 5) == b"late\n" * 4000


def a_slow_worker_is_shared_too(work, _):
    """Between two questions of one client a second passes and more, since so much of the other's comes first."""
    slow = b"LATE 0.01".ljust(LINE - 1) + b"\n"
    with Gateway(work, kind=Counting) as gateway:
        greedy, other = gateway.client(), gateway.client()
        pong(greedy)
        pong(other)
        with sender(greedy, slow * 900):
            time.sleep(0.2)
            for _ in range(3):
                began = time.monotonic()
                waited = bytes_before(gateway.workers[0], other)
                assert waited <= 2 * SHARE and time.monotonic() - began > 1.2, (waited, time.monotonic() - began)


def each_has_its_turn(work, _):
    with Gateway(work) as gateway:
        worker = gateway.workers[0]
        clients = [gateway.client() for _ in range(7)]
        for client in clients:
            pong(client)
        worker.reads.clear()
        for client in clients:
            fill(client, b"NOTHING\n" * 8192, 1000)
        assert gateway.rests(), "it is busy while all wait"
        begin = len(worker.frames)
        worker.reads.set()
        # What waited of the first is answered first. Then each has as many turns as any, while all have input.
        until(lambda: len(worker.frames) >= begin + 400, "many turns")
        numbers = [number for kind, number, _ in worker.frames[begin + 50:begin + 190] if kind == DATA]
        for at in range(len(numbers) - 14):
            assert len(set(numbers[at:at + 14])) == 7, f"not each has its turn: {numbers}"


def a_worker_that_reads_little_wakes_nobody_in_vain(work, _):
    """A second client comes while much of the first waits, and the worker reads on bit by bit."""
    with Gateway(work) as gateway:
        worker = gateway.workers[0]
        first, second = gateway.client(), gateway.client()
        pong(first)
        pong(second)
        # Until the first counts as alone.
        time.sleep(1.2)
        worker.reads.clear()
        fill(first, b"NOTHING\n" * 8192, 1000)
        second.sendall(b"PING\n")
        assert gateway.rests(), "it is busy with a full pipe"
        for _ in range(6):
            worker.reads.set()
            time.sleep(0.002)
            worker.reads.clear()
            assert gateway.rests(), "it is busy with a pipe of which much was read"
        worker.reads.set()
        assert received(second, 7) == b"+PONG\r\n"
        pong(first)


def no_byte_is_lost_where_many_send(work, clients):
    """Each sends lines of any length, cut anywhere, to a worker that is late now and then."""
    def send(client, data, pieces):
        for end in pieces:
            client.sendall(data[:end])
            data = data[end:]
            if random.random() < 0.05:
                time.sleep(random.random() / 100)
        client.sendall(data)

    with Gateway(work, workers=2) as gateway:
        count = min(20, clients)
        all_of = [gateway.client() for _ in range(count)]
        wanted, threads = [], []
        for number, client in enumerate(all_of):
            lines = [b"ECHO %d %d %s\n" % (number, at, b"z" * int(10 ** random.uniform(0, 4.5))) for at in range(150)]
            lines.insert(75, b"LATE 0.05\n")
            wanted.append(b"".join(it.removeprefix(b"ECHO ") if it[:4] == b"ECHO" else b"late\n" for it in lines))
            pieces = [int(10 ** random.uniform(0, 4.5)) for _ in range(60)]
            threads.append(threading.Thread(target=send, args=(client, b"".join(lines), pieces), daemon=True))
        for thread in threads:
            thread.start()
        told = [bytearray() for _ in all_of]

        def take(number):
            told[number] += received(all_of[number], len(wanted[number]))

        readers = [threading.Thread(target=take, args=(it,), daemon=True) for it in range(count)]
        for thread in readers:
            thread.start()
        for thread in readers + threads:
            thread.join(3 * PATIENCE)
        for number in range(count):
            assert told[number] == wanted[number], f"client {number} got {len(told[number])} of {len(wanted[number])} bytes"
        assert gateway.rests()


TRIALS = [
    a_piece_of_one_holds_up_nobody, what_waits_of_one_alone_is_followed_by_the_next, a_slow_worker_is_shared_too,
    each_has_its_turn, a_worker_that_reads_little_wakes_nobody_in_vain, no_byte_is_lost_where_many_send,
]
