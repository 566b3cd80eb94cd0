"""Trials of gateway.py: clients that the worker has not let in."""
import contextlib
import random
import socket
import time

from gateway_guarded import (ARGUMENTS, AUTH, BYTES, INVALID, LINE, LONG, MANY, NOAUTH, OK, PASSWORD, RESET, WRONG, Guarded, guarded,
                           request, request_at)
from gateway_parts import (CLOSE, DATA, LET_IN, LET_OUT, MEBIBYTE, NOTE, OPEN, PATIENCE, Gateway, asked, frame, is_closed, received,
                         until)


def is_told(client, sent, reply, cuts=()):
    """Sends this, cut at these places, and sees that this reply comes, and then the end."""
    # The end may come before all is sent.
    with contextlib.suppress(ConnectionResetError, BrokenPipeError):
        for at, end in zip((0, *cuts), (*cuts, len(sent))):
            client.sendall(sent[at:end])
            time.sleep(0.002)
    told = received(client, len(reply))
    assert told == reply, (sent[:80], told[-200:], reply[-200:])
    assert is_closed(client), (sent[:80], "it is not closed")


def requests_within_the_limits_pass_at_once(work, _):
    most = request(*[b"x" * BYTES] * ARGUMENTS)
    line = b"x" * BYTES + b"\n"
    with guarded(work) as (gateway, worker):
        client = gateway.client()
        for sent in (request(b"GET", b"k"), b"GET k\r\n", most, line, b"\n\r\n*0\r\n*-1\r\n*-77\r\n" + request(b"PING"), most + line):
            client.sendall(sent)
            want = NOAUTH * (sent.count(b"x" * BYTES + b"\n") + (b"*10" in sent) or 1)
            told = received(client, len(want))
            assert told == want, (sent[:80], told)
        for byte in request(b"GET", b"one by one"):
            client.sendall(bytes([byte]))
            time.sleep(0.002)
        assert received(client, len(NOAUTH)) == NOAUTH
        assert worker.notes() == [], "the worker was asked"
        # A part of a request is passed on too.
        client.sendall(b"*2\r\n$4\r\nPI")
        until(lambda: worker.halves[0] == b"*2\r\n$4\r\nPI", "a part of a request")


def requests_beyond_the_limits_are_told(work, _):
    last = request(*[b"x" * BYTES] * ARGUMENTS)[:-len(b"$16384\r\n") - BYTES - 2] + b"$16385\r\nx"
    beyond = [(b"*11\r\n", MANY), (b"*1000000\r\n$4\r\nPING\r\n", MANY), (b"*2\r\n$3\r\nGET\r\n$16385\r\n", LONG),
              (b"*1\r\n$1000000000\r\nxxx", LONG), (last, LONG)]
    beyond += [(b"x" * (BYTES + 1), LINE), (b"GET " + b"x" * BYTES + b"\n" + request(b"PING"), LINE),
               (request(b"SET", b"k", b"x" * 20000) + request(b"PING"), LONG)]
    before = [(b"", b""), (request(b"GET", b"k") * 3, NOAUTH * 3), (b"PING\r\n", NOAUTH), (request(b"AUTH", b"wrong"), WRONG),
              (request(b"SLEEP", b"0.1") + request(b"AUTH", b"wrong") + request(b"PING"), WRONG + NOAUTH)]
    with guarded(work, workers=2) as (gateway, _):
        other = gateway.client()
        for sent, error in beyond:
            for first, replies in before:
                is_told(gateway.client(), first + sent, replies + error)
                whole = first + sent
                is_told(gateway.client(), whole, replies + error, sorted(random.sample(range(1, len(whole)), 3)))
        asked(other, b"PING", NOAUTH)
        until(lambda: sum(len(it.halves) for it in gateway.workers) == 1, "all closes")


def what_is_no_request_is_told_by_the_worker(work, _):
    with guarded(work) as (gateway, worker):
        for sent in (b"*x\r\n", b"*1\r\n!4\r\n", b"*2\r\n$-1\r\n", b"*1\r\n$x\r\n" + b"y" * 100_000):
            is_told(gateway.client(), request(b"PING") + sent, NOAUTH + INVALID)
        # What the worker takes all the same has its end.
        worker.take = lambda connection, data: None
        for rest in (b"\n" + b"y" * 100, b"y" * 2000):
            is_told(gateway.client(), b"*2x" + rest, b"-ERR Protocol error\r\n")


def a_password_in_the_same_packet_lets_in(work, _):
    long, many, line = request(b"SET", b"k", b"x" * 20000), request(*[b"y"] * 12), b"SET " + b"z" * 30000 + b"\n"
    with guarded(work) as (gateway, worker):
        for sent, reply in ((long, b":20001\r\n"), (many, b":11\r\n"), (line, b":30000\r\n")):
            for first in (AUTH, request(b"PING") + request(b"SLEEP", b"0.02") + AUTH):
                for cuts in ((), (len(first),), *(sorted(random.sample(range(1, len(first) + 40), 2)) for _ in range(3))):
                    client, whole = gateway.client(), first + sent + long + request(b"QUIT")
                    is_told(client, whole, NOAUTH * (b"PING" in first) + OK + reply + b":20001\r\n" + OK, cuts)
        client = gateway.client()
        client.sendall(AUTH + request(b"SET", b"k", b"x" * 2 * MEBIBYTE) + long * 100)
        want = OK + b":%d\r\n" % (2 * MEBIBYTE + 1) + b":20001\r\n" * 100
        assert received(client, len(want)) == want
        # What is held is handed over once the worker has answered, and not before.
        worker.answers = False
        client = gateway.client()
        client.sendall(AUTH + long)
        assert received(client, len(OK)) == OK
        until(lambda: worker.notes_held, "the question")
        assert worker.notes_held == [b"sync %d" % worker.last]
        time.sleep(0.1)
        assert worker.frames[-1][0] == NOTE and gateway.rests(), "it is busy while it waits"
        worker.send(b"".join(frame(NOTE, 0, it) for it in (b"", b"synced", b"synced x", b"synced 999", b"later 1", b"\xff" * 4096)))
        worker.send(frame(NOTE, 0, b"synced %d" % worker.last))
        assert received(client, 8) == b":20001\r\n"


def who_goes_while_the_worker_is_asked_is_forgotten(work, _):
    with guarded(work) as (gateway, worker):
        worker.answers = False
        for turn in range(20):
            client = gateway.client()
            client.sendall(request(b"PING") + b"*11\r\n")
            assert received(client, len(NOAUTH)) == NOAUTH
            until(lambda: len(worker.notes_held) == turn + 1, "the question")
            gateway.clients.remove(client)
            client.close()
        worker.answers = True
        for text in worker.notes_held:
            worker.take_note(text)
        until(lambda: not worker.halves, "all closes")
        asked(gateway.client(), b"PING", NOAUTH)


def nothing_comes_behind_a_close(work, _):
    with guarded(work) as (gateway, worker):
        worker.answers = worker.closes = False
        client = gateway.client()
        client.sendall(AUTH + request(b"SET", b"k", b"x" * 20000))
        assert received(client, len(OK)) == OK
        until(lambda: worker.notes_held, "the question")
        gateway.process.terminate()
        until(lambda: worker.withheld, "the close")
        worker.send(frame(NOTE, 0, b"synced 0"))
        time.sleep(0.1)
        assert worker.frames[-1] == (CLOSE, 0, b""), worker.frames[-1][:2]
        worker.send(frame(CLOSE, 0))
        assert is_closed(client) and gateway.ended(0) == ""


def who_is_let_out_is_unauthenticated_again(work, _):
    long = request(b"SET", b"k", b"x" * 20000)
    with guarded(work) as (gateway, worker):
        client = gateway.client()
        for _ in range(3):
            client.sendall(AUTH + long)
            assert received(client, 13) == OK + b":20001\r\n"
            # Half of a request that was begun before is passed on still.
            client.sendall(RESET + long[:10000])
            assert received(client, 8) == b"+RESET\r\n"
            client.sendall(long[10000:] + request(b"PING"))
            assert received(client, 2 * len(NOAUTH)) == 2 * NOAUTH
        is_told(client, request(b"PING") + long, NOAUTH + LONG)


def who_comes_too_early_is_served(work, _):
    """A worker without a password, whose leave comes behind the client's first bytes."""
    with Gateway(work, kind=Guarded) as gateway:
        worker = gateway.workers[0]
        worker.reads.clear()
        worker.welcome = lambda connection: worker.obey_words(connection, b"AUTH", PASSWORD)
        pong_client = gateway.client()
        client = gateway.client()
        client.sendall(request(b"SET", b"k", b"x" * 70000) * 3 + request(*[b"y"] * 5000))
        pong_client.sendall(b"PING\n")
        time.sleep(0.2)
        worker.reads.set()
        assert received(client, 36) == OK + b":70001\r\n" * 3 + b":4999\r\n"
        assert received(pong_client, 9) == OK + b":0\r\n"


def who_is_not_let_in_in_time_is_closed(work, _):
    with guarded(work, "--auth-timeout", "1") as (gateway, worker):
        began = time.monotonic()
        silent, busy, authenticated, ended, half = [gateway.client() for _ in range(5)]
        asked(authenticated, AUTH[:-1], OK)
        ended.shutdown(socket.SHUT_WR)
        half.sendall(AUTH[:-3])
        while not is_closed_now(busy):
            with contextlib.suppress(OSError):
                busy.sendall(b"PING\n")
            time.sleep(0.02)
            assert time.monotonic() - began < PATIENCE, "it was not closed"
        assert time.monotonic() - began >= 1, time.monotonic() - began
        assert is_closed(silent) and is_closed(ended) and is_closed(half)
        time.sleep(1.5)
        asked(authenticated, b"PING", b":0\r\n")
        began = time.monotonic()
        asked(authenticated, b"RESET", b"+RESET\r\n")
        asked(authenticated, b"PING", NOAUTH)
        assert is_closed(authenticated) and time.monotonic() - began >= 1
        until(lambda: not worker.halves, "all closes")
        # A worker that is late is not the client's fault.
        patient, late = gateway.client(), gateway.client()
        patient.sendall(request(b"SLEEP", b"3"))
        time.sleep(0.1)
        late.sendall(AUTH)
        assert received(late, len(OK)) == OK
        assert is_closed(patient)
        asked(late, b"PING", b":0\r\n")
    with guarded(work, "--auth-timeout", "0") as (gateway, _), guarded(work) as (other, _):
        clients = gateway.client(), other.client()
        time.sleep(2.2)
        for client in clients:
            asked(client, b"PING", NOAUTH)


def is_closed_now(client):
    client.settimeout(0.01)
    try:
        return client.recv(1 << 16) == b""
    except TimeoutError:
        return False
    except ConnectionResetError:
        return True


def little_waits_for_an_unauthenticated_client(work, _):
    with guarded(work) as (gateway, worker):
        authenticated, unauthenticated = gateway.client(), gateway.client()
        asked(authenticated, AUTH[:-1], OK)
        for number in (0, 1):
            worker.send(frame(DATA, number, b"x" * 12 * MEBIBYTE))
        until(lambda: (CLOSE, 1, b"") in worker.frames, "the close of who doesn't read")
        assert received(authenticated, 12 * MEBIBYTE) == b"x" * 12 * MEBIBYTE
        with contextlib.suppress(ConnectionResetError):
            assert len(received(unauthenticated, 12 * MEBIBYTE)) < 12 * MEBIBYTE
        # What waited for one that was let in is owed, and what the worker sends until it is asked. 1,024 bytes more may wait.
        for number, more in ((2, 0), (3, 1)):
            client = gateway.client()
            asked(client, AUTH[:-1], OK)
            worker.send(frame(DATA, number, b"x" * 9 * MEBIBYTE))
            worker.gathered = b"x" * (number * 40000)
            client.sendall(RESET)
            until(lambda: b"sync %d" % number in worker.notes(), "the question")
            asked(authenticated, b"PING", b":0\r\n")
            worker.send(frame(DATA, number, b"y" * 1024) + frame(DATA, number, b"z" * more))
            asked(authenticated, b"PING", b":0\r\n")
            if more:
                until(lambda: (CLOSE, number, b"") in worker.frames, "the close")
            else:
                assert received(client, 9 * MEBIBYTE + len(worker.gathered) + 1032)[-1025:] == b"\n" + b"y" * 1024
                asked(client, b"PING", NOAUTH)


def addresses_are_told(work, _):
    path = f"{work}/{'a' * (60 - len(work))}.socket"
    with guarded(work, unix=path) as (gateway, worker):
        client, local = gateway.client(), gateway.client(unix=True)
        for it in (client, local):
            asked(it, b"PING", NOAUTH)
        opened = [data for kind, _, data in worker.frames if kind == OPEN]
        assert sorted(opened) == sorted([b"%s:%d" % (client.getsockname()[0].encode(), client.getsockname()[1]),
                                         (path + ":0").encode()[:64]]), opened
    with contextlib.suppress(OSError):
        socket.create_server(("::1", 0), family=socket.AF_INET6).close()
        with guarded(work, "--bind", "::1") as (gateway, worker):
            with socket.create_connection(("::1", int(gateway.address.rpartition(":")[2]))) as client:
                asked(client, b"PING", NOAUTH)
                assert worker.frames[0] == (OPEN, 0, b"[::1]:%d" % client.getsockname()[1]), worker.frames[0]


def packets_come_in_pieces(work, _):
    with guarded(work) as (gateway, worker):
        client = gateway.client()
        client.sendall(b"*11\r\n")
        until(lambda: worker.notes(), "the question")
        assert received(client, len(MANY)) == MANY
        worker.answers = False
        client = gateway.client()
        client.sendall(request(b"PING") + request(b"SET", b"k", b"x" * 20000))
        assert received(client, len(NOAUTH)) == NOAUTH
        until(lambda: worker.notes_held, "the question")
        worker.was_in.add(1)
        # Being let out asks the worker once more.
        packets = [(LET_IN, 1), (NOTE, 0, b"x" * 4096), (LET_OUT, 1), (LET_IN, 1), (NOTE, 0, b"synced 1"), (NOTE, 0, b"synced 1")]
        for byte in b"".join(frame(*it) for it in packets):
            worker.send(bytes([byte]))
            time.sleep(0.0002)
        assert received(client, len(NOAUTH)) == NOAUTH


def unauthenticated_clients_of_any_kind_are_answered(work, clients):
    """Requests within the limits and beyond, AUTH among them, cut anywhere: the replies are those of a reader of whole requests."""
    sizes = [0, 1, 100, BYTES - 1, BYTES, BYTES + 1, 40000]

    def drawn():
        draw = random.random()
        if draw < 0.15:
            return AUTH
        if draw < 0.2:
            return request(b"AUTH", b"wrong")
        if draw < 0.3:
            return b"GET " + b"x" * (random.choice(sizes) // 2) + b"\n"
        if draw < 0.35:
            return random.choice([b"*0\r\n", b"\r\n", b"*-3\r\n", b"  \n"])
        if draw < 0.4:
            return request(*[b"y"] * random.choice([9, 10, 11, 200]))
        return request(b"SET", *[b"z" * random.choice(sizes) for _ in range(random.randrange(1, 4))])

    def answers(asked_of):
        """The replies, and whether the connection is ended behind them."""
        told, is_in = b"", False
        for data in asked_of:
            words, _ = request_at(data)
            is_line = data[:1] != b"*"
            if not is_in and is_line and len(data) > BYTES + 1:
                return told + LINE, True
            if not is_in and not is_line and len(words) > ARGUMENTS:
                return told + MANY, True
            if not is_in and not is_line and any(len(it) > BYTES for it in words):
                return told + LONG, True
            if not words:
                continue
            if words[0] == b"AUTH":
                is_in |= words[1] == PASSWORD
                told += OK if words[1] == PASSWORD else WRONG
            else:
                told += b":%d\r\n" % sum(map(len, words[1:])) if is_in else NOAUTH
        return told, False

    seed = random.randrange(1 << 32)
    random.seed(seed)
    with guarded(work, workers=2) as (gateway, _):
        for _ in range(clients):
            asked_of = [drawn() for _ in range(random.randrange(1, 8))]
            want, is_ended = answers(asked_of)
            sent = b"".join(asked_of)
            client = gateway.client()
            cuts = sorted(random.randrange(len(sent) + 1) for _ in range(random.choice([0, 0, 1, 5])))
            # Who is told of a limit may be reset while it sends on, and may then miss its end.
            with contextlib.suppress(ConnectionResetError, BrokenPipeError):
                for at, end in zip((0, *cuts), (*cuts, len(sent))):
                    client.sendall(sent[at:end])
                if not is_ended:
                    client.shutdown(socket.SHUT_WR)
            told = bytearray()
            with contextlib.suppress(ConnectionResetError):
                while part := client.recv(MEBIBYTE):
                    told += part
            told = bytes(told)
            assert told == want or is_ended and want.startswith(told), (seed, cuts, [it[:30] for it in asked_of], told, want)
            gateway.clients.remove(client)
            client.close()


TRIALS = [
    requests_within_the_limits_pass_at_once, requests_beyond_the_limits_are_told, what_is_no_request_is_told_by_the_worker,
    a_password_in_the_same_packet_lets_in, who_goes_while_the_worker_is_asked_is_forgotten, nothing_comes_behind_a_close,
    who_is_let_out_is_unauthenticated_again, who_comes_too_early_is_served, who_is_not_let_in_in_time_is_closed,
    little_waits_for_an_unauthenticated_client, addresses_are_told, packets_come_in_pieces, unauthenticated_clients_of_any_kind_are_answered,
]
