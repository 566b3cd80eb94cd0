"""Trials of gateway.py: the log on standard error."""
import os
import re
import select
import signal
import time

from gateway_parts import MEBIBYTE, NOTE, PATIENCE, Gateway, Worker, frame, is_closed, pong, received, until

LINE = re.compile(r"\d{4}-\d\d-\d\dT\d\d:\d\d:\d\d\.\d{3}[+-]\d\d:\d\d (warning|notice|debug) (.+)")
LOG = ["--log-level", "notice"]
REFUSAL = b"-ERR max number of clients reached\r\n"


def lines_of(told):
    """The level and the text of each line, each of which has a time with its zone."""
    found = [LINE.fullmatch(it) for it in told.splitlines()]
    assert all(found), told
    return [it.groups() for it in found]


def stopped(gateway, status=0, name=signal.SIGTERM):
    """The lines of a gateway that a signal ends."""
    if name:
        gateway.process.send_signal(name)
    return lines_of(gateway.ended(status))


def begins_and_ends_are_lines(work, _):
    with Gateway(work, *LOG, "--about", "a server\nof trials", workers=2) as gateway:
        pong(gateway.client())
        first, ready, last = stopped(gateway)
        assert first == ("notice", "starts: a server?of trials"), first
        assert ready[0] == "notice" and ready[1].startswith(f"ready {gateway.address}: 2 threads, "), ready
        assert last == ("notice", "ends: a signal came"), last
    with Gateway(work, *LOG, workers=2) as gateway:
        gateway.client().sendall(b"DIE\n")
        *_, last = stopped(gateway, 1, None)
        assert last[0] == "warning" and last[1].startswith("ends: worker 0 has ended: "), last


def levels_leave_lines_out(work, _):
    with Gateway(work, "--log-level", "warning") as gateway:
        pong(gateway.client())
        assert stopped(gateway) == []
    with Gateway(work, "--log-level", "debug") as gateway:
        client = gateway.client()
        pong(client)
        client.close()
        time.sleep(0.5)
        told = stopped(gateway)
        assert any(level == "debug" and text.startswith("a client has connected from 127.0.0.1:") for level, text in told), told
        assert ("debug", "a client of worker 0 has gone") in told, told


def a_flood_makes_few_lines(work, clients):
    with Gateway(work, *LOG, "--connections", "1") as gateway:
        pong(gateway.client())
        began, count = time.monotonic(), 0
        while time.monotonic() - began < 3.2:
            client = gateway.client()
            assert received(client, len(REFUSAL)) == REFUSAL
            gateway.clients.pop().close()
            count += 1
        # The rest is told a second later.
        time.sleep(2.1)
        told = [text for level, text in stopped(gateway) if level == "warning"]
        assert 3 <= len(told) <= 6 and count > 20, (count, told)
        assert "the most that may be" in told[0], told
        more = sum(int(it) for text in told for it in re.findall(r"(\d+) more", text))
        alone = sum(text.startswith("a client was refused") for text in told)
        assert more + alone == count, (count, more, alone, told)


def who_does_not_read_is_told_of(work, _):
    with Gateway(work, *LOG, "--output-limit", str(MEBIBYTE)) as gateway:
        client = gateway.client()
        client.sendall(b"BIG %d\n" % (64 * MEBIBYTE))
        until(lambda: not gateway.process.poll() and is_closed(client), "the end of the client")
        told = stopped(gateway)
        assert ("warning", f"a client was closed: more than {MEBIBYTE} bytes of replies wait for it") in told, told


def fill_log(gateway):
    """Fills the pipe of the gateway's standard error, so that no line goes into it."""
    with open(f"/proc/{gateway.process.pid}/fd/2", "wb", buffering=0) as full:
        os.set_blocking(full.fileno(), False)
        while full.write(b"x" * 4096):
            pass


def connect_for(gateway, seconds):
    """Connects clients, one after another, each of which is answered."""
    began = time.monotonic()
    while time.monotonic() - began < seconds:
        client = gateway.client()
        pong(client)
        gateway.clients.pop().close()
        time.sleep(0.01)


def a_log_that_nobody_reads_stops_nothing(work, _):
    with Gateway(work, "--log-level", "debug") as gateway:
        fill_log(gateway)
        connect_for(gateway, 4)
        gateway.process.send_signal(signal.SIGTERM)
        assert gateway.process.wait(PATIENCE) == 0


def lines_left_out_are_counted(work, _):
    with Gateway(work, "--log-level", "debug") as gateway:
        fill_log(gateway)
        # At 2 lines a second the queue of 16 lines is full within 11 seconds.
        began = time.monotonic()
        connect_for(gateway, 11)
        room, told = gateway.process.stderr.fileno(), b""
        os.set_blocking(room, False)
        while b"left out" not in told and time.monotonic() - began < 11 + PATIENCE:
            told += os.read(room, 1 << 16) if select.select([room], [], [], 1)[0] else b""
        told = told.decode().replace("x", "")
        assert re.search(r" warning \d+ lines of the log are left out", told), told[-2000:]


class Reporter(Worker):
    """A worker that answers the note `news` by what it was given."""

    facts = []

    def take_note(self, text):
        if text != b"news":
            super().take_note(text)
        elif Reporter.facts:
            self.send(frame(NOTE, 0, b"news " + Reporter.facts.pop(0)))


def what_the_server_reports_is_told(work, _):
    Reporter.facts = [b"evicted=0 slow=0", b"evicted=5 slow=2 slowest_us=1200 slowest=get other=7 odd",
                      b"renewals=1 renewal_ms=7 renewal_lost_pairs=3 lost=2", b"device_failures=4 resting=1", b"resting=0"]
    with Gateway(work, *LOG, kind=Reporter) as gateway:
        until(lambda: not Reporter.facts, "all reports")
        time.sleep(1.5)
        told = stopped(gateway)
        for line in [("notice", "evictions begin: the memory is full"),
                     ("notice", "2 slow commands; the slowest, get, took 1200 microseconds"),
                     ("notice", "renewal 1: requests waited 7 milliseconds"),
                     ("warning", "the far store has lost 2 objects, and their keys with them"),
                     ("warning", "devices have failed: 4 calls"),
                     ("notice", "the far store is used again")]:
            assert line in told, (line, told)
        assert not [it for it in told if it[1].startswith("the map") or "other" in it[1]], told


TRIALS = [begins_and_ends_are_lines, levels_leave_lines_out, a_flood_makes_few_lines, who_does_not_read_is_told_of,
          a_log_that_nobody_reads_stops_nothing, lines_left_out_are_counted, what_the_server_reports_is_told]
