"""Trials of server.py: however connections end, their slots are free again. Each has few slots and more ends than these."""
import contextlib
import signal
import socket
import struct
import time

from server_parts import PONG, Client, request, until

SLOTS = 40
REFUSAL = b"max number of clients reached"
# One MiB each: more than the system keeps for a client that reads nothing.
VALUE = b"x" * (1 << 20)
# Seconds in which a server is gone that owes nothing: less than the second in which it waits for what is owed.
AT_ONCE = 0.8


def a_slot(server, stack):
    """A client that has a slot, once one is free."""
    got = []

    def is_there():
        client = stack.enter_context(Client(server.address))
        with contextlib.suppress(OSError, EOFError):
            if client.ask("PING") == PONG:
                got.append(client)
                return True
        client.close()
        return False
    until(is_there, "a slot that is free")
    return got[0]


def fill(server):
    """Takes each slot, sees that one more client is refused, and gives all back."""
    with contextlib.ExitStack() as stack:
        clients = [a_slot(server, stack) for _ in range(SLOTS)]
        refused = stack.enter_context(Client(server.address)).reply()
        assert REFUSAL in refused, refused
        assert all(it.ask("PING") == PONG for it in clients)


def reset(client):
    client.socket.setsockopt(socket.SOL_SOCKET, socket.SO_LINGER, struct.pack("ii", 1, 0))


def ends_of_all_kinds(tried, rounds):
    """More resets, closes with a reply unread, broken requests and QUITs than there are slots, and in between all are there."""
    def resets(client):
        client.send(request("PING"))
        reset(client)

    def leaves_replies(client):
        client.send(request("GET", "big") * 8)

    def breaks(client):
        client.send(b"*1\r\n!\r\n")

    def quits(client):
        client.send(request("QUIT") + request("PING"))

    def says_half(client):
        client.send(request("SET", "k", "v")[:-3])

    def goes_at_once(client):
        pass

    with tried.start("--maxclients", SLOTS) as server:
        with Client(server.address) as client:
            client.ask("SET", "big", VALUE)
            assert client.strings("CONFIG", "GET", "maxclients") == [b"maxclients", b"%d" % SLOTS]
            assert client.info("clients")["maxclients"] == str(SLOTS)
        for ends in [resets, leaves_replies, breaks, quits, says_half, goes_at_once]:
            for _ in range(rounds):
                with contextlib.suppress(ConnectionResetError, BrokenPipeError), Client(server.address) as client:
                    ends(client)
            fill(server)
        with contextlib.ExitStack() as stack:
            client = a_slot(server, stack)
            # The gateway reports them once a second.
            until(lambda: int(client.info("stats")["rejected_connections"]) >= 6, "the count of refused connections")
        return end(server)


def each_slot_is_free_again(tried, counts):
    rounds = max(3 * SLOTS, counts["clients"] // 10)
    is_gone_at_once(lambda: ends_of_all_kinds(tried, rounds))
    return f"{6 * rounds} ends over {SLOTS} slots"


def end(server):
    """How long it takes to end."""
    began = time.monotonic()
    server.process.send_signal(signal.SIGTERM)
    server.ended(0)
    return time.monotonic() - began


def is_gone_at_once(serve):
    """A server that has served so ends soon, since nothing is owed: the best of some, as others may use the machine too."""
    took = []
    while not took or min(took) >= AT_ONCE:
        assert len(took) < 5, f"it took {min(took):.2f} s to end where nothing was owed"
        took.append(serve())


def silent_clients(tried):
    """As many silent clients as there are slots, and again, each closed by --timeout."""
    with tried.start("--maxclients", SLOTS, "--timeout", 3) as server:
        for _ in range(2):
            with contextlib.ExitStack() as stack:
                silent = [a_slot(server, stack) for _ in range(SLOTS)]
                assert all(it.is_ended() for it in silent)
        fill(server)
        return end(server)


def slots_of_silent_clients_are_free_again(tried, _):
    is_gone_at_once(lambda: silent_clients(tried))


TRIALS = [each_slot_is_free_again, slots_of_silent_clients_are_free_again]
