"""Clients that take long answers slowly, leave while they still send, or only wait: what they get, and what they cost."""
import contextlib
import os
import re
import resource
import socket
import threading
import time

import pytest
import servers
from servers import READY, connect, entry, is_open, push_request, wait_until

COUNT, CHUNK = 40_000, 10_000
ASK = servers.read_body({"a": "long"})
CLOSE, MANY = READY[:-2] + b"Connection: close\r\n\r\n", READY * 2_000
# (each large piece of memory is a map of its own, which goes when it is freed)
EXACT = {"GLIBC_TUNABLES": "glibc.malloc.mmap_threshold=65536"}


def store_lines(port):
    """Stores so many lines that the answer to a read of them has more than 6 MB."""
    lines = servers.lines_from(time.time_ns(), COUNT, 150)
    with servers.Client(port) as client:
        for at in range(0, COUNT, CHUNK):
            client.store(({"a": "long"}, lines[at:at + CHUNK]))
    return lines


@pytest.fixture
def long_answer(serve, clock):
    """A server with one worker and these lines, and the lines."""
    server = serve("log", 1, 1, clock.settings)
    return server, store_lines(server.port)


def look(port, count=1):
    """Has each worker look after its connections by the clock as it is: of two answers the second comes after that.
    With several workers, by so many connections at once that each has one of them."""
    with contextlib.ExitStack() as ends:
        clients = [ends.enter_context(servers.Client(port)) for _ in range(count)]
        for _ in range(2):
            for it in clients:
                it.ends.sendall(READY)
            assert [it.answer() for it in clients] == [(200, b"ready")] * count


def narrow(port):
    return servers.Client(port, connect=servers.connect_narrowly)


def read_request(*more):
    return servers.request(servers.READ, ASK, "t", "application/json", *more)


def test_a_read_of_40000_entries(long_answer):
    """A client with small buffers takes all of the answer."""
    server, lines = long_answer
    with narrow(server.port) as client:
        client.ends.sendall(read_request())
        status, text = client.answer()
        assert len(text) > 6_000_000 and servers.entries_of(status, text) == lines
        assert client.push({"a": "1"}, [entry()]) == (204, "")


def goes_on(port, client):
    """Whether the server's end of a connection has not sent its end, by its state (1 and 8 in hexadecimal)."""
    lines = [it.split() for it in servers.bytes_of("/proc/net/tcp").decode().splitlines()[1:]]
    ends = [it[3] for it in lines if it[1].endswith(f":{port:04X}") and it[2].endswith(f":{client:04X}")]
    return bool({*ends} & {"01", "08"})


def test_a_half_closed_client(long_answer):
    """It gets all of its answer. (The server reads the client's end while a part of so short an answer waits.)"""
    server, lines = long_answer
    with narrow(server.port) as client:
        ask = servers.read_body({"a": "long"}, 0, lines[5_000][0])
        client.ends.sendall(servers.request(servers.READ, ask))
        client.ends.shutdown(socket.SHUT_WR)
        look(server.port)
        assert servers.entries_of(*client.answer()) == lines[:5_000] and client.ends.recv(1) == b""


def test_the_last_answer_is_whole(long_answer):
    """Where a request asks for the end of its connection, its answer arrives whole though the client still sends."""
    server, lines = long_answer
    with narrow(server.port) as client:
        own = client.ends.getsockname()[1]
        client.ends.sendall(read_request("Connection: close") + READY * 1_000)
        while (head := client.found.find(b"\r\n\r\n") + 4) < 4:
            client.more()
        length = head + int(re.search(rb"Content-Length: (\d+)", client.found)[1])
        while len(client.found) < length - 150_000:
            client.found += client.ends.recv(65_536)
        # (what is left of it has been handed to the system)
        assert wait_until(lambda: not goes_on(server.port, own), 20)
        client.ends.sendall(READY)
        assert servers.entries_of(*client.answer()) == lines and client.ends.recv(1) == b""


def test_a_slow_reader_is_not_silent(long_answer, clock):
    """A client that takes a part of its answer every 20 seconds is heard for four minutes, and then gets the rest."""
    server, lines = long_answer
    with narrow(server.port) as client:
        client.ends.sendall(read_request())
        for step in range(1, 13):
            while len(client.found) < step * 150_000:
                client.more()
            clock.set(20 * step)
            look(server.port)
        assert servers.entries_of(*client.answer()) == lines


def test_a_connection_that_ends(serve, clock):
    """After an answer that closes it, a connection hangs up at once. What still comes is dropped for two seconds, and
    then it is closed, whether the client has closed its end or not."""
    server = serve(workers=1, settings=clock.settings)
    with servers.Client(server.port, seconds=10) as client:
        client.ends.sendall(CLOSE)
        assert client.answer() == (200, b"ready") and client.ends.recv(1) == b""
        before = server.sockets()
        clock.set(1)
        look(server.port)
        client.ends.sendall(READY)
        assert wait_until(lambda: server.sockets() == before, 10)
        clock.set(3)
        look(server.port)
        assert wait_until(lambda: server.sockets() == before - 1, 10)


def test_a_second_request_in_pieces(serve):
    """A request and the head of a second one come in one piece. Once the first is answered, a body of 1 MB comes."""
    server = serve(workers=1)
    head, _, body = push_request({"a": "1"}, servers.lines_from(time.time_ns(), 4, 250_000)).partition(b"\r\n\r\n")
    for first in (b"", READY, push_request({"a": "2"}, [entry()])):
        with servers.Client(server.port, seconds=10) as client:
            client.ends.sendall(first + head + b"\r\n\r\n")
            assert not first or client.answer()[0] in (200, 204)
            look(server.port)
            client.ends.sendall(body)
            assert client.answer() == (204, b"")


def spends(server):
    """Whether a server spends a tenth of a second of a processor while this process spends three quarters of one. So one
    that spins is seen on a busy machine too."""
    before, began = server.processor(), time.process_time()
    while server.processor() - before < 0.1 and time.process_time() - began < 0.75:
        pass
    return server.processor() - before >= 0.1


def waiting_for_half_a_body(port):
    """So much has come as is read at once, twice, and so is the end of a body that has come whole."""
    request = push_request({"a": "1"}, servers.lines_from(time.time_ns(), 4, 250_000))
    half, whole = servers.Client(port), servers.Client(port)
    half.ends.sendall(request[:16_384 + 2 * 65_536])
    whole.ends.sendall(request)
    assert whole.answer() == (204, b"")
    return [half, whole]


def waiting_for_a_client_to_leave(port):
    """Bodies that are too large are refused, and their clients do not leave, whether they have sent some or none."""
    clients = [servers.Client(port) for _ in range(3)]
    head = servers.request(servers.PUSH, {}).replace(b"Content-Length: 2", b"Content-Length: 5000000")[:-2]
    for it, length in zip(clients, (0, 100, 65_536)):
        it.ends.sendall(head + b"x" * length)
        assert it.answer()[0] == 413
    return clients


@pytest.mark.parametrize("waits", [waiting_for_half_a_body, waiting_for_a_client_to_leave])
def test_waiting_costs_nothing(serve, clock, waits):
    server = serve(workers=1, settings=clock.settings)
    held = waits(server.port)
    look(server.port)
    assert not spends(server)
    for it in held:
        it.ends.close()


def test_an_accept_that_fails_costs_nothing(serve):
    """A server that may have no more open files tries again now and then, and takes the connection once it may."""
    server = serve(workers=1)
    look(server.port)
    usual = resource.prlimit(server.pid, resource.RLIMIT_NOFILE)
    resource.prlimit(server.pid, resource.RLIMIT_NOFILE, (len(os.listdir(f"/proc/{server.pid}/fd")), usual[1]))
    with servers.Client(server.port) as client:
        client.send(servers.PUSH, servers.push_body([({"a": "1"}, [entry()])]))
        assert not spends(server) and is_open(client.ends)
        resource.prlimit(server.pid, resource.RLIMIT_NOFILE, usual)
        assert client.answer() == (204, b"")
    server.end()
    assert server.errors().count("cannot accept a connection: Too many open files") == 1


def wakes_of(process):
    """How often the threads of a process have waited for something."""
    found = 0
    for thread in os.listdir(f"/proc/{process}/task"):
        lines = servers.bytes_of(f"/proc/{process}/task/{thread}/status").decode().splitlines()
        found += sum(int(it.split()[1]) for it in lines if it.startswith("voluntary_ctxt_switches"))
    return found


def test_an_idle_server_sleeps(serve):
    """None of its threads wakes more than a few times a second."""
    server = serve("log", 1, 1)
    look(server.port)
    before = wakes_of(server.pid)
    assert not wait_until(lambda: wakes_of(server.pid) - before > 15, 2.0)


def test_memory_of_connections(serve, clock):
    """What a long answer or a long body took goes: the one once it is sent, the other after two idle seconds."""
    server = serve("log", 1, 1, {**EXACT, **clock.settings})
    store_lines(server.port)
    old = servers.push_body([({"a": "old"}, [(1, "x" * 250_000, ())] * 6)])
    kept = [servers.Client(server.port) for _ in range(20)]
    kept[0].send(servers.READ, ASK)
    kept[0].answer()
    before = server.memory()
    for it in kept:
        it.send(servers.READ, ASK)
        assert it.answer()[0] == 200
    assert server.memory() < before + 20_000_000, "after long answers"
    for it in kept:
        it.send(servers.PUSH, old)
        assert it.answer()[0] == 400
    assert server.memory() > before + 20_000_000, "30 MB of bodies"
    clock.set(3)
    look(server.port)
    assert server.memory() < before + 10_000_000, "after three idle seconds"


def test_memory_of_a_long_answer(serve, preload):
    """An answer of 7 MB takes no piece of memory of 32 MB."""
    server = serve("log", 1, 1, {"LD_PRELOAD": preload, "MEMORY_MOST": str(32 << 20)})
    lines = store_lines(server.port)
    with servers.Client(server.port) as client:
        assert client.read({"a": "long"}) == lines


class Greedy(servers.Repeated):
    """Sends questions without a pause, and takes the answers, until it is told to end."""

    def __init__(self, port):
        super().__init__(self.ask_more, 0)
        self.ends, self.sent, self.taken = connect(port), 0, 0
        self.ends.setblocking(False)

    def ask_more(self):
        with contextlib.suppress(BlockingIOError):
            self.sent += self.ends.send(MANY[self.sent % len(READY):])
        with contextlib.suppress(BlockingIOError):
            self.taken += len(self.ends.recv(1 << 20))


def test_an_idle_client_beside_a_greedy_one(serve, clock):
    """A worker that always has requests to answer closes idle connections all the same."""
    server = serve(workers=1, settings=clock.settings)
    idle = connect(server.port)
    look(server.port)
    greedy = [Greedy(server.port) for _ in range(3)]
    for it in greedy:
        it.start()
    for seconds in (20, 40, 62):
        before = [it.taken for it in greedy]
        clock.set(seconds)
        # (each has taken more than may have been on its way)
        assert wait_until(lambda: all(it.taken > then + 8_000_000 for it, then in zip(greedy, before)), pause=0.01)
    assert wait_until(lambda: not is_open(idle), 10)
    for it in greedy:
        it.end()
        it.ends.close()
