"""Connections as clients use them: kept open, byte by byte, silent, cut, and very many."""
import concurrent.futures
import contextlib
import os
import resource
import socket
import statistics
import struct
import time

import pytest
import servers
from hostile_bytes import exchange
from servers import READY, SECONDS, connect, entry, push_request

LABELS = {"a": "1"}
# one more than any number that a loop of the server's could have
CONNECTIONS = int(os.environ.get("CONNECTIONS", 101_000))


def test_requests_in_turn(client):
    """Each is answered before the next is sent, after a pause too."""
    kept = []
    for number, pause in enumerate([0, 0, 2.5, 0]):
        time.sleep(pause)
        kept.append(entry(f"line {number}"))
        assert client.push(LABELS, kept[-1:]) == (204, "")
        assert client.read(LABELS) == kept


def test_bytes_one_by_one(client):
    one = entry()
    for request in (push_request(LABELS, [one]), servers.request(servers.READ, servers.read_body(LABELS))):
        for at in range(len(request)):
            client.ends.sendall(request[at:at + 1])
            time.sleep(0.001)
        status, body = client.answer()
        assert status == 204 or servers.entries_of(status, body) == [one]


def test_answers_are_sent_at_once(client):
    """None waits until the client has acknowledged an earlier one, which takes it 40 ms."""
    took = []
    for _ in range(100):
        began = time.monotonic()
        client.ends.sendall(8 * READY)
        assert [client.answer() for _ in range(8)] == [(200, b"ready")] * 8
        took.append(time.monotonic() - began)
    assert statistics.median(took[50:]) < 0.025


def closes(ends):
    """What comes on a connection until the server closes it, and after how long."""
    began, found = time.monotonic(), b""
    with contextlib.suppress(ConnectionError):
        while piece := ends.recv(65_536):
            found += piece
    return found, time.monotonic() - began


def test_silent_clients(serve, preload):
    """Silence closes a connection in its time, and nothing of it is served (a clock that is 20 times as fast)."""
    server = serve(workers=3, settings={"LD_PRELOAD": preload, "FAST": "20"})
    silence = servers.number_in("crates/talks/src/peer.rt", "IDLE_SECONDS") / 20
    inner = push_request({"a": "inner"}, [entry()]) + READY
    head = servers.request(servers.PUSH, "x" * (len(inner) + 98))[:-len(inner) - 100]
    clients = [connect(server.port) for _ in range(3)]
    for ends, sent in zip(clients, [b"", head[:40], head + inner]):
        ends.sendall(sent)
    for ends in clients:
        found, took = closes(ends)
        ends.close()
        assert not found and took < 10 * silence
        # (the others were closed beside the first)
        assert ends is not clients[0] or took > silence / 2
    with servers.Client(server.port) as client:
        assert client.read({"a": "inner"}) == [] and client.push(LABELS, [entry()]) == (204, "")


def test_cut_bodies(server):
    """What came of a body that is cut, or too large, is no request."""
    inner = push_request({"a": "inner"}, [entry()]) + READY
    for length, due in ((len(inner) + 100, b""), (4_194_305, b"HTTP/1.1 413")):
        head = servers.request(servers.PUSH, {}).replace(b"Content-Length: 2", b"Content-Length: %d" % length)[:-2]
        found = exchange(server.port, head + inner, SECONDS)
        assert found is not None and found.startswith(due) and found.count(b"HTTP/1.1") == bool(due)
    with servers.Client(server.port) as client:
        assert client.read({"a": "inner"}) == []


@pytest.mark.parametrize("is_reset", [False, True])
def test_clients_that_leave(serve, is_reset):
    """Three pushes are cut at each place. An end leaves those that were sent whole, a reset a beginning of them."""
    server, now = serve(workers=1), time.time_ns()
    lines = [(now + at, f"line {at}", ()) for at in range(3)]
    for place in range(len(b"".join(push_request(LABELS, [it], "0000") for it in lines)) + 1):
        pieces = [push_request(LABELS, [it], f"{place:04}") for it in lines]
        data, whole = b"".join(pieces)[:place], sum(place >= sum(map(len, pieces[:at])) for at in (1, 2, 3))
        if is_reset:
            with connect(server.port) as it:
                it.sendall(data)
                it.setsockopt(socket.SOL_SOCKET, socket.SO_LINGER, struct.pack("ii", 1, 0))
        else:
            exchange(server.port, data, SECONDS)
        with servers.Client(server.port, f"{place:04}") as client:
            assert client.read(LABELS) in [lines[:at] for at in range(0 if is_reset else whole, whole + 1)], place


def test_few_descriptors(serve):
    """A server that may have few descriptors has as many connections as they allow, and answers the others as these end."""
    server = serve(workers=4, preexec_fn=lambda: resource.setrlimit(resource.RLIMIT_NOFILE, (60, 60)))
    held = [servers.Client(server.port) for _ in range(60)]
    for number, it in enumerate(held):
        it.send(servers.PUSH, servers.push_body([({"a": str(number)}, [entry()])]))
    assert held[0].answer()[0] == 204
    time.sleep(1)
    assert len(os.listdir(f"/proc/{server.pid}/fd")) < 60
    before, began = server.processor(), time.monotonic()
    time.sleep(3)
    used = (server.processor() - before) / (time.monotonic() - began)
    assert used < 0.2, f"it uses {used:.2f} of a processor while it waits"
    for number, it in enumerate(held):
        assert number == 0 or it.answer()[0] == 204
        it.ends.close()
    for _ in range(100):
        with servers.Client(server.port) as it:
            assert it.push({"a": "late"}, [entry()])[0] == 204
    server.end()
    assert "connections are open: others wait until one ends" in server.errors()


def short_connections(port, count):
    """So many connections in turn, each answered. Each ends by a reset, so that its port is free at once."""
    for _ in range(count):
        with connect(port) as it:
            it.setsockopt(socket.SOL_SOCKET, socket.SO_LINGER, struct.pack("ii", 1, 0))
            it.sendall(READY)
            found = it.recv(512)
        assert found.startswith(b"HTTP/1.1 200") and found.endswith(b"ready"), found


def test_many_connections(serve):
    """Each of very many short connections is answered, by 60 processes side by side."""
    server = serve(workers=64)
    counts = [len(range(it, CONNECTIONS, 60)) for it in range(60)]
    with concurrent.futures.ProcessPoolExecutor(60) as pool:
        list(pool.map(short_connections, [server.port] * 60, counts))
    with servers.Client(server.port) as client:
        assert client.push(LABELS, [entry()]) == (204, "")
