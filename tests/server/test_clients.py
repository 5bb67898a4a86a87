"""Many clients at a time over few workers: kept, idle, half-sent, slow and greedy ones hold nobody, and cost what is set."""
import contextlib
import socket
import threading
import time

import pytest
import servers
from servers import READY, SECONDS, connect, entry, push_request

OPEN, HALF_SENT = "NEEDLEAZURE_OPEN_CONNECTIONS", "NEEDLEAZURE_HALF_SENT"


def push_once(port, seconds=1):
    """Pushes a line over a new connection, which has to be answered within these seconds."""
    began = time.monotonic()
    with servers.Client(port) as client:
        assert client.push({"a": "new"}, [entry()]) == (204, "")
    assert time.monotonic() - began < seconds


def test_kept_connections(serve):
    """65 kept connections over two workers are answered in each round, from the first to the last and back."""
    server = serve(workers=2)
    kept = [servers.Client(server.port) for _ in range(65)]
    for turn in range(4):
        for number, it in enumerate(kept if turn % 2 else reversed(kept)):
            assert it.push({"a": str(number)}, [entry(str(turn))]) == (204, ""), number


def test_idle_connections(serve):
    """300 connections that do nothing hold no worker, and cost no processor."""
    server = serve(workers=2)
    kept = [connect(server.port) for _ in range(300)]
    push_once(server.port)
    before = server.processor()
    time.sleep(2)
    assert server.processor() - before < 0.1


def test_half_sent_requests(serve):
    """Halves of heads and of bodies hold no worker, and are answered once the rest comes."""
    server = serve(workers=2)
    requests = [push_request({"a": f"half {at}"}, [entry(str(at))]) for at in range(40)]
    clients = [servers.Client(server.port) for _ in requests]
    for at, (it, request) in enumerate(zip(clients, requests)):
        it.ends.sendall(request[:20 if at % 2 else -5])
    push_once(server.port)
    for at, (it, request) in enumerate(zip(clients, requests)):
        it.ends.sendall(request[20 if at % 2 else -5:])
    for at, it in enumerate(clients):
        assert it.answer() == (204, b"") and len(it.read({"a": f"half {at}"})) == 1


def test_pipelined_pushes(serve):
    """500 pushes in one piece are answered in their order, and a client that comes meanwhile before their end."""
    server = serve(workers=1)
    with servers.Client(server.port) as greedy:
        lines = [entry(str(at)) for at in range(500)]
        greedy.ends.sendall(b"".join(push_request({"a": "greedy"}, [it]) for it in lines))
        with servers.Client(server.port) as other:
            assert other.push({"a": "other"}, [entry()]) == (204, "")
            assert len(other.read({"a": "greedy"})) < 500
        assert [greedy.answer() for _ in lines] == [(204, b"")] * 500
        assert greedy.read({"a": "greedy"}) == lines


def test_client_that_never_reads(serve):
    """It is not read any more once more than 1 MiB waits for it: the server's memory stays, and others are served."""
    server = serve(workers=1)
    with servers.Client(server.port) as client:
        assert client.push({"a": "long"}, [entry(f"{at} {'x' * 1_000}") for at in range(1_000)]) == (204, "")
    before, ask = server.memory(), servers.request(servers.READ, servers.read_body({"a": "long"}))
    with connect(server.port) as silent:
        silent.settimeout(0.5)
        with pytest.raises(TimeoutError):
            for _ in range(100_000):
                silent.sendall(ask)
        for _ in range(20):
            push_once(server.port)
        assert server.memory() - before < 64 << 20


def test_ready_beside_many(serve):
    """The question whether it runs is answered within a second beside 200 clients that push without a pause."""
    server, is_done = serve(workers=4), threading.Event()

    def push(number):
        with servers.Client(server.port) as it:
            while not is_done.is_set():
                assert it.push({"a": str(number)}, [entry()])[0] == 204

    pushers = [threading.Thread(target=push, args=(number,), daemon=True) for number in range(200)]
    for it in pushers:
        it.start()
    time.sleep(1)
    for _ in range(10):
        began = time.monotonic()
        assert servers.get(server.port, "/ready") == b"ready" and time.monotonic() - began < 1
    is_done.set()
    for it in pushers:
        it.join(SECONDS)


def test_open_connections(serve):
    """As many as are set may be open. Others wait, which one line says, and are served when one ends."""
    server = serve(workers=2, settings={OPEN: "8"})
    held = [servers.Client(server.port) for _ in range(8)]
    for it in held:
        assert it.push({"a": "held"}, [entry()]) == (204, "")
    late = servers.Client(server.port)
    late.send(servers.PUSH, servers.push_body([({"a": "late"}, [entry()])]))
    late.ends.settimeout(1)
    with pytest.raises(TimeoutError):
        late.answer()
    held.pop().ends.close()
    late.ends.settimeout(SECONDS)
    assert late.answer() == (204, b"")
    server.end()
    assert server.errors().count("8 connections are open: others wait until one ends.") == 1


@pytest.mark.parametrize("workers", [1, 2])
def test_half_sent_bytes(serve, workers):
    """Past what is set the request that comes slowest is closed, of whichever worker, and the others are served."""
    server = serve(workers=workers, settings={HALF_SENT: "4210688"})
    body = servers.push_body([({"a": "large"}, [entry("x" * 1_000) for _ in range(1_400)])])
    request = servers.request(servers.PUSH, body)
    slow = connect(server.port)
    slow.sendall(request[:100_000])
    time.sleep(3)
    fast = [servers.Client(server.port) for _ in range(3)]
    for it in fast:
        it.ends.sendall(request[:-1])
    slow.settimeout(SECONDS)
    with contextlib.suppress(ConnectionError):
        assert slow.recv(100) == b""
    slow.close()
    answered = 0
    for it in fast:
        with it, contextlib.suppress(OSError):
            it.ends.sendall(request[-1:])
            answered += it.answer() == (204, b"")
    assert answered >= 2


def test_requests_without_end(serve, preload):
    """A request whose last byte comes too long after its first is closed, though it sends some now and then. The server's
    clock goes forty times as fast."""
    server = serve(workers=1, settings={"LD_PRELOAD": preload, "FAST": "40"})
    patience = servers.number_in("crates/talks/src/peer.rt", "REQUEST_SECONDS") / 40
    request, began = push_request({"a": "endless"}, [entry("x" * 10_000)]), time.monotonic()
    with connect(server.port) as it:
        with contextlib.suppress(ConnectionError):
            for at in range(len(request) - 10):
                it.sendall(request[at:at + 1])
                time.sleep(0.3)
                if time.monotonic() - began > 3 * patience:
                    break
    assert 0.7 * patience < time.monotonic() - began < 2.5 * patience
    push_once(server.port, SECONDS)


def test_answers_that_close(serve):
    """A refusal arrives though the client still sends its body, and the connection then ends."""
    server = serve(workers=1)
    head = servers.request(servers.PUSH, {}).replace(b"Content-Length: 2", b"Content-Length: 5000000")[:-2]
    for _ in range(20):
        with servers.Client(server.port) as client:
            client.ends.sendall(head)
            with contextlib.suppress(ConnectionError):
                for _ in range(8):
                    client.ends.sendall(b"x" * 65_536)
            assert client.answer()[0] == 413


def test_counted_kept_connections(serve):
    """A server with CONNECTIONS serves the last ones until they end, and then ends well."""
    server = serve(workers=2, more=["3"])
    kept = [servers.Client(server.port) for _ in range(3)]
    for _ in range(3):
        for it in kept:
            assert it.push({"a": "kept"}, [entry()]) == (204, "")
    assert server.running.poll() is None
    for it in kept:
        it.ends.close()
    assert server.running.wait(SECONDS) == 0


def test_ends_of_streams(serve):
    """Requests whose client sends nothing more are answered, and then the connection ends."""
    server = serve(workers=1)
    for count in (1, 3, 50):
        with servers.Client(server.port) as client:
            client.ends.sendall(READY * count)
            client.ends.shutdown(socket.SHUT_WR)
            assert [client.answer() for _ in range(count)] == [(200, b"ready")] * count
            assert client.ends.recv(1) == b""
