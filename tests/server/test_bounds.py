"""What a server's bounds are, as numbers: how long a client may take, what may be open and held, who is closed past
that, and what is said how often. Clocks stand still but where a test sets them: only what it names can be the cause."""
import os
import resource
import signal
import socket
import time

import pytest
import servers
from crash_images import notes_of
from servers import READY, connect, entry, is_open, push_request, wait_until
from test_slow_clients import look

OPEN, HALF_SENT, CAPACITY = "NEEDLEAZURE_OPEN_CONNECTIONS", "NEEDLEAZURE_HALF_SENT", "NEEDLEAZURE_CAPACITY"
# as few bytes as may be set
LEAST_HELD = 4_210_688


def request_of(length):
    """A push of about so many bytes, at most a hundred less."""
    lengths = [200_000] * (length // 200_100) + [length % 200_100]
    text = lambda less: push_request({"a": str(length)}, [entry("x" * max(0, it - less)) for it in lengths])
    return text((len(text(0)) - length) // len(lengths) + 1)


LONG, SMALL = request_of(1_050_000), request_of(2_100)


def all_open(port, clients, seconds, clock):
    """Which of these connections are open at this time."""
    clock.set(seconds)
    look(port)
    return [is_open(it) for it in clients]


def test_silence_of_a_minute(serve, clock):
    """A connection is closed after 60 seconds without a byte, whether it has sent nothing, a part of a request, or one
    that was answered; also the later ones of very many, after the earlier ones have left."""
    server = serve(workers=1, settings=clock.settings)
    clients = [connect(server.port) for _ in range(100)]
    clients[70].sendall(SMALL[:100])
    clients[71].sendall(READY)
    assert clients[71].recv(512).endswith(b"ready")
    for it in clients[:60]:
        it.close()
    look(server.port)
    late = clients[60:]
    assert all_open(server.port, late, 58, clock) == [True] * 40
    late[12].sendall(b"G")
    look(server.port)
    assert all_open(server.port, late, 62, clock) == [at == 12 for at in range(40)]
    assert all_open(server.port, late[12:13], 116, clock) == [True]
    assert all_open(server.port, late[12:13], 120, clock) == [False]


def test_a_request_of_five_minutes(serve, clock):
    """A request may take five minutes from its first byte to its last, and no longer, though some comes all the time."""
    server = serve(workers=1, settings=clock.settings)
    clients = [connect(server.port) for _ in range(2)]
    for seconds in range(0, 296, 40):
        for at, it in enumerate(clients):
            it.sendall(SMALL[seconds:seconds + 40] if at else SMALL[seconds // 40:seconds // 40 + 1])
        look(server.port)
        assert all_open(server.port, clients, seconds + 18, clock) == [True] * 2, seconds
        clock.set(seconds + 40)
    assert all_open(server.port, clients, 303, clock) == [False] * 2


@pytest.mark.parametrize("workers, last", [(1, 0), (2, 0), (2, 1)])
def test_the_slowest_is_closed(serve, clock, workers, last):
    """Past the bytes of half-sent requests that are set, the connection is closed whose request comes slowest, on
    whichever worker it is, and no other: neither large nor small ones that come faster."""
    server = serve(workers=workers, settings={HALF_SENT: str(LEAST_HELD), **clock.settings})
    slow = connect(server.port)
    slow.sendall(SMALL[:2_000])
    look(server.port, 2 * workers)
    kept = [servers.Client(server.port) for _ in range(3)]
    clock.set(30)
    # (each worker has then told the others how slow its slowest is)
    for _ in range(2):
        for it in kept:
            it.ends.sendall(READY)
        assert [it.answer()[0] for it in kept] == [200] * 3
    large, small = ([servers.Client(server.port) for _ in range(count)] for count in (4, 20))
    for it in small:
        it.ends.sendall(SMALL[:2_000])
    most = (LEAST_HELD - 21 * 2_000) // 4
    for it in large:
        it.ends.sendall(LONG[:most])
    look(server.port, 2 * workers)
    assert is_open(slow)
    large[last].ends.sendall(LONG[most:most + 1_500])
    assert wait_until(lambda: not is_open(slow), 10)
    look(server.port, 2 * workers)
    assert all(is_open(it.ends) for it in (*large, *small))
    for it in small:
        it.ends.sendall(SMALL[2_000:])
        assert it.answer() == (204, b"")
    for at, it in enumerate(large):
        it.ends.sendall(LONG[most + (1_500 if at == last else 0):])
        assert it.answer() == (204, b"")


@pytest.mark.parametrize("length", [40, 1_000_000])
def test_cut_requests_leave_nothing(serve, clock, length):
    """Nine clients leave in a request, where 8 may be open. Then 8 others are served, and one that sends much of a long
    request first."""
    server = serve(workers=1, settings={OPEN: "8", HALF_SENT: str(LEAST_HELD), **clock.settings})
    for _ in range(9):
        with connect(server.port, 20) as it:
            it.sendall(LONG[:length])
    clients = [servers.Client(server.port, seconds=20) for _ in range(8)]
    for it in clients:
        assert it.push({"a": "1"}, [entry()]) == (204, "")
    clients.pop().ends.close()
    clients[0].ends.sendall(LONG[:-1])
    look(server.port)
    clients[0].ends.sendall(LONG[-1:])
    assert clients[0].answer() == (204, b"")


def test_many_requests_at_once(serve, folder, preload):
    """130 requests that come to one worker at once are answered in their order, and are written together."""
    notes = f"{folder}/notes"
    server = serve("log", 1, 1, {"LD_PRELOAD": preload, "RECORD_UNDER": folder, "RECORD_TO": notes})
    now, clients = time.time_ns(), [servers.Client(server.port) for _ in range(130)]
    for it in clients:
        assert it.ask(servers.READ, servers.read_body({"a": "1"}))[0] == 200
    server.running.send_signal(signal.SIGSTOP)
    for at, it in enumerate(clients):
        it.send(servers.PUSH, servers.push_body([({"a": "1"}, [(now, str(at), ())])]))
    before = len(notes_of(notes))
    server.running.send_signal(signal.SIGCONT)
    assert [it.answer() for it in clients] == [(204, b"")] * 130
    assert [line for _, line, _ in clients[0].read({"a": "1"})] == [str(at) for at in range(130)]
    syncs = sum(it.kind == "s" and it.is_end for it in notes_of(notes)[before:])
    # (alone each would take two)
    assert syncs <= 40


@pytest.fixture
def hanging(folder, preload):
    """Settings of a server whose syncs hang between calls of the second and of the third."""
    path = f"{folder}/hangs"
    settings = {"LD_PRELOAD": preload, "SYNC_WAITS": path}
    return settings, lambda: servers.write(path, b""), lambda: os.remove(path)


def test_connections_while_a_sync_hangs(serve, hanging):
    """70 connections come to a worker that waits for a sync, six more than wait for it in its queue: all are served."""
    settings, hang, go_on = hanging
    server = serve("log", 1, 1, settings)
    hang()
    clients = [servers.Client(server.port, seconds=20) for _ in range(70)]
    for at, it in enumerate(clients):
        it.send(servers.PUSH, servers.push_body([({"a": str(at)}, [entry()])]))
        if at == 0:
            assert wait_until(lambda: server.sockets() > 2)
    wait_until(lambda: server.sockets() >= 67, 10)
    go_on()
    assert [it.answer() for it in clients] == [(204, b"")] * 70


def test_calls_while_a_sync_hangs(serve, hanging):
    """Eight workers have 30 calls each for a shard whose sync hangs, more than it takes in at once: all are answered."""
    settings, hang, go_on = hanging
    server = serve("log", 1, 8, settings)
    hang()
    clients = [servers.Client(server.port, seconds=20) for _ in range(8)]
    for at, it in enumerate(clients):
        it.send(servers.PUSH, servers.push_body([({"a": f"{at} {each}"}, [entry()]) for each in range(30)]))
    # (until all wait for the shard, or sleep)
    spent = [-1.0]
    wait_until(lambda: spent.append(server.processor()) or spent[-1] == spent[-2], 10, 0.2)
    go_on()
    assert [it.answer() for it in clients] == [(204, b"")] * 8


def test_a_refusal_of_3000_lines(server):
    """Each of 3,000 lines that are too late is named."""
    now = time.time_ns()
    with servers.Client(server.port) as client:
        assert client.push({"a": "1"}, [(now, "newest", ())]) == (204, "")
        late = [(now - 2 * servers.HOUR - at, "x", ()) for at in range(3_000)]
        due = [f"stream 0 entry {at}: too far behind, oldest accepted is {now - servers.HOUR}\n" for at in range(3_000)]
        assert client.push({"a": "1"}, late) == (400, "".join(due))
        assert len(client.read({"a": "1"})) == 1


def test_1050_connections_at_once(serve):
    """Each of them is heard by the one worker that has all."""
    if servers.allow_many_files() < 3_000:
        pytest.skip("this process may not have so many files open")
    server, clients = serve("log", 1, 1), []
    for at in range(1_050):
        clients.append(servers.Client(server.port))
        if at % 50 == 0:
            # (no more come than may wait to be accepted)
            clients[-1].ends.sendall(READY)
            assert clients[-1].answer() == (200, b"ready")
    for it in clients:
        it.ends.sendall(READY)
    assert {it.answer() for it in clients} == {(200, b"ready")}
    for it in clients:
        it.ends.close()


def test_600_connections_wait(serve):
    """Past what may be open connections wait in the system's backlog, which takes as many as it allows."""
    if int(servers.bytes_of("/proc/sys/net/core/somaxconn")) < 1_000:
        pytest.skip("this system lets fewer connections wait")
    server = serve("log", 1, 1, {OPEN: "1"})
    waiting = [socket.create_connection(("127.0.0.1", server.port), timeout=2) for _ in range(601)]
    for it in waiting[:3]:
        it.sendall(READY)
        assert it.recv(1_000).startswith(b"HTTP/1.1 200 OK")
        it.close()
    for it in waiting[3:]:
        it.close()


def test_connections_without_end(serve, clock):
    """After 263,000 connections that have ended, more than 2^18, others are served. Waits are a hundredth as long."""
    server = serve("log", 1, 8, {**clock.settings, "FAST": "100", "ENDED_FIRST": "263000"})
    with servers.Client(server.port) as client:
        assert client.push({"a": "1"}, [entry()]) == (204, "")


def test_the_soft_limit_of_open_files(serve, folder):
    """It counts, and not the hard one: as many connections are open as it allows, as a line says, and others wait."""
    limit = lambda: resource.setrlimit(resource.RLIMIT_NOFILE, (80, 4_000))
    said = f"{folder}/said"
    with open(said, "wb") as errors:
        server = serve("log", 1, 1, preexec_fn=limit, stderr=errors)
    clients = [servers.Client(server.port) for _ in range(60)]
    for at, it in enumerate(clients):
        it.send(servers.PUSH, servers.push_body([({"a": str(at)}, [entry()])]))
    assert wait_until(lambda: b"44 connections are open: others wait until one ends" in servers.bytes_of(said), 20)
    for it in clients:
        assert it.answer() == (204, b"")
        it.ends.close()


def said_lines(path, words, count):
    """Waits for so many lines with these words on standard error. What stands before them in all that have come."""
    found = lambda: [it.partition(words)[0] for it in servers.bytes_of(path).decode().splitlines() if words in it]
    wait_until(lambda: len(found()) >= count, 10, 0.01)
    return found()


@pytest.fixture
def saying(serve, folder, clock):
    """Starts a server whose clock is set, and returns it with what it says."""
    def start(*words, **settings):
        with open(f"{folder}/said", "wb") as errors:
            how = {"settings": {**clock.settings, "FAST": "20", **settings}, "stderr": errors}
            return serve("log", *words, **how), f"{folder}/said"
    return start


def test_full_shards_once_a_minute(saying, clock):
    """Each full shard has a line of its own, and another one after a minute."""
    server, path = saying(2, 2, **{CAPACITY: "4096"})
    labels = [next(servers.labels_in(shard, 2)) for shard in (0, 1)]
    now = time.time_ns()
    for seconds, count in ((0, 2), (58, 2), (62, 4), (118, 4), (124, 6)):
        clock.set(seconds)
        with servers.Client(server.port) as client:
            for it in labels:
                client.push(it, [(now, "x" * 1_500, ())])
                assert client.push(it, [(now + 1, "y" * 1_500, ())])[0] == 507
        assert said_lines(path, " has no room: ", count) == ["shard 00", "shard 01"] * (count // 2), seconds


def test_open_connections_once_a_minute(saying, clock):
    server, path = saying(1, 1, **{OPEN: "2"})
    clients = [servers.Client(server.port) for _ in range(3)]
    for seconds, count in ((0, 1), (58, 1), (62, 2), (124, 3)):
        for it in clients[:2]:
            it.ends.sendall(READY)
            assert it.answer()[0] == 200
        clock.set(seconds)
        assert said_lines(path, " connections are open: ", count) == ["2"] * count, seconds
    clients.pop(0).ends.close()
    clients[-1].ends.sendall(READY)
    assert clients[-1].answer()[0] == 200


def has_read_all(port):
    """Whether a server has read what clients sent, by the queues of its ends."""
    lines = [it.split() for it in servers.bytes_of("/proc/net/tcp").decode().splitlines()[1:]]
    return all(it[4].endswith(":00000000") for it in lines if it[1].endswith(f":{port:04X}"))


def test_busy_workers_once_a_minute(saying, clock, hanging):
    """After ten seconds in which each worker waits for a sync a line says so, and another one each minute."""
    settings, hang, go_on = hanging
    server, path = saying(1, 2, **settings)
    hang()
    clients = [servers.Client(server.port) for _ in range(2)]
    for at, it in enumerate(clients):
        it.send(servers.PUSH, servers.push_body([({"a": str(at)}, [entry()])]))
    wait_until(lambda: server.sockets() >= 4 and has_read_all(server.port))
    for seconds, count in ((9, 0), (12, 1), (70, 1), (74, 2), (136, 3)):
        clock.set(seconds)
        assert said_lines(path, " workers have waited for shards for 10 seconds: ", count) == ["all"] * count, seconds
    go_on()
    assert [it.answer() for it in clients] == [(204, b"")] * 2
