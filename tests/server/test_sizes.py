"""Large bodies, large answers, large slots, many calls, and what memory a server keeps."""
import os
import time

import servers
from servers import lines_from
from hostile_bytes import segment_bytes, state_bytes

MOST_BODY, MOST_LINE, MINUTE = 4_194_304, 262_144, 60 * 10**9
# (each large piece of memory is a map of its own, which goes when it is freed)
EXACT = {"GLIBC_TUNABLES": "glibc.malloc.mmap_threshold=65536"}


def test_a_body_of_4_mib_refused_in_part(client):
    """What is refused is named, and all else is there. One byte more is too large."""
    now = time.time_ns()
    well, late = lines_from(now, 15, 255_000), (now - 8 * 24 * servers.HOUR, "old", ())
    length = lambda more: len(servers.request(servers.PUSH, push_of(more)).partition(b"\r\n\r\n")[2])
    push_of = lambda more: servers.push_body([({"a": "1"}, [*well[:8], late, *well[8:]]), ({"a": "2"}, [(now, "x" * (MOST_LINE + 1), ())]),
                                              ({"a": "3"}, [(now, "x" * more, ())])])
    rest = MOST_BODY - length(0)
    assert length(rest) == MOST_BODY
    due = b"stream 0 entry 8: too old\nstream 1 entry 0: line too long\n"
    assert client.ask(servers.PUSH, push_of(rest)) == (400, due)
    assert client.read({"a": "1"}) == well and client.read({"a": "2"}) == [] and len(client.read({"a": "3"})[0][1]) == rest
    # (of the body nothing is sent, since the server closes without taking it)
    client.ends.sendall(servers.request(servers.PUSH, push_of(rest + 1)).partition(b"\r\n\r\n")[0] + b"\r\n\r\n")
    assert client.answer() == (413, b"body too large")


def test_10000_streams_of_one_line(client):
    now, labels = time.time_ns(), [{"a": str(it)} for it in range(10_000)]
    assert client.ask(servers.PUSH, servers.push_body([(it, [(now, "x", ())]) for it in labels])) == (204, b"")
    # (among them the first and the last of each window of the body)
    assert client.read_all([labels[-1], *labels[::21]]) == [[(now, "x", ())]] * 478


def test_a_read_of_30000_entries(client):
    """Its answer has more than 4 MB."""
    lines = lines_from(time.time_ns(), 30_000, 150)
    for at in range(0, 30_000, 10_000):
        assert client.push({"a": "1"}, lines[at:at + 10_000]) == (204, "")
    status, text = client.ask(servers.READ, servers.read_body({"a": "1"}))
    assert len(text) > 4_000_000 and servers.entries_of(status, text) == lines


def test_a_start_over_a_block_above_100_mb(serve, folder):
    """A slot whose first block is that long is replayed, and the shard goes on."""
    now, streams, count = time.time_ns(), 35, 12
    labels = sorted(({"a": str(it)} for it in range(streams)), key=servers.text_of)
    lines = [(now + at, b"x" * MOST_LINE) for at in range(count)]
    states = [state_bytes(2, (b"t", servers.text_of(it)), lines[-1][0], lines[-1], lines) for it in labels]
    os.mkdir(f"{folder}/log")
    for slot, data in zip(servers.slots_of(f"{folder}/log"), (b"", segment_bytes(b"2", 1, 0, 1, [b"".join(states)]))):
        servers.write(slot, data)
    server = serve("log", 1, settings={"NEEDLEAZURE_CAPACITY": str(256 << 20)})
    with servers.Client(server.port) as client:
        for it in (labels[0], labels[-1]):
            assert client.read(it) == [(at, line.decode(), ()) for at, line in lines]
        assert client.push(labels[0], [(now + count, "more", ())]) == (204, "")


def test_a_shard_holds_64_mib(serve):
    """254 lines of 262,140 bytes, and the last once more. The next one has no room."""
    now, labels = time.time_ns(), {"a": "1"}
    with servers.Client(serve("log", 1).port) as client:
        for at in range(0, 252, 14):
            assert client.push(labels, lines_from(now + at, 14, 262_140)) == (204, ""), at
        assert client.push(labels, lines_from(now + 252, 2, 262_140)) == (204, "")
        assert client.push(labels, lines_from(now + 254, 1, 262_140)) == (507, "stream 0: no room\n")


def test_many_turns(serve):
    """2,100 calls of one pass, each a turn of the one owner."""
    with servers.Client(serve("log", 1, 1).port) as client:
        lines = lines_from(time.time_ns(), 2_100, 10)
        for at in range(0, 2_100, 100):
            for line in lines[at:at + 100]:
                client.send(servers.PUSH, servers.push_body([({"a": "1"}, [line])]))
            assert [client.answer() for _ in range(100)] == [(204, b"")] * 100, at
        assert client.read({"a": "1"}) == lines


def roll(client, path, stamp):
    """Pushes and trims until the shard has begun another segment. Returns the last time."""
    before = servers.generation(path)
    while servers.generation(path) == before:
        stamp += 2 * servers.HOUR
        assert client.push({"a": "rolling"}, lines_from(stamp, 15, 250_000))[0] == 204
        assert client.trim({"a": "rolling"}, stamp - servers.HOUR)[0] == 200
    return stamp


def test_memory(serve, folder):
    """Neither rolls nor lines that are trimmed leave memory behind."""
    server = serve("log", 1, 1, {**EXACT, "NEEDLEAZURE_CAPACITY": str(56 << 20)})
    with servers.Client(server.port) as client:
        stamp, now = time.time_ns() - 150 * servers.HOUR, time.time_ns()
        for at in range(0, 75, 15):
            assert client.push({"a": "kept"}, lines_from(now + at, 15, 250_000))[0] == 204
        unrolled = server.memory()
        for _ in range(4):
            stamp = roll(client, f"{folder}/log", stamp)
        before = server.memory()
        assert before < unrolled + 8_000_000, "after rolls"
        for at in range(0, 60, 15):
            assert client.push({"a": "trimmed"}, lines_from(now - 10 * servers.HOUR + at, 15, 250_000))[0] == 204
        assert client.push({"a": "trimmed"}, [(now, "last", ())])[0] == 204
        assert server.memory() > before + 8_000_000, "15 MB more"
        assert client.trim({"a": "trimmed"}, now - servers.HOUR) == (200, '{"trimmed":60}')
        assert server.memory() < before + 8_000_000, "after a trim"
