"""What a server asks of its disk: which files and folders it syncs when, and what it does when a call fails."""
import os
import time

import pytest
import servers
from crash_images import notes_of

SHARDS, FAILING, LIMIT = 16, 13, 8192


class Traced:
    """A server whose calls are noted, and a connection to it."""

    def __init__(self, serve, folder, preload, name, **settings):
        self.notes, self.taken = f"{folder}/notes", 0
        settings = {"LD_PRELOAD": preload, "RECORD_UNDER": folder, "RECORD_TO": self.notes, "NEEDLEAZURE_CAPACITY": "16384", **settings}
        self.server = serve(name, SHARDS, 2, settings)
        self.client = servers.Client(self.server.port)

    def calls(self):
        found = notes_of(self.notes)
        new, self.taken = found[self.taken:], len(found)
        return new

    def push(self, shard):
        return self.client.push(labels_of(shard), [(time.time_ns(), "x", ())])

    def shape(self):
        """The calls on slots since: W writes bytes, c closes a gate, o opens one, s syncs."""
        notes = [it for it in self.calls() if it.slot and not it.is_end]
        assert len({it.slot for it in notes}) <= 1
        return "".join(it.kind if it.kind != "w" else "W" if it.length > 1 else "o" if it.data == b"\1" else "c" for it in notes)


@pytest.fixture
def traced(serve, folder, preload):
    return lambda name="log", **settings: Traced(serve, folder, preload, name, **settings)


def labels_of(shard, name="s"):
    return next(servers.labels_in(shard, SHARDS, name=name))


@pytest.mark.parametrize("is_there", [False, True])
def test_syncs_of_a_start(traced, serve, folder, is_there):
    """Each slot is synced after it was made, and then its folder; each folder above, up to the one that was there, after
    what was made in it; all before the server is ready. The same where all of it is there."""
    name = "one/two/three/log"
    log = f"{folder}/{name}"
    if is_there:
        serve(name, SHARDS).end()
    calls = [(it.kind, it.path.rstrip("/")) for it in traced(name).calls() if it.is_end and it.result >= 0]
    after = lambda what: calls[len(calls) - calls[::-1].index(what):]
    for path in (f"{log}/shard-{shard:02}-{slot}.wal" for shard in range(SHARDS) for slot in (0, 1)):
        assert ("f", path) in after(("o", path)) and ("f", log) in after(("o", path)), path
        assert os.path.getsize(path) == 0
    while log != folder:
        made, log = ("m", log), os.path.dirname(log)
        assert ("f", log) in (calls if is_there else after(made)), log


def test_calls_of_pushes(traced):
    """A push is a write, a sync, a write of one byte, a sync, of one slot; one that begins a segment closes the slot first."""
    it = traced()
    it.calls()
    for due in ("csWsos", "Wsos", "Wsos"):
        assert it.push(FAILING) == (204, "") and it.shape() == due
    assert len(it.client.read(labels_of(FAILING))) == 3 and it.shape() == ""
    labels, stamp, found = labels_of(FAILING, "old"), time.time_ns() - 150 * servers.HOUR, []
    while "csWsos" not in found:
        stamp += 2 * servers.HOUR
        assert it.client.push(labels, [(stamp, "x" * 2_000, ())]) == (204, "")
        found.append(it.shape())
        assert it.client.trim(labels, stamp - servers.HOUR)[0] == 200
        found.append(it.shape())
    # (the first trim finds nothing)
    assert len(found) > 8 and {*found[2:-2]} == {"Wsos"}


def test_failed_syncs(traced):
    """Each sync of a push fails in turn. Its shard then answers 503, says so once, and makes no call; others go on."""
    for number, pushes in ((2, 0), (3, 0), (4, 0), (5, 1), (6, 1)):
        it = traced(f"log{number}", FAIL_SYNC=str(number), FAIL_NAME=f"shard-{FAILING}-1.wal")
        assert [it.push(FAILING)[0] for _ in range(pushes)] == [204] * pushes
        assert it.push(FAILING) == (503, "stream 0: unavailable\n")
        it.calls()
        assert {it.push(FAILING)[0] for _ in range(3)} == {503} and it.client.read(labels_of(FAILING)) == 503
        assert it.shape() == ""
        assert {it.push(shard)[0] for shard in range(SHARDS) if shard != FAILING} == {204}
        it.server.end()
        said = it.server.errors().splitlines()
        assert len(said) == 1 and said[0].startswith(f"shard {FAILING} is unavailable: ")
        os.remove(it.notes)


def test_failed_writes(serve):
    """The system refuses what is written behind the first bytes of a file. Two shards say so, once each."""
    server = serve("log", 4, 1, preexec_fn=servers.limit_length(LIMIT))
    labels = [next(servers.labels_in(it, 4)) for it in range(4)]
    with servers.Client(server.port) as client:
        push = lambda shard, length: client.push(labels[shard], [(time.time_ns(), "x" * length, ())])[0]
        assert [push(it, 1) for it in range(4)] == [204] * 4
        assert [push(it, LIMIT) for it in (1, 2) for _ in range(5)] == [503] * 10
        assert [push(it, 1) for it in (0, 3)] == [204] * 2
    server.end()
    assert [it.split(":")[0] for it in server.errors().splitlines()] == [f"shard {it:02} is unavailable" for it in (1, 2)]


def test_failed_reads(serve, preload, folder):
    """A start ends at the read that fails, changes nothing, and the next one has all lines."""
    labels, count = [next(servers.labels_in(it, 2)) for it in range(2)], 0
    server = serve("log", 2)
    with servers.Client(server.port) as client:
        assert {client.push(it, [(time.time_ns(), "x", ())])[0] for it in labels} == {204}
        lines = client.read_all(labels)
    server.end()
    slots = lambda: [servers.bytes_of(f"{folder}/log/{it}") for it in sorted(os.listdir(f"{folder}/log"))]
    while True:
        before = slots()
        try:
            serve("log", 2, settings={"LD_PRELOAD": preload, "DEVICE_AT": str(count + 1)}).end()
            break
        except servers.NotStarted as error:
            assert str(error).startswith("status 3: ") and "device failed" in str(error)
        assert before == slots()
        count += 1
    assert 4 <= count < 100
    with servers.Client(serve("log", 2).port) as client:
        assert client.read_all(labels) == lines


@pytest.mark.skipif(len(os.sched_getaffinity(0)) < 2, reason="a thread for each processor opens shards")
def test_shards_are_opened_side_by_side(traced, serve):
    """16 shards are read by as many threads as there are processors, but for one that came too late, and by more than one."""
    first = serve("log", SHARDS)
    with servers.Client(first.port) as client:
        for shard in range(SHARDS):
            assert client.push(labels_of(shard), [(time.time_ns(), "x", ())]) == (204, "")
    first.end()
    it = traced("log", RECORD_READS="1", RECORD_SLOW="20000")
    readers = {note.slot[0]: note.at for note in it.calls() if note.kind == "p" and note.slot}
    least = max(2, len(os.sched_getaffinity(0)) - 1)
    assert len(readers) == SHARDS and len({*readers.values()}) >= min(SHARDS, least)
