"""Long writes, syncs and slots, many shards, and closings after a failed device: nothing that was answered is lost."""
import os
import re
import struct
import time

import pytest
import servers
from crash_images import notes_of
from hostile_bytes import append_bytes, key_bytes, segment_bytes, state_bytes
from servers import lines_from

MEGABYTE, MOST_LINE, CAPACITY = 1 << 20, 262_144, "NEEDLEAZURE_CAPACITY"


def shapes(path, begin):
    """The calls on slots in a file of notes from this one on: W writes bytes, c closes a gate, o opens one, s syncs."""
    kind_of = lambda it: "W" if it.length > 1 else "o" if it.data == b"\1" else "c"
    notes = [it for it in notes_of(path)[begin:] if it.slot and not it.is_end]
    return "".join(kind_of(it) if it.kind == "w" else it.kind for it in notes)


@pytest.mark.parametrize("length", [10, 40])
def test_a_long_roll(serve, folder, preload, length):
    """A roll writes so many megabytes: it syncs them before it opens the gate, and that too, as later pushes into so
    long a slot do. After a kill all is there. (The first change of a slot of version 1 rolls.)"""
    now, count, notes = time.time_ns(), length * MEGABYTE // 250_100, f"{folder}/notes"
    labels = sorted(({"a": str(it)} for it in range(4)), key=servers.text_of)
    lines = lines_from(now, count // 4 + 1, 250_000)
    stored = [(at, line.encode()) for at, line, _ in lines]
    states = [state_bytes(1, (b"t", servers.text_of(it)), stored[-1][0], stored[-1], stored) for it in labels]
    os.mkdir(f"{folder}/log")
    servers.write(f"{folder}/log/shard-00-0.wal", b"")
    servers.write(f"{folder}/log/shard-00-1.wal", segment_bytes(b"1", 1, 0, 1, [b"".join(states)]))
    settings = {CAPACITY: str(128 * MEGABYTE)}
    noted = {"LD_PRELOAD": preload, "RECORD_UNDER": f"{folder}/log", "RECORD_TO": notes}
    server = serve("log", 1, settings={**settings, **noted})
    more = [(now + 1_000 + at, f"more {at}", ()) for at in range(3)]
    with servers.Client(server.port) as client:
        for at, due in enumerate(["(cs)?(W+s)+os", "W+sos", "W+sos"]):
            begin = len(notes_of(notes))
            assert client.push(labels[0], more[at:at + 1]) == (204, "")
            assert re.fullmatch(due, shapes(notes, begin)), at
    server.end()
    assert os.path.getsize(f"{folder}/log/shard-00-0.wal") > length * 1_000_000
    with servers.Client(serve("log", 1, settings=settings).port) as client:
        assert client.read_all(labels) == [[*lines, *more], lines, lines, lines]


def write_long_slot(path, length, key, now):
    """Writes a segment of this length and more to a file with holes: lines of zeros, of which each block's are trimmed
    by the next. Returns the time of its last line."""
    zeros, each = bytes(MOST_LINE), 15
    first = state_bytes(2, key, now, (now, b"x"), [(now, b"x")])
    with open(path, "wb") as file:
        file.write(segment_bytes(b"2", 1, 0, 1, [first], b""))
        while file.tell() < length:
            times = range(now + 1, now + 1 + each)
            now = times[-1]
            trim = b"\2" + key_bytes(*key) + struct.pack("<Q", times[0])
            # (of an append its head, and what stands before and behind each line)
            block = append_bytes(2, key, [(it, b"") for it in times])
            front, entry = len(block) - 13 * each, 13 + MOST_LINE
            file.write(b"\1" + struct.pack("<I", front + entry * each + len(trim)) + block[:front])
            for it in times:
                file.write(struct.pack("<QI", it, MOST_LINE))
                file.seek(len(zeros), os.SEEK_CUR)
                file.write(b"\0")
            file.write(trim)
        last = append_bytes(2, key, [(now + 1, b"last")]) + b"\2" + key_bytes(*key) + struct.pack("<Q", now + 1)
        file.write(b"\1" + struct.pack("<I", len(last)) + last + b"\0")
    return now + 1


@pytest.mark.parametrize("length", [170, 270])
def test_a_long_slot(serve, folder, length):
    """A slot of so many megabytes is read to its end, goes on behind it, and is read again."""
    key, now = (b"t", servers.text_of({"a": "1"})), time.time_ns()
    os.mkdir(f"{folder}/log")
    servers.write(f"{folder}/log/shard-00-0.wal", b"")
    last = write_long_slot(f"{folder}/log/shard-00-1.wal", length * MEGABYTE, key, now)
    settings, due = {CAPACITY: str(1024 * MEGABYTE)}, [(last, "last", ())]
    for turn in range(2):
        server = serve("log", 1, settings=settings)
        with servers.Client(server.port) as client:
            assert client.read({"a": "1"}) == due
            due.append((last + 1 + turn, f"turn {turn}", ()))
            assert client.push({"a": "1"}, due[-1:]) == (204, "")
        server.end()


@pytest.mark.parametrize("shards", [24, 64])
def test_many_shards(serve, shards):
    """Each has lines, and has them again after a kill."""
    labels = [next(servers.labels_in(it, shards)) for it in range(shards)]
    lines = lines_from(time.time_ns(), 3, 100)
    server = serve("log", shards)
    with servers.Client(server.port) as client:
        client.store(*((it, lines) for it in labels))
    server.end()
    with servers.Client(serve("log", shards).port) as client:
        assert client.read_all(labels) == [lines] * shards


def test_a_closing_after_a_failed_device(serve, folder, preload):
    """A server whose second shard has failed ends well after its last connection, and leaves what it answered."""
    labels = [next(servers.labels_in(it, 2)) for it in range(2)]
    lines = lines_from(time.time_ns(), 3, 100)
    fails = {"LD_PRELOAD": preload, "RECORD_UNDER": folder, "FAIL_SYNC": "5", "FAIL_NAME": "shard-01-1.wal"}
    server = serve("log", 2, 1, fails, ["1"])
    with servers.Client(server.port) as client:
        for it in labels:
            assert client.push(it, lines[:1]) == (204, "")
        assert client.push(labels[1], lines[1:2]) == (503, "stream 0: unavailable\n")
        assert client.push(labels[0], lines[1:2]) == (204, "")
    assert server.running.wait(servers.SECONDS) == 0
    with servers.Client(serve("log", 2).port) as client:
        assert client.read(labels[0]) == lines[:2]
        # (what wasn't answered may be there)
        assert client.read(labels[1]) in (lines[:1], lines[:2])
        assert client.push(labels[1], lines[2:]) == (204, "")


def test_a_lock_that_fails(serve, folder, preload):
    """A file system without locks is refused, and the slots stay as they were."""
    server = serve("log", 1)
    with servers.Client(server.port) as client:
        assert client.push({"a": "1"}, lines_from(time.time_ns(), 1, 10)) == (204, "")
    server.end()
    slots = lambda: [servers.bytes_of(it) for it in servers.slots_of(f"{folder}/log")]
    before = slots()
    with pytest.raises(servers.NotStarted) as refused:
        serve("log", 1, settings={"LD_PRELOAD": preload, "LOCK_FAILS": "1"})
    assert str(refused.value) == f"status 1: cannot open {folder}/log/shard-00-0.wal" and slots() == before
