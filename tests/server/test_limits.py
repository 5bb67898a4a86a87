"""A server's address, its clock, which lines it takes by its settings, and the threads that it is refused."""
import os
import shutil
import socket
import subprocess
import time

import pytest
import servers

SECOND, MINUTE, DAY = 10**9, 60 * 10**9, 24 * servers.HOUR
LABELS = {"a": "1"}


def test_address(server):
    """It listens on 127.0.0.1 alone."""
    said = subprocess.run(["hostname", "-I"], capture_output=True, text=True, check=True).stdout.split()
    for address in {"127.0.0.2", "::1", *said} - {"127.0.0.1"}:
        with pytest.raises(OSError):
            socket.create_connection((address, server.port), 5).close()
    servers.connect(server.port).close()


def test_clock(client):
    """What is too new is refused until the clock gets there, and what is almost too old is taken until then."""
    now = time.time_ns()
    ahead, old = now + 10 * MINUTE + 2 * SECOND, now - 7 * DAY + 2 * SECOND
    assert client.push({"a": "six"}, [(now - 6 * DAY, "of six days ago", ())])[0] == 204
    assert client.push({"a": "old"}, [(old, "almost seven days old", ())])[0] == 204
    assert client.push({"a": "ahead"}, [(ahead, "x", ())]) == (400, "stream 0 entry 0: too new\n")
    ends = time.monotonic() + servers.SECONDS
    while client.push({"a": "ahead"}, [(ahead, "x", ())])[0] == 400 and time.monotonic() < ends:
        assert client.push(LABELS, [(time.time_ns(), "now", ())])[0] == 204
        time.sleep(0.1)
    assert time.time_ns() >= ahead - 10 * MINUTE and len(client.read({"a": "ahead"})) == 1
    assert client.push({"a": "again"}, [(old, "x", ())]) == (400, "stream 0 entry 0: too old\n")


@pytest.mark.parametrize("age, window", [(None, 3600), ("1h30m", 2700), ("2m", 60), ("1s", 0.5), ("0", 0)])
def test_window(serve, age, window):
    """A line at the edge of the window is taken, and one a nanosecond behind it is not. A trim leaves the window."""
    newest = time.time_ns()
    edge = newest - int(window * SECOND)
    late = f"stream 0 entry 2: too far behind, oldest accepted is {edge}\n"
    with servers.Client(serve("log", 1, 1, {"NEEDLEAZURE_MAX_CHUNK_AGE": age} if age else {}).port) as client:
        pushed = [(newest, "newest", ()), (edge, "edge", ()), (edge - 1, "behind", ())]
        assert client.push(LABELS, pushed) == (400, late)
        assert client.read(LABELS) == sorted(pushed[:2], key=lambda it: it[0])
        assert client.trim(LABELS, edge + 1) == (400, "trim bound is above the oldest accepted time")
        assert client.trim(LABELS, edge) == (200, '{"trimmed":0}')


def test_old_and_ahead(serve):
    """By the server's clock, to ten seconds."""
    settings = {"NEEDLEAZURE_REJECT_OLD_SAMPLES_MAX_AGE": "1m", "NEEDLEAZURE_CREATION_GRACE_PERIOD": "1m30s"}
    with servers.Client(serve("log", 1, 1, settings).port) as client:
        now = time.time_ns()
        pushed = [(now + at * SECOND, str(at), ()) for at in (-70, 100, -50, 80)]
        refused = "stream 0 entry 0: too old\nstream 0 entry 1: too new\n"
        assert client.push(LABELS, pushed) == (400, refused)
        assert client.read(LABELS) == pushed[2:]


@pytest.mark.parametrize("words", ["ingestctl push {} 4 t 20", "ingesterd {} 0 4 3"])
def test_refused_threads(folder, preload, words):
    """The thread of each shard is refused in turn: the program ends, changes nothing, and the slots open again."""
    body = b'{"streams":[{"stream":{"a":"1"},"values":[["20","x"]]}]}'
    push = lambda slots: servers.run(["ingestctl", "push", slots, "4", "t", "20"], body)
    assert push(f"{folder}/slots") == (0, b"204\n", b"")
    files = lambda slots: {it: servers.bytes_of(f"{slots}/{it}") for it in os.listdir(slots)}
    for number in range(1, 5):
        mark, slots = f"{folder}/mark{number}", shutil.copytree(f"{folder}/slots", f"{folder}/{number}")
        settings = {"THREAD_AT": str(number), "THREAD_MARK": mark, "LD_PRELOAD": preload}
        assert servers.run(words.format(slots).split(), body, env=settings) == (3, b"", b"thread not started\n")
        assert os.path.exists(mark) and files(slots) == files(f"{folder}/slots")
        assert push(slots) == (0, b"204\n", b"")
