"""What a server says on standard error while it serves."""
import os
import subprocess
import time

import pytest
import servers
from servers import entry

LABELS = {"a": "1"}
PLACE = ", then start the server again as docs/OPERATING.md says under \"After a failed disk\"."


def lines_of(serve, name, length, make_room=lambda: None, **how):
    """Pushes until the only shard is unavailable. What the server said until its end. When there is room again, what was
    answered is there, with the line that wasn't or without it, and the shard goes on."""
    server, answered, status = serve(name, 1, 1, **how), [], 204
    with servers.Client(server.port) as client:
        while status == 204:
            answered.append(entry(f"{len(answered)} ".ljust(length, "x")))
            status, text = client.push(LABELS, answered[-1:])
        assert (status, text) == (503, "stream 0: unavailable\n") and len(answered) > 1
        assert client.read(LABELS) == 503 and client.push(LABELS, [entry("y")])[0] == 503
    server.end()
    make_room()
    with servers.Client(serve(name, 1, 1).port) as client:
        assert client.read(LABELS) in (answered[:-1], answered)
        assert client.push(LABELS, [entry("with room again")]) == (204, "")
    return server.errors().splitlines()


def line_with(cause):
    what = f"shard 00 is unavailable: a call on its disk failed: {cause}."
    return f"{what} Its requests are answered 503 from now on. Fix the disk{PLACE}"


@pytest.mark.parametrize("length", [50, 4_000, 60_000])
def test_a_file_that_may_not_grow(serve, length):
    limit = servers.limit_length(300_000)
    assert lines_of(serve, "log", length, preexec_fn=limit) == [line_with("File too large (os error 27)")]


@pytest.mark.skipif(os.geteuid() != 0, reason="a file system of 2 MiB is mounted by root")
@pytest.mark.parametrize("length", [50, 4_000, 60_000])
def test_a_full_file_system(serve, folder, length):
    """A file takes most of it until there has to be room."""
    small = f"{folder}/small"
    os.mkdir(small)
    subprocess.run(["mount", "-t", "tmpfs", "-o", "size=2m", "tmpfs", small], check=True)
    try:
        servers.write(f"{small}/filler", b"x" * (2**21 - 400_000))
        said = lines_of(serve, "small/log", length, lambda: os.remove(f"{small}/filler"))
        assert said == [line_with("No space left on device (os error 28)")]
    finally:
        subprocess.run(["umount", "-l", small], check=True)


def test_all_workers_wait(serve, folder, preload):
    """Where each worker has waited for a shard for ten seconds, by a clock that goes twenty times as fast, one line says
    so in a minute, and the push is answered all the same."""
    slow = {"LD_PRELOAD": preload, "RECORD_UNDER": folder, "RECORD_SLOW": "400000", "FAST": "20"}
    server, began = serve("log", 1, 1, slow), time.monotonic()
    with servers.Client(server.port) as client:
        assert client.push({"a": "1"}, [(time.time_ns(), "x", ())])[0] == 204
    server.end()
    minutes = (time.monotonic() - began) * 20 // 60
    due = "all workers have waited for shards for 10 seconds: the disk is slow, or hangs. docs/OPERATING.md says under \"Connections\" what to look at."
    said = server.errors().splitlines()
    assert {*said} == {due} and len(said) <= 1 + minutes


def test_a_full_shard_once_a_minute(serve):
    """The first push without room has a line, and later ones or others within a minute none."""
    server = serve("log", 2, 4, {"NEEDLEAZURE_CAPACITY": "4096"})
    full, other = (next(servers.labels_in(shard, 2)) for shard in (1, 0))
    line = (time.time_ns(), "x" * 1500, ())
    with servers.Client(server.port) as first, servers.Client(server.port) as second:
        assert first.push(full, [line])[0] == 204
        later = [(line[0] + 1, "y" * 1500, ())]
        assert [it.push(full, later) for it in (first, second, first)] == [(507, "stream 0: no room\n")] * 3
        assert second.ask(servers.PUSH, servers.push_body([(other, [line]), (full, later)]))[0] == 507
    server.end()
    due = "shard 01 has no room: pushes to it are answered 507. Take lines out of it, as docs/OPERATING.md says under "
    assert server.errors().splitlines() == [due + '"A full shard".']
