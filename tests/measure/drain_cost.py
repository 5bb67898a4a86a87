"""drain_cost: what a run of the drain costs over 5,000 streams of 40 lines, with lines to take and with none, over one
stream of 100 MB, to files and to a stub of a Loki, and over one that has 100 MB at one nanosecond: seconds of the clock and
of a processor, with walcat and all else that it started, and its own most memory. `check` has their bounds."""
import os
import time

import loki_stub
import servers
from servers import hold, lines_from

STREAMS, LINES, SHARDS, STEP = 5_000, 40, 8, 180 * 10**9
LONG, LENGTH = 100_000_000, 200
MEMORY = 64


def fill(port):
    """Lines of two hours for each stream, so that half of them may be taken."""
    start = time.time_ns() - LINES * STEP
    with servers.Client(port) as client:
        for first in range(0, STREAMS, 200):
            for at in range(0, LINES, 20):
                entries = lines_from(start, 20, LENGTH, STEP, at)
                client.store(*(({"pod": str(it)}, entries) for it in range(first, first + 200)))


def fill_long(port, hours=3):
    """Lines of some hours; with none all at one time, and one line later."""
    count = LONG // LENGTH
    start, step = time.time_ns() - 3 * servers.HOUR, hours * servers.HOUR // count
    with servers.Client(port) as client:
        for at in range(0, count, 5_000):
            client.store(({"pod": "long"}, lines_from(start, 5_000, LENGTH, step, at)))
        if not hours:
            client.store(({"pod": "long"}, lines_from(time.time_ns(), 1, LENGTH)))


def fill_dense(port):
    fill_long(port, 0)


def drain(work, name, port, shards, to):
    """Seconds of the clock and of a processor, and the most memory, of a run that has to end well."""
    began, memory, state = time.monotonic(), 0, f"{work}/lines"
    running = servers.drain(f"{work}/{name}", port, shards, to or state, STATE_DIRECTORY=state)
    while not (found := os.wait4(running.pid, os.WNOHANG))[0]:
        # (of the drain alone: walcat has a slot twice in its memory)
        memory = max(memory, servers.memory_of(running.pid, "VmHWM"))
        time.sleep(0.02)
    _, running.returncode, used = found
    hold(running.returncode == 0, f"a run ends well {running.stderr.read()[:300]}".strip())
    return time.monotonic() - began, used.ru_utime + used.ru_stime, memory / 1e6, servers.last_run(state)


def measure(work, name, shards, fill_it, rate, to=None):
    """Two runs over a server, the first of which has so many lines a second of a processor at least, or any."""
    settings = {**servers.allocator(), "NEEDLEAZURE_CAPACITY": str(256 << 20)}
    with servers.Server(f"{work}/{name}", shards, 16, settings) as server:
        fill_it(server.port)
        for what in ("lines to take", "none"):
            before = server.processor()
            took, used, memory, told = drain(work, name, server.port, shards, to)
            found = told["lines"] / used
            is_so = memory <= MEMORY and (found >= rate or what == "none")
            hold(is_so, f"{name}: {told['streams']:.0f} streams, {what}: {told['lines']:.0f} lines in {took:.1f} s, "
                 f"{used:.2f} s of a processor, {found:.0f} lines a second of it, {memory:.0f} MB; "
                 f"the server took {server.processor() - before:.1f} s")


PARTS = {"many": (SHARDS, fill, 200_000), "long": (1, fill_long, 300_000), "dense": (1, fill_dense, 300_000)}


def check(work, _, *words):
    os.makedirs(f"{work}/lines")
    for name in words or PARTS:
        shards, fill_it, rate = PARTS[name]
        measure(work, name, shards, fill_it, rate)
        with loki_stub.Loki(is_blind=True) as loki:
            measure(work, f"{name} to a Loki", shards, fill_it, min(rate, 200_000), loki.address)
