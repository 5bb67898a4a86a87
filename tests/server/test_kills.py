"""Kills of a server under load: no line that was answered is lost, doubled or invented."""
import collections
import os
import random
import time

import pytest
import served_life
import servers

CYCLES, SHARDS = int(os.environ.get("CYCLES", 5)), 4
# (until the streams of a folder have come to the clock)
CYCLES_OF_A_FOLDER = 10


def test_kills_under_load():
    """Six clients push, read and trim over a connection each while the server is killed, CYCLES times (5). What is read
    back is what was answered, each line once and in its order, and of each stream at most the one call under way."""
    seed, counts = random.randrange(2**32), collections.Counter()
    for first in range(0, CYCLES, CYCLES_OF_A_FOLDER):
        draw = random.Random(f"{seed} {first}")
        with servers.room("kill") as folder:
            life = served_life.ServedLife(draw, folder)
            life.shards, life.capacity, life.lengths = SHARDS, 8 << 20, {1: 20, 200: 60, 20_000: 15, 200_000: 5}
            for _ in range(min(CYCLES_OF_A_FOLDER, CYCLES - first)):
                life.serve(folder, draw.uniform(0.02, 1.0), 1)
            life.serve(folder, 0, 0)
            counts.update(life.counts, rolls=sum(max(it - 1, 0) for it in life.generations(folder)))
    print(f"seed {seed}:", ", ".join(f"{count:,} {name}" for name, count in counts.items()))
    assert counts["kills"] == CYCLES and counts["pushes"] > 0


@pytest.mark.parametrize("moment", [None, 0.1, 0.3, 0.6])
def test_kill_in_a_push_of_3_mb(serve, preload, folder, moment):
    """Each write and sync takes 0.1 s, and the server is killed at its answer, or at a moment before. Lines that were
    answered are there, and of each stream all lines or none."""
    now, streams = time.time_ns(), [{"a": str(it)} for it in range(4)]
    lines = servers.lines_from(now, 3, 250_000)
    server = serve("log", 4, settings={"LD_PRELOAD": preload, "RECORD_UNDER": folder, "RECORD_SLOW": "100000"})
    with servers.Client(server.port) as client:
        client.send(servers.PUSH, servers.push_body([(it, lines) for it in streams]))
        if moment is None:
            assert client.answer() == (204, b"")
        else:
            time.sleep(moment)
        server.end()
    with servers.Client(serve("log", 4).port) as client:
        found = client.read_all(streams)
    assert all(it in ([lines] if moment is None else [lines, []]) for it in found)
