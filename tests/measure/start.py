"""start [MB [SHARDS [SERVER ..]]]: how long a server takes to be ready over shards that a server filled.

A server with SHARDS shards (16) is pushed to until the segment of each has MB million bytes (42), and is killed. Then
servers are started over the files: crates/ingesterd/out/ingesterd, or each SERVER in turn, which have to take the same
slots. At last `cat` reads the same segments. Each of it is done with the files in the system's cache and without, and
the figures are medians of RUNS. Only these files are dropped from the cache; the disk may have one of its own."""
import functools
import os
import statistics
import time

import full_shards
import servers

RUNS = 3
CACHES = [("in the cache", full_shards.take_into_cache), ("not in the cache", full_shards.drop_from_cache)]


def fill(folder, megabytes, count, settings, how):
    """Fills the shards, and tells how much memory the server had at the end."""
    with servers.Server(folder, count, full_shards.WORKERS, settings, **how) as server:
        first = int(time.time()) - 100 * 3600
        fillings = [full_shards.Filling(server.port, it, count, first, 1) for it in range(count)]
        for _ in range(max(1, round(megabytes * 1e6 / fillings[0].size))):
            servers.need(full_shards.push_each(fillings) == fillings, "each shard has room")
        return server.memory()


def measure(slots, runs):
    found = {}
    for _ in range(RUNS):
        for words, prepare in CACHES:
            for name, run in runs.items():
                prepare(slots)
                found.setdefault(f"{name}, files {words}", []).append(run())
    return found


def table(found, length):
    yield "| What | Seconds | MB/s of segments | Processor seconds | Most memory, MB | Memory when ready, MB |"
    yield "|---|---|---|---|---|---|"
    for name, runs in found.items():
        took, processor, *memory = map(statistics.median, zip(*runs))
        most, ready = (f"{it / 1e6:,.0f}" for it in memory) if memory else ("not measured",) * 2
        yield f"| {name} | {took:.2f} | {length / took / 1e6:,.0f} | {processor:.2f} | {most} | {ready} |"


def check(folder, _, megabytes=42, count=16, *programs):
    megabytes, count = float(megabytes), int(count)
    programs = [*map(os.path.abspath, programs)] or [servers.program("ingesterd")]
    mib = min(1024, max(64, int(megabytes * 1.1e6) // 2**20 + 1))
    settings = full_shards.settings_for(mib)
    servers.fill_slots(folder, count, settings)
    memory = fill(folder, megabytes, count, settings, {"executable": programs[0]})
    slots = full_shards.slots_in_use(folder, count)
    ends = list(map(full_shards.end_of, slots))
    start = functools.partial(full_shards.start, folder, count, settings)
    names = programs if len(programs) > 1 else ["a start"]
    found = measure(slots, {name: functools.partial(start, executable=it) for name, it in zip(names, programs)})
    for slot, end in zip(slots, ends):
        os.truncate(slot, end)
    found.update(measure(slots, {"`cat` of the segments": lambda: full_shards.used_by(["cat", *slots])}))
    print(f"{count} shards of {mib} MiB with {sum(ends) / 1e6:,.0f} MB of segments; the server that wrote them had "
          f"{memory / 1e6:,.0f} MB of memory at its end:\n", *table(found, sum(ends)), sep="\n", flush=True)
