"""default_shards [SERVER]: what the number of shards costs where all of them together have room for 1 GiB.

16 shards of 64 MiB, 8 of 128 MiB and 4 of 256 MiB are measured in turn, ROUNDS times: under wrk with a worker for each
connection; by pushes until no shard has room, and then by trims and pushes of one, until ROLLS of them have begun a
segment; and at a start over the full shards, with their files in the system's cache. Prints a table of the medians; of
the pushes that began a segment, of the longest in a round. It takes five minutes at most on a quiet machine, and 6 GiB
of temporary files."""
import os
import statistics
import sys
import time

import full_shards
import servers

SHARINGS = [(16, 64), (8, 128), (4, 256)]
LOADS = [("one stream", "push.lua", 1), ("one stream", "push.lua", 32),
         ("50 streams", "streams.lua", 1), ("50 streams", "streams.lua", 8)]
ROUNDS, SECONDS, ROLLS = 3, 2, 3
# (from one push to the next, so that there is something to trim: a trim leaves the last hour)
STEP = 180


def roll(filling, folder):
    """How long the slowest of ROLLS pushes took that began a segment."""
    found, cycles = [], 0
    while len(found) < ROLLS:
        cycles += 1
        servers.need(cycles <= 10 * ROLLS, "pushes to a full shard begin segments")
        filling.trim()
        found += [took for took, is_roll in full_shards.pushes(filling, folder) if is_roll]
    return max(found)


class Sharing:
    """A folder with `count` shards, each with room for `mib` MiB, and what was measured over it, by its name."""

    def __init__(self, above, count, mib, how):
        self.folder, self.count, self.mib, self.how = f"{above}/{count}", count, mib, how
        self.settings, self.found = full_shards.settings_for(mib), {}
        servers.fill_slots(self.folder, count, self.settings)

    def serve(self, workers):
        return servers.Server(self.folder, self.count, workers, self.settings, **self.how)

    def note(self, name, value):
        self.found.setdefault(name, []).append(value)

    def push(self, body, script, connections):
        full_shards.close_slots(self.folder, self.count)
        with self.serve(connections) as server:
            rate, high = full_shards.wrk(server.port, script, connections, SECONDS)
        name = f"{body}, {connections} connection{'s' * (connections > 1)}"
        self.note(f"{name}: pushes a second", rate)
        self.note(f"{name}: 99th percentile, ms", high)

    def fill(self):
        full_shards.close_slots(self.folder, self.count)
        with self.serve(full_shards.WORKERS) as server:
            first = int(time.time()) - 160 * 3600
            fillings = [full_shards.Filling(server.port, it, self.count, first, STEP) for it in range(self.count)]
            left = fillings
            while left:
                left = full_shards.push_each(left)
            took = roll(fillings[0], self.folder)
        self.note("longest push that begins a segment of a full shard, s", took)

    def start(self):
        full_shards.take_into_cache(full_shards.slots_in_use(self.folder, self.count))
        took, _, memory, _ = full_shards.start(self.folder, self.count, self.settings, **self.how)
        self.note("a start over full shards, s", took)
        self.note("most memory in that start, MB", memory / 1e6)

    def measure(self):
        for it in LOADS:
            self.push(*it)
        self.fill()
        self.start()


def table(sharings):
    yield f"| What | {' | '.join(f'{it.count} shards of {it.mib} MiB' for it in sharings)} |"
    yield "|---" * (1 + len(sharings)) + "|"
    for name in sharings[0].found:
        medians = [statistics.median(it.found[name]) for it in sharings]
        yield f"| {name} | {' | '.join(f'{it:,.0f}' if it >= 100 else f'{it:.2f}' for it in medians)} |"


def check(above, _, program=servers.program("ingesterd")):
    how, began = {"executable": os.path.abspath(program)}, time.monotonic()
    sharings = [Sharing(above, count, mib, how) for count, mib in SHARINGS]
    for number in range(ROUNDS):
        for it in sharings:
            it.measure()
            took = time.monotonic() - began
            print(f"round {number + 1}, {it.count} shards: {took:.0f} s", file=sys.stderr, flush=True)
    print(*table(sharings), sep="\n", flush=True)
