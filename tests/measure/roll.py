"""roll [MIB ..]: how long a push takes that begins the next segment of a full shard, beside a usual one.

For each capacity (64 and 1,024 MiB) a server with one shard is filled by pushes of 15 lines of 260,000 bytes. Then
the oldest lines are trimmed and a push is made in their place, until five have begun a segment. At last it is started
again."""
import statistics
import time

import full_shards
import servers

LINE, LINES, ROLLS = 260_000, 15, 5
# (from one push to the next, so that there is something to trim: a trim leaves the last hour)
STEP, DAYS = 15 * 60, 6 * 24 * 3_600


def measure(folder, mib):
    settings, rolling = full_shards.settings_for(mib), []
    with servers.Server(folder, 1, 1, settings) as server:
        first, how = int(time.time()) - DAYS, {"streams": 1, "lines": LINES, "lengths": (LINE, LINE)}
        filling = full_shards.Filling(server.port, 0, 1, first, STEP, **how)
        # (the first push of all began the first segment)
        _, *usual = (took for took, _ in full_shards.pushes(filling, folder))
        while len(rolling) < ROLLS:
            filling.trim()
            for took, is_roll in full_shards.pushes(filling, folder):
                (rolling if is_roll else usual).append(took)
        memory = server.memory("VmHWM")
    took, _, replayed, _ = full_shards.start(folder, 1, settings)
    print(f"{mib} MiB: {len(usual)} usual pushes of 3.9 MB {statistics.median(usual):.2f} s, at most {max(usual):.2f} s; "
          f"{len(rolling)} that began a segment {min(rolling):.2f} to {max(rolling):.2f} s; memory {memory / 1e6:.0f} MB; "
          f"a start over it {took:.2f} s, memory {replayed / 1e6:.0f} MB", flush=True)


def check(work, _, *mibs):
    for mib in map(int, mibs or [64, 1024]):
        measure(f"{work}/{mib}", mib)
