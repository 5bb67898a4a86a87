"""metrics_cost: the processor time of deploy/metrics over 16 full shards of 64 MiB, with 10 lines a
push, once of 200 bytes and once of 100 to 300. A first look goes through whole segments; a further
one goes on from where the last one ended, here over a fifteenth of each, as a minute may bring it.
The slots are 2 GiB of temporary files."""
import os
import random
import shutil

import full_shards
from hostile_bytes import TOP, append_bytes, segment_bytes, state_bytes
from servers import hold, write

SHARDS, CAPACITY, LINES, LOOKS = 16, 67_108_864, 10, 5
# (where blocks differ in length, a first look has to read each of half a million places in memory by itself)
MOST = {"first": 0.2, "further": 0.1}
KEY = b"t", b'{a="1"}'


def segment(shard, least, most):
    """A segment, how many blocks it has, and where the gate is that the last fifteenth of it begins with."""
    chosen = random.Random(shard)
    payloads, gate = [state_bytes(2, KEY, 11, (11, b"x"), [(11, b"x")])], 0
    length = len(segment_bytes(b"2", 1, shard, SHARDS, payloads))
    while True:
        entries = [(11, b"x" * chosen.randint(least, most)) for _ in range(LINES)]
        payload = append_bytes(2, KEY, entries)
        length += 5 + len(payload)
        if length > CAPACITY:
            return segment_bytes(b"2", 1, shard, SHARDS, payloads).ljust(CAPACITY, b"\0"), len(payloads), gate
        payloads.append(payload)
        if not gate and length > CAPACITY * 14 // 15:
            gate = length - 6 - len(payload)


def look(folder, places):
    environment = {**os.environ, "CACHE_DIRECTORY": places} if places else {**os.environ}
    return full_shards.used_by([f"{TOP}/deploy/metrics", folder, "9", str(SHARDS)], env=environment)[1]


def set_gates(folder, gates, value):
    for shard, gate in enumerate(gates):
        with open(f"{folder}/shard-{shard:02}-1.wal", "r+b") as file:
            os.pwrite(file.fileno(), value, gate)


def look_again(folder, gates, places):
    """A look at what was appended since one before."""
    set_gates(folder, gates, b"\0")
    shutil.rmtree(places)
    os.mkdir(places)
    look(folder, places)
    set_gates(folder, gates, b"\1")
    return look(folder, places)


def measure(above, least, most):
    folder, places, blocks, gates = f"{above}/slots", f"{above}/places", 0, []
    os.makedirs(folder)
    os.mkdir(places)
    for shard in range(SHARDS):
        written, count, gate = segment(shard, least, most)
        blocks += count
        gates.append(gate)
        write(f"{folder}/shard-{shard:02}-1.wal", written)
        write(f"{folder}/shard-{shard:02}-0.wal", b"")
        os.truncate(f"{folder}/shard-{shard:02}-0.wal", CAPACITY)
    print(f"lines of {least} to {most} bytes, {blocks} blocks:", flush=True)
    found = {"first": [look(folder, None) for _ in range(LOOKS)]}
    found["further"] = [look_again(folder, gates, places) for _ in range(LOOKS)]
    return found


def check(work, _):
    for least, most in ((200, 200), (100, 300)):
        for kind, took in measure(f"{work}/{least}", least, most).items():
            hold(min(took) <= MOST[kind], f"a {kind} look {min(took):.3f} to {max(took):.3f} s of a processor, "
                                          f"at most {MOST[kind]} s are wanted")
        shutil.rmtree(f"{work}/{least}")
