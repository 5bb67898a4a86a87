"""gateway_speed [SECONDS]: pushes a second, and the processor time of one, through the gateway and of the server alone.

1,000 pushes of ten lines of one stream (2 KB) over 32 connections, and 50 of 20 lines of each of 50 streams (207 KB)
over 8, in each form, by wrk, in turn, three times, each run over a new server of 8 shards. It prints medians, and what
the server alone makes over what all make together. It needs wrk, protoc, python3-protobuf and python3-snappy."""
import collections
import gzip
import os
import random
import shutil
import statistics
import time

import full_shards
import servers
import snappy
from gateway_bodies import Writer, load_messages
from gateway_runs import Gateway

PLACE = os.environ.get("TMPDIR", servers.TOP)
ROUNDS = 3
# of a shard: for some 10,000 of the large pushes
ROOM = 256 << 20
WORDS = [f"{number:x}" for number in range(1000, 3000)]
PROTOBUF, JSON = "application/x-protobuf", "application/json"
# how many pushes there are, of how many streams and lines of each, and over how many connections
SIZES = {"2-KB": (1000, 1, 10, 32), "207-KB": (50, 50, 20, 8)}
# what is pushed, in which form, whether through the gateway, and the words of the form
WAYS = [("the server alone, JSON", "json", False, [JSON]),
        ("the gateway, JSON", "json", True, [JSON]),
        ("the gateway, gzip'd JSON", "gzip", True, [JSON, "gzip"]),
        ("the gateway, Protobuf", "protobuf", True, [PROTOBUF])]


class Maker:
    """Makes pushes of a size, each line at a time of its own."""

    def __init__(self, messages):
        self.draw, self.now, self.count = random.Random(1), time.time_ns(), 0
        self.writer = Writer(messages, self.draw)

    def line(self):
        self.count += 1
        line = "level=info caller=" + " ".join(self.draw.choice(WORDS) for _ in range(40))
        return self.now + self.count, line[:200].encode(), {}

    def streams(self, at, count, lines):
        labels = [{b"job": b"load", b"pod": b"pod-%d" % ((at * count + it) % 64)} for it in range(count)]
        return [(it, [self.line() for _ in range(lines)]) for it in labels]

    def write(self, work, size):
        bodies, streams, lines, _ = SIZES[size]
        forms = collections.defaultdict(list)
        for at in range(bodies):
            pushed = self.streams(at, streams, lines)
            text = self.writer.json(pushed)
            forms["json"].append(text)
            forms["protobuf"].append(snappy.compress(self.writer.protobuf(pushed)))
            forms["gzip"].append(gzip.compress(text, 6))
        for name, made in forms.items():
            servers.write(f"{work}/{size}-{name}", b"".join(b"%d\n" % len(it) + it for it in made))


def run(work, size, way, seconds):
    """Pushes a second, the 99th percentile, and microseconds of a processor that a push takes of each program."""
    form, is_through, words = way
    settings = {"NEEDLEAZURE_CAPACITY": str(ROOM), **servers.allocator()}
    with servers.Server(f"{work}/log", 8, full_shards.WORKERS, settings) as server, Gateway(server) as gateway:
        port = gateway.port if is_through else server.port
        path = f"{work}/{size}-{form}"
        rate, late = full_shards.wrk(port, "push.lua", SIZES[size][3], seconds, path, *words, timeout=30)
        found = rate, late, *(it.processor() / (rate * seconds) * 1e6 for it in (server, gateway))
    shutil.rmtree(f"{work}/log")
    return found


def show(size, found):
    rows = [(name, *map(statistics.median, zip(*runs))) for name, runs in found.items()]
    _, alone, _, processor, _ = rows[0]
    print(f"\n| {size.replace('-', ' ') + ' pushed to':26} | pushes/s | of the server alone | 99th percentile "
          "| server a push | gateway a push | processor, server alone over all |")
    for name, pushes, late, server, gateway in rows:
        gateway = 0 if name == rows[0][0] else gateway
        print(f"| {name:26} | {pushes:8,.0f} | {pushes / alone:19.2f} | {late:12.1f} ms | {server:10.0f} us "
              f"| {gateway:11.0f} us | {processor / (server + gateway):33.2f} |", flush=True)


def check(work, _, seconds=3):
    maker = Maker(load_messages(work))
    for size in SIZES:
        maker.write(work, size)
        found = collections.defaultdict(list)
        for _ in range(ROUNDS):
            for name, *way in WAYS:
                found[name].append(run(work, size, way, int(seconds)))
        show(size, found)
