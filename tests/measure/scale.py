"""scale: once at a scale that no row has, over the built server, walcat and the drain: a shard with 120,000 lines in
one stream and 25,000 streams, and one with ten streams of 12 MB and a log of more than 100 MB that has rolled, which is
drained. Of both the server is killed and started again, and walcat lists the slot in use. Each line is there once after
each of these. It needs curl and jq, 1 GB of memory, and as much of temporary files."""
import collections
import re
import time

import servers
from servers import hold, need

CAPACITY, LARGE = 64 << 20, 224 << 20
LINES, STREAMS, AT_ONCE, LONG, LONG_LINE, LONG_LINES = 120_000, 25_000, 900, 10, 262_144, 46
MINUTE = 60 * 10**9


class Shard(servers.Server):
    """A server with one shard, a connection to it, and what each stream has."""

    def __init__(self, folder, capacity):
        self.folder, self.there = folder, collections.defaultdict(list)
        settings = {"NEEDLEAZURE_CAPACITY": str(capacity), **servers.allocator()}
        super().__init__(folder, 1, 4, settings)

    def start(self):
        began = time.monotonic()
        super().start()
        self.took, self.client = time.monotonic() - began, servers.Client(self.port, seconds=600)

    def push(self, streams):
        self.client.store(*(({"job": name}, entries) for name, entries in streams))
        for name, entries in streams:
            self.there[name] += entries

    def read_each(self, names):
        """Whether each of these streams has just what was answered."""
        names = list(names)
        for at in range(0, len(names), 50):
            part = names[at:at + 50]
            found = self.client.read_all([{"job": it} for it in part])
            if found != [self.there[it] for it in part]:
                return False
        return True


def push_lines(shard, now):
    entries = [(now + it, f"line {it}", ()) for it in range(LINES)]
    for at in range(0, LINES, 10_000):
        shard.push([("lines", entries[at:at + 10_000])])
    hold(shard.read_each(["lines"]), f"{LINES:,} lines in one stream are read back")


def push_streams(shard, now):
    names = [f"s{it}" for it in range(STREAMS)]
    for at in range(0, STREAMS, AT_ONCE):
        shard.push([(it, [(now, f"of {it}", ())]) for it in names[at:at + AT_ONCE]])
    hold(shard.read_each(names), f"{STREAMS:,} streams, by pushes of {AT_ONCE}, are read back")


def long_push(shard, name, start, count):
    shard.push([(name, servers.lines_from(start, count, LONG_LINE))])


def push_long(shard, now):
    """Long lines, most of them of hours before the last one of their stream."""
    for number in range(LONG):
        name = f"long{number}"
        for at in range(0, LONG_LINES, 15):
            long_push(shard, name, now - 5 * servers.HOUR + at * MINUTE, min(15, LONG_LINES - at))
        long_push(shard, name, now, 1)
    length = 0
    for number in range(LONG):
        status, text = shard.client.ask(servers.READ, servers.read_body({"job": f"long{number}"}))
        length = len(text)
        need(servers.entries_of(status, text) == shard.there[f"long{number}"], "a long read has what was answered")
    hold(length > 10_000_000, f"{LONG} reads of {length:,} bytes have what was answered")


def roll(shard, now):
    """Goes on with a stream whose lines are trimmed, until the log rolls."""
    before, stamp, slowest = servers.generation(shard.folder), now - 150 * servers.HOUR, 0
    while True:
        began = time.monotonic()
        long_push(shard, "rolling", stamp, 15)
        slowest = max(slowest, time.monotonic() - began)
        if servers.generation(shard.folder) > before:
            break
        need(shard.client.trim({"job": "rolling"}, stamp - servers.HOUR)[0] == 200, "a trim is made")
        shard.there["rolling"] = [it for it in shard.there["rolling"] if it[0] >= stamp - servers.HOUR]
        stamp += 2 * servers.HOUR
    hold(shard.read_each(shard.there), f"the log has rolled, and has all lines; the slowest push took {slowest:.2f} s")


def list_slot(path):
    """What walcat says of a slot: where its segment ends, how many streams it names, and how many entries it has."""
    began = time.monotonic()
    status, output, _ = servers.run(["walcat", path, "0", "1"])
    lines, took = output.decode().splitlines(), time.monotonic() - began
    hold(status == 0 and lines[-1].startswith("end "), f"walcat lists it ({took:.2f} s): {lines[0]}, {lines[-1]}")
    rows = [re.fullmatch(r"(?:state|append) (\S+ \{.*\}) (?:highest \d+ )?entries (\d+)|trim .*", it) for it in lines[1:-1]]
    need(all(rows), "each line of it says a record")
    named = [it for it in rows if it[1]]
    return int(lines[-1].split()[1]), len({it[1] for it in named}), sum(int(it[2]) for it in named)


def check_drain(work, shard):
    began, running = time.monotonic(), servers.drain(shard.folder, shard.port, 1)
    said = running.communicate()[1]
    hold(running.returncode == 0, f"drain ends well ({time.monotonic() - began:.0f} s) {said[:300]}")
    taken = collections.defaultdict(list)
    for _, _, it in servers.drained(f"{work}/lines"):
        taken[it["stream"]["job"]].append((int(it["time"]), it["line"], ()))
    due = {name: [it for it in entries if it[0] < entries[-1][0] - servers.HOUR] for name, entries in shard.there.items()}
    count = sum(map(len, taken.values()))
    hold(taken == {name: its for name, its in due.items() if its}, f"it took {count} lines of {len(taken)} streams, each once")
    for name, its in due.items():
        shard.there[name] = shard.there[name][len(its):]
    hold(shard.read_each(shard.there), "and the server has the others")


def start_again(shard, streams, least=0):
    """Kills the server, starts it, and lists the slot in use, which has so many streams."""
    shard.end()
    shard.start()
    hold(shard.read_each(shard.there), f"started again in {shard.took:.2f} s it has all lines")
    slot = servers.slots_of(shard.folder)[servers.generation(shard.folder) % 2]
    end, *found = list_slot(slot)
    is_so = end > least and found == [streams, sum(map(len, shard.there.values()))]
    hold(is_so, f"{end:,} bytes, {found[0]:,} streams, {found[1]:,} entries")


def check(work, _):
    now = time.time_ns()
    with Shard(f"{work}/many", CAPACITY) as shard:
        push_lines(shard, now)
        push_streams(shard, now)
        start_again(shard, STREAMS + 1)
    now = time.time_ns()
    with Shard(f"{work}/large", LARGE) as shard:
        push_long(shard, now)
        roll(shard, now)
        start_again(shard, LONG + 1, 100_000_000)
        check_drain(work, shard)
