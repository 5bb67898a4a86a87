"""window [MINUTES [SHARDS MIB]]: whether a server of 8 shards of 128 MiB, or of these, takes for
MINUTES (10) what docs/OPERATING.md says of NEEDLEAZURE_MAX_CHUNK_AGE=10m, while the drain runs each
five minutes. Lines of 200 bytes come at the rate of the sizing table, which plans with half, over a
hundred streams a shard; one shard has a single stream, at all that a shard takes."""
import collections
import threading
import time

import servers
from servers import hold

AGE, WINDOW, BETWEEN, LENGTH, MORE = "10m", 300, 300, 200, 13
# the most lines of a push, and seconds from one push to the next
MOST, PAUSE = 5_000, 0.1


class Load(threading.Thread):
    """Lines at a rate: the streams in turn, each line with the time at which it is due, and what is late is caught up."""

    def __init__(self, work, shards, capacity):
        super().__init__(daemon=True)
        self.work, self.shards, self.capacity = work, shards, capacity
        self.streams = [{"pod": str(it)} for it in range(100 * shards if shards > 1 else 1)]
        # (a shard has room for the window and ten minutes)
        self.rate = (0.5 if shards > 1 else 1) * shards * capacity / (WINDOW + 600) / (LENGTH + MORE)
        self.settings = {"NEEDLEAZURE_MAX_CHUNK_AGE": AGE, "NEEDLEAZURE_CAPACITY": str(capacity)}
        self.server = servers.Server(f"{work}/log", shards, 16, {**servers.allocator(), **self.settings})
        self.start_time, self.pushed, self.late = time.time() - WINDOW - BETWEEN, 0, 0
        self.is_full, self.is_done, self.drained, self.statuses = threading.Event(), False, 0, collections.Counter()

    def entry(self, number):
        return int((self.start_time + number / self.rate) * 1e9), f"{number} ".ljust(LENGTH, "x"), ()

    def run(self):
        with servers.Client(self.server.port) as client:
            while not self.is_done:
                due = int((time.time() - self.start_time) * self.rate)
                if self.is_full.is_set():
                    self.late = max(self.late, (due - self.pushed) / self.rate)
                self.push(client, min(due, self.pushed + MOST))
                if due - self.pushed < self.rate:
                    self.is_full.set()
                    time.sleep(PAUSE)

    def push(self, client, end):
        numbers, count = range(self.pushed, end), len(self.streams)
        values = [(self.streams[at % count], [self.entry(it) for it in numbers[at - self.pushed::count]])
                  for at in numbers[:count]]
        status = client.ask(servers.PUSH, servers.push_body(values))[0]
        self.statuses[status] += 1
        self.pushed = end

    def held(self):
        """The bytes that the fullest shard has of lines, by its share of the streams."""
        counts = collections.Counter(servers.shard_of("t", it, self.shards) for it in self.streams)
        return (self.pushed - self.drained) * (LENGTH + MORE) * max(counts.values()) / len(self.streams)

    def drain(self):
        held, began = self.held(), time.monotonic()
        running = servers.drain(f"{self.work}/log", self.server.port, self.shards, **self.settings)
        said, took = running.communicate()[1], time.monotonic() - began
        lines = int(servers.last_run(f"{self.work}/lines")["lines"])
        self.drained += lines
        what = f"the fullest shard had {held / 1e6:.0f} MB of lines, {100 * held / self.capacity:.0f} % of its room"
        hold(running.returncode == 0, f"{what}; the drain took {lines:,} lines in {took:.1f} s {said[:300]}".strip())

    def judge(self, seconds):
        self.join()
        answers = ", ".join(f"{count:,} answered {status}" for status, count in sorted(self.statuses.items()))
        hold(set(self.statuses) == {204}, f"{self.pushed:,} lines, {self.rate:.0f} a second for {seconds:.0f} s after "
             f"{WINDOW + BETWEEN} s of lines, in pushes of which {answers}")
        hold(self.late < 60, f"no line was pushed later than {self.late:.1f} s after it was due")
        in_files = sum(1 for _ in servers.drained(f"{self.work}/lines"))
        with servers.Client(self.server.port) as client:
            # (a stream is read by itself, so that no more than its lines are in memory)
            left = sum(len(client.read(it)) for it in self.streams)
        is_so = (in_files, in_files + left) == (self.drained, self.pushed)
        hold(is_so, f"{in_files:,} lines are in the files, {left:,} in the server")


def check(work, ends, minutes=10, shards=8, room=128):
    load, seconds = Load(work, int(shards), int(float(room) * 2**20)), 60 * float(minutes)
    ends.callback(load.server.end)
    load.start()
    while not load.is_full.wait(1):
        servers.need(load.is_alive(), "the lines before the run are pushed")
    began, due = time.monotonic(), 0
    while (now := time.monotonic() - began) < seconds:
        if now >= due:
            load.drain()
            due += BETWEEN
        servers.need(load.is_alive(), "lines are pushed all the while")
        time.sleep(1)
    load.is_done = True
    load.judge(seconds)
