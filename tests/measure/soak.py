"""soak [MINUTES]: a server under a steady load, for MINUTES (2).

Four processes push 1,500 times a second, 20 lines of 400 bytes each, whose times run fast, and trim each stream by
each quarter of an hour of theirs: so each shard is three quarters full, and logs roll again and again. Memory, its
greatest in ten seconds, may grow by a tenth after the first minute, and the 99.9th percentile of a push, the median
over slices of ten seconds, by half or by 2 ms from the first half of the time to the second. There have to be enough
pushes and rolls, and all are answered well."""
import multiprocessing
import os
import statistics
import time

import servers

PLACE = os.environ.get("MEASURE_DIR", servers.memory())
SHARDS, PROCESSES, STREAMS, PACE = 4, 4, 2, 1_500
LINES, LENGTH, SLICE = 20, 400, 10
QUARTER = servers.HOUR // 4


class Load:
    def __init__(self, port, number, step):
        self.clients, self.step, self.pushes = [servers.Client(port) for _ in range(STREAMS)], step, 0
        shards = [(number * STREAMS + it) % SHARDS for it in range(STREAMS)]
        self.labels = [next(servers.labels_in(it, SHARDS, name=f"p{number}")) for it in shards]
        # (they don't reach the clock)
        self.fronts = [time.time_ns() - 166 * servers.HOUR for _ in shards]
        self.dues = [it + servers.HOUR + QUARTER for it in self.fronts]

    def turn(self, at):
        """A push on a stream, and a trim where it is due: how long the push took, and whether both were answered well."""
        self.pushes += 1
        self.fronts[at] += self.step
        line = f"{self.pushes} ".ljust(LENGTH, "x")
        began = time.monotonic()
        status = self.clients[at].push(self.labels[at], [(self.fronts[at] + it, line, ()) for it in range(LINES)])[0]
        took, trimmed = time.monotonic() - began, 200
        if self.fronts[at] >= self.dues[at]:
            self.dues[at] += QUARTER
            trimmed = self.clients[at].trim(self.labels[at], self.fronts[at] - servers.HOUR)[0]
        return took, (status, trimmed) == (204, 200)

    def is_full(self):
        return all(front + QUARTER >= due for front, due in zip(self.fronts, self.dues))


def work(number, port, step, seconds, barrier, ends):
    """A process: fills its streams, waits for the others, pushes, and tells how long each took."""
    load, wrong, slices = Load(port, number, step), 0, [[] for _ in range(int(seconds) // SLICE + 1)]
    while not load.is_full():
        wrong += not load.turn(load.pushes % STREAMS)[1]
    barrier.wait()
    began, due = time.monotonic(), 0
    while (now := time.monotonic() - began) < seconds:
        if now < due:
            time.sleep(due - now)
        # (what is late is not caught up)
        due = max(due, now) + PROCESSES / PACE
        took, is_well = load.turn(load.pushes % STREAMS)
        wrong += not is_well
        slices[int(now) // SLICE].append(took)
    ends.put((wrong, slices))


def high(times):
    return sorted(times)[len(times) * 999 // 1_000] * 1_000


def run(folder, server, seconds, step):
    """What each process told, how much memory the server had at which second, and how many rolls there were."""
    barrier, ends = multiprocessing.Barrier(PROCESSES + 1), multiprocessing.Queue()
    for number in range(PROCESSES):
        its = number, server.port, step, seconds, barrier, ends
        multiprocessing.Process(target=work, args=its, daemon=True).start()
    barrier.wait()
    generations = lambda: sum(servers.generation(folder, it) for it in range(SHARDS))
    rolls, began, memory = generations(), time.monotonic(), []
    while (now := time.monotonic() - began) < seconds:
        memory.append((now, server.memory()))
        time.sleep(0.2)
    found = [ends.get(timeout=60) for _ in range(PROCESSES)]
    return found, memory, generations() - rolls


def judge(found, memory, rolls, seconds):
    slices = [sum((it[1][at] for it in found), []) for at in range(len(found[0][1]))]
    slices = [it for it in slices if len(it) > 1_000]
    count, wrong, first = sum(map(len, slices)), sum(it[0] for it in found), min(60, seconds / 2)
    halves = [statistics.median(map(high, it)) for it in (slices[:len(slices) // 2], slices[len(slices) // 2:])]
    length = min(SLICE, first)
    early, late = (max(bytes_ for at, bytes_ in memory if end - length <= at < end) / 1e6 for end in (first, seconds))
    print(f"{count:,} pushes in {seconds:.0f} s, {wrong} answered otherwise; {rolls} rolls; memory {early:.1f} MB after "
          f"{first:.0f} s and {late:.1f} MB at the end; 99.9th percentile of a push {halves[0]:.1f} ms in the first half and "
          f"{halves[1]:.1f} ms in the second, slices {min(map(high, slices)):.1f} to {max(map(high, slices)):.1f} ms", flush=True)
    servers.hold(not wrong, "each push is answered 204, and each trim 200")
    servers.hold(late <= 1.1 * early, "memory does not grow")
    servers.hold(halves[1] <= max(1.5 * halves[0], halves[0] + 2), "pushes do not become slower")
    servers.hold(count >= 1_000 * seconds and rolls >= 20 * SHARDS, "there were enough pushes and rolls")


def check(folder, _, minutes=2):
    seconds, capacity = 60 * float(minutes), int(max(8, 2 * float(minutes)) * 2**20)
    settings = {"NEEDLEAZURE_CAPACITY": str(capacity), **servers.allocator()}
    with servers.Server(folder, SHARDS, PROCESSES * STREAMS, settings) as server:
        # (an hour and a quarter of its streams fills three quarters of a shard)
        hour = 0.75 * capacity / 1.25 / (PROCESSES * STREAMS / SHARDS)
        found = run(folder, server, seconds, int(servers.HOUR * LINES * (LENGTH + 13) / hour))
    judge(*found, seconds)
