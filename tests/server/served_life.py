"""A server over a folder under clients that push, trim and read, and what may be there after a loss of power. Each
stream belongs to one client, which makes one call on it at a time. So what a stream may have at a moment is what it
had after the last answered call, or after the one that was under way then, and nothing else."""
import collections
import os
import random
import threading
import time

import servers
from order_of_calls import Wrong

CLIENTS, STREAMS = 6, 2
MINUTE = servers.HOUR // 60
# (from one push of a stream to the next)
STEP, OLDEST = 6 * MINUTE, 6 * 24 * 60 * MINUTE


class Call:
    """A call that changes a stream: when it was sent, when it was answered, and what the stream then has."""

    def __init__(self, after):
        self.sent, self.answered, self.after = time.monotonic_ns(), None, after


class Stream:
    """A stream and the calls on it. `first` is what it has before them."""

    def __init__(self, name):
        self.labels, self.first, self.calls, self.time = {"s": name}, [], [], time.time_ns() - OLDEST

    @property
    def kept(self):
        return self.calls[-1].after if self.calls else self.first

    def begin(self, after):
        self.calls.append(Call(after))

    def settle(self, is_made):
        call = self.calls[-1]
        if not is_made:
            call.after = self.calls[-2].after if len(self.calls) > 1 else self.first
        call.answered = time.monotonic_ns()

    def allowed(self, moment):
        """What the stream may have after a loss of power at this moment."""
        kept = self.first
        for it in self.calls:
            if it.sent > moment:
                break
            if it.answered is None or it.answered > moment:
                return [kept, it.after]
            kept = it.after
        return [kept]

    def read_back(self, found):
        """Takes what is read after a start in the place of what is in doubt."""
        if self.calls and self.calls[-1].answered is None:
            self.settle(found == self.calls[-1].after)
        if found != self.kept:
            raise Wrong(f"after a kill {self.labels} has {len(found)} entries in place of {len(self.kept)}")


class Caller(threading.Thread):
    """Makes calls of a life over a connection until the server is gone. `fault` is what was wrong."""

    # how often each call is made
    CALLS = {"push": 70, "trim": 15, "read": 15}

    def __init__(self, life, port, seed):
        super().__init__(daemon=True)
        self.life, self.port, self.draw, self.fault = life, port, random.Random(seed), None

    def run(self):
        try:
            with servers.Client(self.port) as client:
                while True:
                    getattr(self, self.draw.choices([*self.CALLS], [*self.CALLS.values()])[0])(client)
        except OSError as error:
            if not self.life.ends.is_set():
                self.fault = f"a connection ended by itself: {error!r}"
        except Wrong as wrong:
            self.fault = str(wrong)


class Client(Caller):
    def __init__(self, life, port, streams, seed):
        super().__init__(life, port, seed)
        self.streams, self.number = streams, 0

    def entries(self, stream):
        stream.time += STEP
        self.number += 1
        found = []
        for at in range(self.draw.choice([1, 1, 2, 3])):
            length = self.draw.choices([*self.life.lengths], [*self.life.lengths.values()])[0]
            pairs = ((b"trace", b"%x" % self.draw.getrandbits(64)),) if self.draw.randrange(3) == 0 else ()
            found.append((stream.time + at, f"{self.number}.{at} ".ljust(length, "x"), pairs))
        return found

    def push(self, client):
        streams = [it for it in self.draw.sample(self.streams, self.draw.randint(1, STREAMS))
                   if it.time < time.time_ns() - 2 * STEP]
        if not streams:
            return
        bodies = [(it, self.entries(it)) for it in streams]
        for it, entries in bodies:
            it.begin(it.kept + entries)
        status, text = client.ask(servers.PUSH, servers.push_body([(it.labels, entries) for it, entries in bodies]))
        refused = {int(line.split()[1][:-1]) for line in text.decode().splitlines() if line.endswith(": no room")}
        if status not in (204, 507) or (status == 507) != bool(refused):
            raise Wrong(f"a push is answered {status} {text!r}")
        for at, it in enumerate(streams):
            it.settle(at not in refused)
        self.life.counts["pushes"] += len(streams) - len(refused)
        self.life.counts["refused for room"] += len(refused)

    def trim(self, client):
        stream = self.draw.choice(self.streams)
        if not stream.kept:
            return
        bound = stream.kept[-1][0] - servers.HOUR - self.draw.choice([1, 5]) * MINUTE
        before, left = stream.kept, [it for it in stream.kept if it[0] >= bound]
        stream.begin(left)
        status, text = client.trim(stream.labels, bound)
        if (status, text) not in ((200, f'{{"trimmed":{len(before) - len(left)}}}'), (507, "stream 0: no room\n")):
            raise Wrong(f"a trim is answered {status} {text!r}")
        stream.settle(status == 200)
        self.life.counts["trims"] += status == 200 and before != left

    def read(self, client):
        stream = self.draw.choice(self.streams)
        if client.read(stream.labels) != stream.kept:
            raise Wrong(f"a read of {stream.labels} isn't what was answered")


def read_over(folder, shards, capacity, streams):
    """What a server has that starts over a folder: the entries of each of these streams."""
    try:
        with servers.Server(folder, shards, 1, {"NEEDLEAZURE_CAPACITY": str(capacity)}) as server:
            with servers.Client(server.port) as client:
                return client.read_all([it.labels for it in streams])
    except servers.NotStarted as error:
        raise Wrong(f"the server does not start: {error}") from error
    except OSError as error:
        raise Wrong(f"the server ends while it is read: {error}") from error


class ServedLife:
    """A server over the folder `log` of a disk: started, served and killed, once or more."""

    who = "a server"

    def __init__(self, draw, work, settings=None):
        self.draw, self.work, self.settings = draw, work, settings or {}
        self.shards = draw.choice([1, 2, 3])
        self.capacity = draw.choice([81_920, 131_072]) // self.shards
        self.streams = [Stream(str(it)) for it in range(CLIENTS * STREAMS)]
        # (which lengths lines have, and how often)
        self.lengths = {1: 20, 100: 50, 300: 25, 2_000: 5}
        self.is_filled, self.kind = False, "empty slots"
        self.forget()

    def forget(self):
        self.ends, self.counts, self.ready, self.killed = threading.Event(), collections.Counter(), 0, 0

    @property
    def environment(self):
        return {"NEEDLEAZURE_CAPACITY": str(self.capacity), **self.settings}

    def live(self, disk, seconds):
        folder = f"{disk}/log"
        if self.is_filled and not os.path.exists(f"{folder}/shard-00-0.wal"):
            servers.fill_slots(folder, self.shards, self.environment)
        before = self.generations(folder)
        for number in range(self.draw.choice([1, 1, 2])):
            self.serve(folder, seconds, number)
        self.counts["rolls"] += sum(now - max(1, then) for then, now in zip(before, self.generations(folder)) if now)

    def generations(self, folder):
        return [servers.generation(folder, it) for it in range(self.shards)]

    def serve(self, folder, seconds, number):
        self.ends.clear()
        with servers.Server(folder, self.shards, CLIENTS, self.environment) as server:
            with servers.Client(server.port) as client:
                for it, found in zip(self.streams, client.read_all([it.labels for it in self.streams])):
                    self.counts["lines read back"] += len(found)
                    it.read_back(found)
            self.ready = self.ready or time.monotonic_ns()
            clients = [Client(self, server.port, self.streams[at::CLIENTS], self.draw.random()) for at in range(CLIENTS)]
            for it in clients:
                it.start()
            time.sleep(seconds)
            self.ends.set()
            server.end()
            self.killed = time.monotonic_ns()
        for it in clients:
            it.join()
        faults = [it.fault for it in clients if it.fault]
        if faults:
            raise Wrong(f"while it served: {faults[0]}")
        self.counts["kills"] += number > 0

    def answers(self):
        """When calls were answered that changed something."""
        return sorted(it.answered for its in self.streams for it in its.calls if it.answered is not None)

    def judge(self, disk, moment):
        """What is there after a loss of power at this moment, which raises where it may not be."""
        folder = f"{disk}/log"
        os.makedirs(folder, exist_ok=True)
        found, seen = read_over(folder, self.shards, self.capacity, self.streams), collections.Counter()
        for it, its in zip(self.streams, found):
            allowed = it.allowed(moment)
            if its not in allowed:
                raise Wrong(self.difference(it, its, allowed))
            seen["answered entries that were looked for"] += len(allowed[0])
            if len(allowed) > 1 and allowed[0] != allowed[1]:
                seen["calls under way"] += 1
                seen["that are there"] += its == allowed[1]
        return found, seen

    def difference(self, stream, found, allowed):
        if not isinstance(found, list):
            return f"a read of {stream.labels} is answered {found}"
        lost = sum(it not in found for it in allowed[0] if all(it in its for its in allowed))
        more = sum(all(it not in its for its in allowed) for it in found)
        return f"{stream.labels} has {len(found)} entries: {lost} answered ones are lost, {more} should not be there"

    def go_on_from(self, found):
        for it, its in zip(self.streams, found):
            it.first, it.calls = its, []
