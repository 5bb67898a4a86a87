"""clients_check [MINUTES [NUMBER]]: many clients at a time, over a server as `make
run` starts it.

What a push takes, and a connection, is held to bounds beside NUMBER idle connections (10,000), a
quarter of them in the middle of a body; over 1,000 kept clients with a push a second for MINUTES
(10); and beside 1,000 clients that send a byte a second and 100 that never read. With OLD=PATH, a
server program each of whose workers has one connection, it and this one serve wrk in turn, and are
compared by medians of three rounds. It needs as many open files as connections."""
import os
import selectors
import statistics
import subprocess
import time

import full_shards
import servers
from servers import connect, hold

PLACE = servers.memory()
ROUNDS, SECONDS, SHARDS = 3, 3, 8
LOADS = [("one stream", "push.lua", (1, 32, 64, 256)), ("50 streams", "streams.lua", (1, 8, 32))]
NO_CONTENT = b"HTTP/1.1 204 No Content\r\n\r\n"


def push_request(labels):
    return servers.push_request(labels, [servers.entry("x" * 100)])


def push_once(port):
    """For how many seconds a push on a new connection takes."""
    request, began = push_request({"a": "new"}), time.monotonic()
    with connect(port) as it:
        it.sendall(request)
        servers.need(it.recv(4_096) == NO_CONTENT, "a push on a new connection is answered 204")
        return time.monotonic() - began


class Ticking:
    """Kept clients, each of which sends a push a second and waits for its answer."""

    def __init__(self, port, number, name):
        self.clients, self.selector = [connect(port) for _ in range(number)], selectors.DefaultSelector()
        self.found, self.wrong, self.name, self.sent = [], [], name, [None] * number
        for at, it in enumerate(self.clients):
            it.setblocking(False)
            self.selector.register(it, selectors.EVENT_READ, at)

    def run(self, seconds):
        """Runs for this number of seconds: how long each answer took."""
        start, number, at = time.monotonic(), len(self.clients), 0
        while (now := time.monotonic()) < start + seconds + 2:
            # (the clients are spread over each second)
            while now < start + seconds and start + at / number <= now:
                client = at % number
                if self.sent[client] is None:
                    self.sent[client] = time.monotonic()
                    self.clients[client].send(push_request({"a": f"{self.name} {client}"}))
                else:
                    self.wrong.append(f"client {client} is not answered within a second")
                at += 1
            for key, _ in self.selector.select(0.0005):
                said = key.fileobj.recv(4_096)
                if said != NO_CONTENT:
                    self.wrong.append(f"client {key.data}: {said[:100]}")
                    self.selector.unregister(key.fileobj)
                elif self.sent[key.data] is not None:
                    self.found.append(time.monotonic() - self.sent[key.data])
                    self.sent[key.data] = None
        self.wrong += [f"client {client} is not answered" for client, it in enumerate(self.sent) if it is not None]
        return self.found

    def end(self):
        for it in self.clients:
            it.close()


def percentile(found, part=0.99):
    return sorted(found)[min(len(found) - 1, int(len(found) * part))]


def idle(server, number):
    before, kept = server.memory(), []
    for at in range(number):
        it = connect(server.port)
        if at % 4 == 0:
            it.sendall(push_request({"a": "half"})[:-5])
        kept.append(it)
    time.sleep(4)
    took = statistics.median(push_once(server.port) for _ in range(10))
    hold(took <= 0.05, f"beside {number:,} connections a push on a new one takes {took * 1_000:.1f} ms, of 50")
    each = (server.memory() - before) / number
    hold(each <= 10_000, f"each takes {each:,.0f} bytes, of 10,000")
    used = server.processor()
    time.sleep(10)
    used = (server.processor() - used) / 10
    hold(used <= 0.01, f"all of them take {used:.2%} of a processor, of 1 %")
    for it in kept:
        it.close()


def kept(server, minutes):
    clients = Ticking(server.port, 1_000, "kept")
    found = clients.run(60 * minutes)
    clients.end()
    hold(not clients.wrong, f"of 1,000 kept clients none is starved in {minutes} minutes {clients.wrong[:3]}")
    hold(percentile(found) <= 0.05, f"99 of 100 are answered within {percentile(found) * 1_000:.1f} ms, of 50")


def crowd(server):
    others = Ticking(server.port, 100, "other")
    alone = percentile(others.run(20))
    others.found = []
    slow = [connect(server.port) for _ in range(1_000)]
    silent = [connect(server.port) for _ in range(100)]
    ask = servers.request(servers.READ, servers.read_body({"a": "other 0"}))
    for it in silent:
        it.setblocking(False)
        try:
            for _ in range(2_000):
                it.send(ask)
        except BlockingIOError:
            pass
    request, beside = push_request({"a": "slow"}), []
    for second in range(20):
        for it in slow:
            it.send(request[second:second + 1])
        beside += others.run(1)
        others.found = []
    hold(not others.wrong, f"100 others are answered beside them {others.wrong[:3]}")
    beside = percentile(beside)
    hold(beside <= alone + 0.025, f"99 of 100 within {beside * 1_000:.1f} ms, and {alone * 1_000:.1f} ms without them")
    for it in [*slow, *silent]:
        it.close()
    others.end()


def load(program, script, connections, workers):
    """Pushes a second, and microseconds of a processor a push."""
    with servers.room("clients") as folder:
        servers.fill_slots(folder, SHARDS, {})
        with servers.Server(folder, SHARDS, workers, servers.allocator(), executable=program) as server:
            before = server.processor()
            pushes, _ = full_shards.wrk(server.port, script, connections, SECONDS)
            used = server.processor() - before
    return pushes, 1e6 * used / (pushes * SECONDS)


def beside(old):
    new, before = servers.program("ingesterd"), 0
    for name, script, numbers in LOADS:
        for connections in numbers:
            found, what = {new: [], old: []}, f"{name}, {connections} connections"
            for turn in range(ROUNDS):
                for program in [new, old] if turn % 2 else [old, new]:
                    if connections <= 64 or program == new:
                        workers = full_shards.WORKERS if program == new else connections
                        found[program].append(load(program, script, connections, workers))
            pushes, used = (statistics.median(it[at] for it in found[new]) for at in (0, 1))
            if connections > 64:
                hold(pushes > before, f"{what}: {pushes:,.0f} pushes a second, and {before:,.0f} of the old one at 64")
                continue
            before, took = (statistics.median(it[at] for it in found[old]) for at in (0, 1))
            rates = f"{pushes:,.0f} pushes a second, of {before:,.0f}: {pushes / before:.2f}"
            hold(pushes >= 0.97 * before, f"{what}: {rates}")
            hold(used <= 1.05 * took, f"{what}: {used:.0f} us of a processor a push, of {took:.0f}: {used / took:.2f}")


def check(work, _, minutes=10, number=10_000):
    minutes, number = float(minutes), int(number)
    hard = servers.allow_many_files()
    hold(hard > number + 500, f"there may be {hard:,} open files")
    settings = {**servers.allocator(), "NEEDLEAZURE_OPEN_CONNECTIONS": str(number + 100)}
    parts = [lambda it: idle(it, number), lambda it: kept(it, minutes), crowd]
    for at, part in enumerate(parts):
        with servers.Server(f"{work}/{at}", SHARDS, full_shards.WORKERS, settings, stderr=subprocess.DEVNULL) as it:
            part(it)
    if old := os.environ.get("OLD"):
        beside(old)
