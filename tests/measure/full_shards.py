"""Shards that a server fills by pushes, their slots in the system's cache or not, and a start over them."""
import itertools
import mmap
import os
import random
import re
import shutil
import string
import subprocess
import time

import servers
from segments import generation_of

# (as `make run` has it)
WORKERS = int(servers.setting_of("WORKERS"))
STREAMS, LINES, LEAST, MOST = 50, 10, 100, 300
HEADER = 21
MILLISECONDS = {"us": 0.001, "ms": 1, "s": 1_000}
# stands in a push for its second
SECOND = "##########"


def settings_for(mib):
    """The environment of a server whose shards have this room, with the allocator that `make run` gives it."""
    return {"NEEDLEAZURE_CAPACITY": str(mib << 20), **servers.allocator()}


class Filling:
    """Pushes to a shard over a connection of its own, a step of seconds from one to the next. Each
    has so many lines of so many streams, which are the same in each push."""

    def __init__(self, port, shard, count, first, step, streams=STREAMS, lines=LINES, lengths=(LEAST, MOST)):
        self.client, self.first, self.next, self.step = servers.Client(port, seconds=600), first, first, step
        self.labels = list(itertools.islice(servers.labels_in(shard, count), streams))
        chosen = random.Random(shard)
        words = "".join(chosen.choices(string.ascii_lowercase + " ", k=max(100_000, 2 * lengths[1])))
        bodies, self.size = [], 0
        for labels in self.labels:
            places = [(chosen.randrange(len(words) - lengths[1]), chosen.randint(*lengths)) for _ in range(lines)]
            bodies.append((labels, [(f"{SECOND}{it:09}", words[at:at + of], ()) for it, (at, of) in enumerate(places)]))
            self.size += sum(13 + of for _, of in places)
        self.request = servers.request(servers.PUSH, servers.push_body(bodies))

    def send(self):
        self.client.ends.sendall(self.request.replace(SECOND.encode(), b"%d" % self.next))

    def is_taken(self):
        """Whether there was room for the push that was sent."""
        status, text = self.client.answer()
        servers.need(status in (204, 507), f"a push is answered {status} {text[:200]}")
        if status == 204:
            self.next += self.step
        return status == 204

    def push(self):
        self.send()
        return self.is_taken()

    def trim(self):
        """Takes away what was pushed first of what is there."""
        self.first += self.step
        for it in self.labels:
            status, text = self.client.trim(it, self.first * 10**9)
            servers.need(status == 200, f"a trim is answered {status} {text}")


def pushes(filling, folder):
    """Pushes until there is no room: of each push how long it took, and whether it began a segment."""
    while True:
        before, began = servers.generation(folder), time.monotonic()
        if not filling.push():
            return
        yield time.monotonic() - began, servers.generation(folder) > before


def wrk(port, script, connections, seconds, *words, timeout=2):
    """Has wrk push by a script: pushes a second, and the 99th percentile of one in milliseconds."""
    words = ["wrk", f"-t{min(2, connections)}", f"-c{connections}", f"-d{seconds}", f"-T{timeout}s", "--latency", "-s",
             f"{servers.TOP}/tests/measure/{script}", f"http://127.0.0.1:{port}{servers.PUSH}", "--", *words]
    said = subprocess.run(words, capture_output=True, text=True, check=True).stdout
    servers.need("refused: 0, errors of sockets: 0" in said, f"each push of wrk is answered 204\n{said}")
    number, unit = re.search(r"99% +([\d.]+)(us|ms|s)", said).groups()
    return float(re.search(r"Requests/sec: +([\d.]+)", said)[1]), float(number) * MILLISECONDS[unit]


def push_each(fillings):
    """Pushes to these shards side by side. Returns those that had room."""
    for it in fillings:
        it.send()
    return [it for it in fillings if it.is_taken()]


def close_slots(folder, count):
    """Makes the shards new ones, whose slots keep their length."""
    for path in itertools.chain.from_iterable(servers.slots_of(folder, it) for it in range(count)):
        with open(path, "r+b") as file:
            file.write(b"\0")


def slots_in_use(folder, count):
    newest = lambda slot: generation_of(servers.bytes_of(slot, HEADER))
    return [max(servers.slots_of(folder, it), key=newest) for it in range(count)]


def end_of(slot):
    with open(slot, "rb") as file, mmap.mmap(file.fileno(), 0, prot=mmap.PROT_READ) as data:
        at = HEADER
        while data[at] == 1:
            at += 5 + int.from_bytes(data[at + 1:at + 5], "little")
        return at + 1


def take_into_cache(slots):
    subprocess.run(["cat", *slots], stdout=subprocess.DEVNULL, check=True)


def drop_from_cache(slots):
    """Has the system forget these files alone, and looks whether it did where `fincore` is installed."""
    for slot in slots:
        with open(slot, "rb") as file:
            os.fsync(file.fileno())
            os.posix_fadvise(file.fileno(), 0, 0, os.POSIX_FADV_DONTNEED)
    if shutil.which("fincore"):
        words = ["fincore", "--bytes", "--noheadings", "--output", "RES", *slots]
        said = subprocess.run(words, capture_output=True, check=True).stdout
        servers.need(not sum(map(int, said.split())), "files that were dropped are not in the cache")


def used_by(words, **how):
    began = time.monotonic()
    running = subprocess.Popen(words, stdout=subprocess.DEVNULL, stderr=subprocess.DEVNULL, **how)
    _, running.returncode, used = os.wait4(running.pid, 0)
    servers.need(not running.returncode, f"{words[0]} ends with {running.returncode}")
    return time.monotonic() - began, used.ru_utime + used.ru_stime


def start(folder, count, settings, **how):
    """Seconds until a server is ready, those of a processor, its most memory till then, and now."""
    began = time.monotonic()
    with servers.Server(folder, count, WORKERS, settings, **how) as server:
        return time.monotonic() - began, server.processor(), server.memory("VmHWM"), server.memory()
