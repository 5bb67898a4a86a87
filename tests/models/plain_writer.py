"""A plain writer of files, held to the disk model of docs/DEFINITIONS.md after a loss of power:
between two syncs each written range and all past the length at the first may hold any bytes, and
the length is any from that one to the greatest since. All else is as it was."""
import collections
import concurrent.futures
import itertools
import os
import pathlib
import random
import time

from crash_images import Slot
from order_of_calls import Wrong

FILES, MOST = 6, 131_072


class Write:
    """A write or a sync: when it was begun, and when it was done."""

    def __init__(self, at=0, data=None):
        self.at, self.data, self.begun, self.done = at, data, time.monotonic_ns(), None


class File:
    """A file, its calls, and the moment from which it has to be there."""

    def __init__(self, name):
        self.name, self.first, self.calls, self.made = name, b"", [], None

    def sight(self, moment):
        it = Slot(self.first)
        for call in itertools.takewhile(lambda call: call.begun <= moment, self.calls):
            if call.data is not None:
                it.begin(call.at, call.data)
                it.put(call.at, call.data)
            elif call.done is not None and call.done <= moment:
                it.keep()
        return it

    def hold(self, found, moment):
        if found is None:
            if self.made is not None and self.made <= moment:
                raise Wrong(f"{self.name} is not there")
            return collections.Counter()
        its = self.sight(moment)
        if not len(its.kept) <= len(found) <= its.longest:
            raise Wrong(f"{self.name} has {len(found)} bytes, in place of {len(its.kept)} to {its.longest}")
        due, there = bytearray(its.kept), bytearray(found[:len(its.kept)])
        for start, data in its.pending:
            end = min(start + len(data), len(due))
            if start < end:
                due[start:end] = there[start:end] = bytes(end - start)
        if due != there:
            at = next(at for at, pair in enumerate(zip(due, there)) if pair[0] != pair[1])
            raise Wrong(f"{self.name} has another byte at {at}, which was synced and not written since")
        return collections.Counter({"synced bytes that were looked for": len(due),
                                    "files with writes under way": bool(its.pending)})


class WrittenLife:
    """Files in a folder of a disk that threads write and sync."""

    who = "a plain writer"

    def __init__(self, draw, work, settings=None):
        self.draw, self.files = draw, [File(f"file-{it}") for it in range(FILES)]
        self.leaves_out = int((settings or {}).get("BREAK_SYNC", 0))
        self.is_filled, self.kind = False, "empty files"
        self.forget()

    def forget(self):
        self.counts, self.ready, self.killed, self.syncs = collections.Counter(), 0, 0, 0

    def live(self, disk, seconds):
        folder = f"{disk}/log"
        self.make_files(folder)
        self.ready = time.monotonic_ns()
        ends = self.ready + int(seconds * 1e9)
        draws = [random.Random(self.draw.random()) for _ in self.files]
        with concurrent.futures.ThreadPoolExecutor(FILES) as pool:
            list(pool.map(lambda it, draw: self.write(folder, it, ends, draw), self.files, draws))
        self.killed = time.monotonic_ns()

    def make_files(self, folder):
        """Makes what isn't there, for good."""
        os.makedirs(folder, exist_ok=True)
        for it in self.files:
            with open(f"{folder}/{it.name}", "ab", buffering=0) as file:
                if self.is_filled and not file.tell():
                    self.put(it, file.fileno(), 0, bytes(MOST))
                self.sync(it, file.fileno())
        for path in (folder, os.path.dirname(folder)):
            number = os.open(path, os.O_RDONLY)
            os.fsync(number)
            os.close(number)
        for it in self.files:
            it.made = it.made or time.monotonic_ns()

    def put(self, file, number, at, data):
        file.calls.append(Write(at, data))
        os.pwrite(number, data, at)
        file.calls[-1].done = time.monotonic_ns()

    def sync(self, file, number):
        file.calls.append(Write())
        self.syncs += 1
        if not self.leaves_out or self.syncs % self.leaves_out:
            os.fdatasync(number)
        file.calls[-1].done = time.monotonic_ns()

    def write(self, folder, it, ends, draw):
        number = os.open(f"{folder}/{it.name}", os.O_RDWR)
        length = os.fstat(number).st_size
        while time.monotonic_ns() < ends:
            for _ in range(draw.choice([1, 1, 2, 4])):
                count = draw.choice([1, 1, 100, 700, 5_000])
                is_appended = draw.randrange(2) and length + count <= MOST
                at = length if is_appended else draw.randint(0, max(0, min(length, MOST - count)))
                self.put(it, number, at, draw.randbytes(count))
                length = max(length, at + count)
                self.counts["writes"] += 1
            self.sync(it, number)
            self.counts["syncs"] += 1
        os.close(number)

    def answers(self):
        return sorted(call.done for it in self.files for call in it.calls if call.data is None and call.done)

    def judge(self, disk, moment):
        seen, found = collections.Counter(), []
        for it in self.files:
            path = pathlib.Path(f"{disk}/log/{it.name}")
            data = path.read_bytes() if path.exists() else None
            seen.update(it.hold(data, moment))
            found.append(data)
        return found, seen

    def go_on_from(self, found):
        for it, data in zip(self.files, found):
            it.first, it.calls = data or b"", []
            it.made = 0 if data is not None else None
