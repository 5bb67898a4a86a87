"""How deploy/sweep reads streams from a server, by ranges of time where they are long, writes their lines to files, and trims
them: in the form of the files of needleazure-drain."""
import collections
import fcntl
import http.client
import json
import math
import os
import re
import struct
import subprocess
import sys
import threading
import time
import zlib

SECOND, EVER = 10**9, 2**63 - 1
# bytes of an answer (a longer one is asked for by shorter ranges of time), bytes written between two syncs
PIECE, BATCH = 4 << 20, 16 << 20
# a shorter range of time is not cut in two, and few lines are as much older than the newest
NARROW, LONG_AGO = SECOND // 1000, 48 * 3600 * SECOND
# how many lines a run says of one kind of fault
MOST_SAID = 10
HEAD = struct.Struct("<B3sBQII")
RECORD = re.compile(rb"(?:state|append) ([A-Za-z0-9_-]+) (\{.*\}) (?:highest ([0-9]+) )?entries ([0-9]+)\n", re.DOTALL)
LABEL = re.compile(r'([^=,{} ]+)="((?:[^"\\]|\\.)*)"')
encode = json.JSONEncoder(ensure_ascii=False, separators=(",", ":")).encode


class Fault(Exception):
    """What ends the run."""


class Refused(Exception):
    """What the server answers of a stream that it doesn't read or trim."""


class Unreachable(Exception):
    """Why a connection is given no answer."""


# ---- where lines go ------------------------------------------------------------------------------------------------

class Files:
    """Lines in files of a folder: `put` takes lines of a stream, in rising time, and may keep them back; after `flush` all
    that was put is kept for good, and may be trimmed. One thread at a time calls them. What they raise ends the run, and
    nothing is trimmed that was put since the last flush. `size` is how many bytes were put since the last flush, `lines` and
    `bytes` how many were flushed in all."""

    def __init__(self, folder):
        self.folder, self.days = folder, collections.defaultdict(list)
        self.size, self.lines, self.bytes = 0, 0, 0

    def put(self, tenant, labels, values):
        head = f'{{"stream":{encode(labels)},"time":"'
        for stamp, line, *metadata in values:
            more = f',"metadata":{encode(metadata[0])}' if metadata else ""
            text = f'{head}{stamp}","line":{encode(line)}{more}}}\n'
            self.days[tenant, int(stamp) // SECOND // 86400].append(text)
            self.size += len(text)

    def flush(self):
        for (tenant, day), texts in self.days.items():
            name = time.strftime("%Y-%m-%d", time.gmtime(day * 86400))
            self.append(f"{self.folder}/{tenant}", f"{name}.jsonl.gz", "".join(texts).encode())
            self.lines += len(texts)
        self.days.clear()
        self.size = 0

    def append(self, folder, name, text):
        """Adds to a file. Its length stands beside it: what stands after that was cut off by a kill, and goes."""
        if not os.path.isdir(folder):
            os.mkdir(folder)
            sync_folder(self.folder)
        path = f"{folder}/{name}"
        length = self.length(path)
        with open(os.open(path, os.O_RDWR | os.O_CREAT, 0o666), "r+b") as file:
            if os.fstat(file.fileno()).st_size < length:
                raise Fault(f"{path} is shorter than {path}.length says: move both away together")
            file.truncate(length)
            file.seek(length)
            packer = zlib.compressobj(6, zlib.DEFLATED, 31)
            file.write(packer.compress(text) + packer.flush())
            length = file.tell()
            file.flush()
            os.fsync(file.fileno())
        write_whole(f"{path}.length", f"{length}\n")
        self.bytes += len(text)

    @staticmethod
    def length(path):
        """How many bytes of a file are good."""
        if not os.path.exists(f"{path}.length"):
            if os.path.exists(path) and os.path.getsize(path):
                raise Fault(f"{path} has no {path}.length: move it away")
            write_whole(f"{path}.length", "0\n")
        with open(f"{path}.length", encoding="ascii", errors="replace") as file:
            text = file.read().strip()
        if not text.isdigit():
            raise Fault(f"{path}.length is no number: move it away together with {path}")
        return int(text)


def sync_folder(path):
    handle = os.open(path, os.O_RDONLY | os.O_DIRECTORY)
    try:
        os.fsync(handle)
    finally:
        os.close(handle)


def write_whole(path, text):
    """A file that is there with this text or as it was before, whatever crash comes."""
    with open(f"{path}.new", "w", encoding="ascii") as file:
        file.write(text)
        file.flush()
        os.fsync(file.fileno())
    os.replace(f"{path}.new", path)
    sync_folder(os.path.dirname(path))


# ---- the server ----------------------------------------------------------------------------------------------------

class Server:
    """A connection to the server, which is kept, and has so many seconds for each answer."""

    hint = ": look whether as many connections are open as may be"

    def __init__(self, port, seconds):
        self.seconds, self.is_used = seconds, False
        self.connection = http.client.HTTPConnection("127.0.0.1", port, timeout=seconds)

    def wait(self):
        """Returns once a worker of the server has this connection."""
        status, text = self.exchange("GET", "/ready", None, {}, None)
        if status != 200:
            raise Unreachable(f"it is not ready: {status} {text[:100].decode(errors='replace')}")

    def ask(self, tenant, route, body, most=None):
        """The answer to a request, or None where it has more than `most` bytes."""
        head = {"X-Scope-OrgID": tenant, "Content-Type": "application/json"}
        status, text = self.exchange("POST", f"/ingester/v1/{route}", encode(body).encode(), head, most)
        if text is None:
            return None
        if status != 200:
            raise Refused(f"{status} {text[:300].decode(errors='replace').strip()}")
        return json.loads(text)

    def exchange(self, *request):
        """Status and body of an answer. A connection that the server has closed meanwhile is made anew, once."""
        while True:
            was_used, self.is_used = self.is_used, True
            try:
                return self.try_once(*request)
            except TimeoutError:
                self.close()
                raise Unreachable(f"no answer within {self.seconds:g} s{self.hint}") from None
            except (OSError, http.client.HTTPException) as fault:
                self.close()
                if not was_used:
                    raise Unreachable(str(fault) or type(fault).__name__) from None

    def try_once(self, method, path, body, head, most):
        until = time.monotonic() + self.seconds
        if self.connection.sock:
            self.connection.sock.settimeout(self.seconds)
        self.connection.request(method, path, body, head)
        line = self.connection.sock
        with self.connection.getresponse() as answer:
            length, parts = answer.length or 0, []
            if most is not None and answer.status == 200 and length > most:
                self.close()
                return answer.status, None
            while not answer.isclosed():
                line.settimeout(max(until - time.monotonic(), 0.001))
                parts.append(answer.read(1 << 18))
        text = b"".join(parts)
        if len(text) < length:
            raise http.client.IncompleteRead(text, length - len(text))
        return answer.status, text

    def close(self):
        self.connection.close()
        self.is_used = False


# ---- the streams ---------------------------------------------------------------------------------------------------

class Stream:
    """A stream, and what is known of it: its shard, about how many bytes it has in answers, a time that its newest one is not
    before, that newest one, and the time of its oldest line before and after this run. All of it that is older than `taken`
    was put."""

    __slots__ = ("tenant", "text", "shard", "size", "reached", "newest", "first", "left", "taken", "is_refused")

    def __init__(self, tenant, text, size, reached, shard=0):
        self.tenant, self.text, self.shard, self.size, self.reached, self.taken = tenant, text, shard, size, reached, 0
        self.newest = self.first = self.left = None
        self.is_refused = False

    def labels(self):
        return {name: re.sub(r"\\(.)", lambda it: "\n" if it[1] == "n" else it[1], value)
                for name, value in LABEL.findall(self.text)}

    def oldest(self):
        return self.first if self.is_refused else self.left

    def __str__(self):
        return f"{self.tenant} {self.text}"


def slots_of(folder, shard):
    """Both slots of a shard, that in use before the other one."""
    found = []
    for number in (0, 1):
        path = f"{folder}/shard-{shard:02}-{number}.wal"
        try:
            with open(path, "rb") as file:
                head = file.read(HEAD.size)
        except OSError as fault:
            raise Fault(f"cannot open {path}: {fault.strerror}") from None
        is_open = len(head) == HEAD.size and head[:4] == b"\x01LWL"
        found.append((HEAD.unpack(head)[3] if is_open else 0, path))
    return [path for _, path in sorted(found, reverse=True)]


def list_slot(path, shard, shards, found):
    """Counts the entries of each stream in a slot, with the newest time that a record names. Returns whether that is all
    that the shard has. Beside a server walcat may see a slot in the middle of a write (3): what it printed before is there,
    and the next run sees the rest."""
    is_closed = False
    try:
        running = subprocess.Popen(["walcat", path, str(shard), str(shards)], stdout=subprocess.PIPE, stderr=subprocess.PIPE)
    except FileNotFoundError:
        raise Fault("walcat is not on the path") from None
    with running:
        for line in running.stdout:
            if record := RECORD.fullmatch(line):
                count, reached = found.get(record.group(1, 2), (0, 0))
                found[record.group(1, 2)] = count + int(record[4]), max(reached, int(record[3] or 0))
            else:
                is_closed |= line == b"closed\n"
        said = running.stderr.read().decode(errors="replace").strip()
    if running.returncode not in (0, 3):
        raise Fault(said or f"walcat ended with status {running.returncode}")
    return running.returncode == 0 and not is_closed


def streams_of(folder, shards):
    """The streams of a log, of one shard after another in turn, since shards sync side by side."""
    turns = []
    for shard in range(shards):
        found = {}
        for path in slots_of(folder, shard):
            if list_slot(path, shard, shards, found):
                break
        each = os.path.getsize(path) / max(sum(count for count, _ in found.values()), 1)
        turns.append([Stream(tenant.decode(), text.decode(), int(count * each), reached, shard)
                      for (tenant, text), (count, reached) in sorted(found.items())])
    most = max(map(len, turns))
    return [turn[at] for at in range(most) for turn in turns if at < len(turn)]


class Reading:
    """Reads a stream by answers of at most PIECE bytes."""

    def __init__(self, server, stream):
        self.server, self.stream, self.labels, self.left = server, stream, stream.labels(), stream.size

    def read(self, low, high, most=PIECE):
        """The lines from `low` on and before `high`, or None where they are too many for one answer."""
        body = {"stream": self.labels, "from": str(low), "to": str(high)}
        answer = self.server.ask(self.stream.tenant, "read", body, most)
        return None if answer is None else answer["values"]

    def newest(self):
        """The newest time, or None. Looks ever farther back from the clock, and where that is too much, in halves."""
        now = time.time_ns()
        low, high, floor = max(now - SECOND, self.stream.reached), EVER, None
        while high > 0:
            values = self.read(low, high, PIECE if low != floor and high - low > NARROW else None)
            if values:
                return int(values[-1][0])
            if values is None:
                floor = low
            else:
                high = low
            if floor is None:
                least = self.stream.reached if high > self.stream.reached else 0
                low = max(least, now - 4 * (now - low))
            else:
                low = (floor + min(high, max(now, floor) + 1200 * SECOND)) // 2
        return None

    def guess(self, low, high, newest):
        """About how many bytes the answer for a range has, where lines are spread evenly."""
        low = max(low, newest - LONG_AGO)
        return self.left * max(0, high - low) // (newest + 1 - low)

    def pieces(self, low, high, newest):
        """The lines from `low` on and before `high`, in rising time, each time with the end of their range."""
        todo = [(low, high)] if low < high else []
        while todo:
            low, high = todo.pop()
            is_short = self.guess(low, high, newest) <= PIECE or high - low <= NARROW
            values = self.read(low, high, None if high - low <= NARROW else PIECE) if is_short else None
            if values is None:
                middle = middle_of(low, high, newest)
                todo += [(middle, high), (low, middle)]
                continue
            if values:
                self.left = max(0, self.left - sum(len(it[1]) + 40 for it in values))
            yield high, values

    def first(self, low, newest):
        """The oldest time from `low` on."""
        return next((int(values[0][0]) for _, values in self.pieces(low, newest + 1, newest) if values), None)


def middle_of(low, high, newest):
    """Where to cut a range in two: by the ages of its ends where these are far apart, else in halves."""
    oldest_age, youngest_age = newest + 1 - low, newest + 1 - high
    if oldest_age > 4 * youngest_age > 0:
        return min(max(newest + 1 - math.isqrt(oldest_age * youngest_age), low + 1), high - 1)
    return (low + high) // 2


# ---- a run ---------------------------------------------------------------------------------------------------------

class Drain:
    """A run. Its workers, a thread and a connection each, take a stream at a time, put its lines, and trim what a flush
    has made sure of."""

    def __init__(self, streams, place, window):
        self.place, self.window = place, window
        self.all, self.streams, self.trims = streams, collections.deque(streams), collections.deque()
        self.writing, self.change = threading.Lock(), threading.Condition()
        self.pending, self.busy, self.able = {}, 0, 0
        self.errors, self.said, self.fault, self.is_over, self.has_flushed = 0, collections.Counter(), None, False, False

    def run(self, servers, progress):
        self.able = len(servers)
        for it in servers:
            threading.Thread(target=self.work, args=(it,), daemon=True).start()
        self.settle(progress)
        # (what nobody could trim isn't written)
        if self.fault is None and self.able:
            with self.writing:
                self.flush()
            self.settle(progress)
        with self.change:
            self.is_over = True
            self.change.notify_all()
        self.count_undone()

    def settle(self, progress):
        """Waits until nothing is left to do, or nobody can do it."""
        with self.change:
            while self.fault is None and self.able and (self.busy or self.trims or self.streams):
                self.change.wait(0.2)
                progress(self)

    def work(self, server):
        try:
            server.wait()
            while self.take(server):
                pass
        except Unreachable as fault:
            self.say("connections", f"a connection to the server is given up: {fault}", 0, 1)
        except (Fault, OSError) as fault:
            self.fault = fault
        # (whatever it is, the run ends, and says it)
        except Exception as fault:  # pylint: disable=broad-except
            self.fault = Fault(f"{type(fault).__name__}: {fault}")
        with self.change:
            self.able -= 1
            self.change.notify_all()

    def take(self, server):
        """Does what is next. Returns False at the end."""
        with self.change:
            while not (self.trims or self.streams or self.is_over):
                self.change.wait()
            if self.is_over or self.fault:
                return False
            queue, step = (self.trims, self.trim) if self.trims else (self.streams, self.collect)
            job = queue.popleft()
            self.busy += 1
        try:
            step(server, job)
        except Unreachable:
            queue.appendleft(job)
            raise
        finally:
            with self.change:
                self.busy -= 1
                self.change.notify_all()
        return True

    def collect(self, server, stream):
        """Puts the lines of a stream that the server lets go. No line comes below that bound any more: the server refuses
        it."""
        try:
            reading = Reading(server, stream)
            values = reading.read(0, EVER) if stream.size <= PIECE and not stream.taken else None
            if values is None:
                self.collect_long(reading, stream)
            elif values:
                times = [int(it[0]) for it in values]
                stream.newest, stream.first = times[-1], times[0]
                bound = self.bound_of(stream)
                count = next(at for at, it in enumerate(times) if it >= bound)
                stream.left = times[count]
                self.put(stream, reading.labels, values[:count], bound)
        except Refused as fault:
            stream.is_refused = True
            self.say(f"not drained: {fault}", f"not drained: {stream}: {fault}")

    def collect_long(self, reading, stream):
        stream.newest = reading.newest()
        if stream.newest is None:
            return
        bound = self.bound_of(stream)
        for end, values in reading.pieces(stream.taken, bound, stream.newest):
            if values and stream.first is None:
                stream.first = int(values[0][0])
            self.put(stream, reading.labels, values, end)
        stream.left = reading.first(bound, stream.newest)
        stream.first = stream.left if stream.first is None else stream.first

    def bound_of(self, stream):
        return max(0, stream.newest - self.window)

    def put(self, stream, labels, values, end):
        stream.taken = end
        if not values:
            return
        with self.writing:
            self.place.put(stream.tenant, labels, values)
            self.pending[stream] = end
            # (the first lines at once: if the server doesn't let them go, no others are written twice)
            if self.place.size >= BATCH or not self.has_flushed:
                self.flush()

    def flush(self):
        self.place.flush()
        self.has_flushed = True
        pending, self.pending = self.pending, {}
        with self.change:
            self.trims.extend(pending.items())
            self.change.notify_all()

    def trim(self, server, job):
        stream, bound = job
        try:
            server.ask(stream.tenant, "trim", {"stream": stream.labels(), "bound": str(bound)})
        except Refused as fault:
            stream.is_refused = True
            if "above the oldest accepted" in str(fault):
                raise Fault(f"not trimmed: {stream}: {fault}: the server keeps more than {self.window / SECOND:g} s before a "
                            "stream's newest line. Give the drain the server's NEEDLEAZURE_MAX_CHUNK_AGE") from None
            self.say(f"not trimmed: {fault}", f"not trimmed: {stream}: {fault}")

    def say(self, kind, text, errors=1, most=MOST_SAID):
        """Says a fault, unless there were many of its kind."""
        with self.change:
            self.errors += errors
            self.said[kind] += 1
            if self.said[kind] <= most:
                print(text, file=sys.stderr)

    def count_undone(self):
        """What nobody did is an error each."""
        left = [*self.pending, *(stream for stream, _ in self.trims)]
        for stream in left:
            stream.is_refused = True
        undone = len(self.streams) + len(left) if self.fault is None else 0
        self.errors += undone
        if undone:
            print(f"the server doesn't answer: {len(self.streams)} streams are not read, {len(left)} not trimmed",
                  file=sys.stderr)
        for kind, count in self.said.items():
            if count > MOST_SAID:
                print(f"in all {count} streams: {kind}", file=sys.stderr)


# ---- words and settings --------------------------------------------------------------------------------------------

def stop(text, status):
    print(text, file=sys.stderr)
    sys.exit(status)


def duration(text):
    """The nanoseconds of a duration as the server reads it: 0, or as 90s, 20m, 2h, 1h30m or 7d. Else None."""
    if text == "0":
        return 0
    each = {"w": 604800, "d": 86400, "h": 3600, "m": 60, "s": 1}
    if not re.fullmatch(r"(?:[0-9]{1,19}[wdhms])+", text):
        return None
    found = sum(int(number) * each[unit] * SECOND for number, unit in re.findall(r"([0-9]+)([wdhms])", text))
    return found if found <= EVER else None


def setting(name, default, is_zero_allowed):
    text = os.environ.get(name, default)
    found = duration(text)
    if found is None or not (found or is_zero_allowed):
        stop(f"{name} is no duration as 90s, 20m, 2h or 1h30m: {text}", 2)
    return found


def number_in(text, most, name):
    if not (text.isascii() and text.isdigit() and len(text) < 10 and 1 <= int(text) <= most):
        stop(f"{name} is not a number from 1 to {most}", 2)
    return int(text)


def lock(folder, patience=0):
    """Keeps other runs away until this process ends. Waits so many seconds for the end of one."""
    file, until = open(f"{folder}/.lock", "w", encoding="ascii"), time.monotonic() + patience
    while True:
        try:
            fcntl.flock(file, fcntl.LOCK_EX | fcntl.LOCK_NB)
            return file
        except BlockingIOError:
            if time.monotonic() >= until:
                stop(f"another drain is at {folder}", 1)
            time.sleep(0.1)
