"""Each request for memory of some runs is refused in turn (by preload.c); and calls that make none.

Such a run must say what it says with ample memory; or a beginning of that, and that memory ran out
or a thread was not started; ingest1, ingestctl and the server may answer 500. Slots then hold what
they held, or that with the first streams of the push, since all are on one shard; and the same
call, made once more, is answered as with ample memory."""
import concurrent.futures
import contextlib
import functools
import itertools
import json
import os
import re
import shutil
import subprocess
import tempfile
import time

import pytest
import servers
import hostile_bytes
import judges
from servers import HOUR, PUSH, READ, SECONDS, request

JOBS = os.cpu_count()
NO_MEMORY = "out of memory"
# (the C library asks for memory for each thread)
NO_THREAD = b"thread not started\n"
ANSWERED_500 = b"500\nout of memory"
NOW = time.time_ns()


def run(words, data=b"", environment=None):
    return servers.run(words, data, env=environment or {})


def says_no_memory(errors):
    return errors.rstrip(b"\n").endswith((NO_MEMORY.encode(), b"memory allocation failed"))


def ran_out(found, ample):
    """Whether a program ended for want of memory, after a beginning of what it says with ample memory; or at its opening,
    before it said anything, since a thread was not started."""
    status, output, errors = found
    if errors == NO_THREAD:
        return status == 3 and not output
    return status in (1, 3) and ample[1].startswith(output) and says_no_memory(errors)


def is_right(found, ample):
    """Whether what a program without slots said and how it ended is right."""
    status, output, errors = found
    if status == 0:
        return not errors and output in (ample[1], ANSWERED_500)
    return ran_out(found, ample)


class Run:
    """A run whose requests are refused in turn. `wrong` makes it, and gives what was wrong."""

    def at(self, number):
        """Refuses this request. Whether it was made, and what was wrong."""
        with tempfile.TemporaryDirectory() as folder:
            refusing = {"MEMORY_AT": str(number), "MEMORY_MARK": f"{folder}/mark", "LD_PRELOAD": servers.library()}
            wrong = self.wrong(folder, refusing)
            return os.path.exists(f"{folder}/mark"), wrong

    def lacks(self):
        """What some run has to show, and none did."""
        return []


class Plain(Run):
    def __init__(self, words, data=b""):
        self.name, self.words, self.data = " ".join(words), words, data
        self.ample = run(words, data)

    def wrong(self, _, environment):
        found = run(self.words, self.data, environment)
        return None if is_right(found, self.ample) else f"{found}"


class OfRow(Run):
    """A row of `cases` or another program. `made` gives what it says, and how the program ended."""

    program, about = "cases", "calls"

    def said(self, lines, environment=None):
        with tempfile.TemporaryDirectory() as folder:
            text = "\n".join([f"of {self.about}", "row shown", *lines, "= shown", "end", ""])
            servers.write(f"{folder}/row.txt", text.encode())
            found = run([self.program, f"{folder}/row.txt"], b"", environment)
        said = found[1].decode().partition("\nsaid\n")[2].rpartition("\nend\n")[0].splitlines()
        # (a line that is said several times, one behind the other, is said once with its number)
        times = [re.fullmatch(r"(?:(\d+) times )?(.*)", it) for it in said]
        # (a call on an ingester says the name of its fault)
        texts = [(NO_MEMORY if it[2] == "Memory" else it[2], int(it[1] or 1)) for it in times]
        return [text for text, count in texts for _ in range(count)], found

    def wrong(self, _, environment):
        said, found = self.made(environment)
        return None if (self.is_right(said) if found[0] == 0 else self.is_unsaid(found)) else f"{found}"

    @staticmethod
    def is_unsaid(found):
        """Whether the program ended since the row could not be run."""
        return found[0] == 1 and found[2].rstrip().endswith((b"memory", b"memory allocation failed", b"nothing is open"))

    def is_right(self, said):
        return said in self.right


class Layer(OfRow):
    """A row below calls: all is said as with ample memory, except that these lines may say that memory ran out."""

    def __init__(self, name, about, lines, refused=()):
        self.name, self.about = f"cases, {name}", about
        self.made = functools.partial(self.said, lines)
        self.ample = self.made()[0]
        assert self.ample and NO_MEMORY not in self.ample, self.ample
        self.right = [self.ample]
        for at in map(lines.index, refused):
            begun, done = (len(self.said(lines[:end])[0]) for end in (at, at + 1))
            self.right.append([*self.ample[:begun], NO_MEMORY, *self.ample[done:]])

    @staticmethod
    def is_unsaid(found):
        # (a log that was refused for want of memory is used)
        return OfRow.is_unsaid(found) or found[0] == 1 and found[2].rstrip().endswith(b"no log")


class Calls(OfRow):
    """Calls of a row, between other lines. One that is refused leaves no trace: all else is said as in the run without
    it. `refused` has which calls come back together."""

    def __init__(self, name, before, calls, after, refused):
        self.name, self.before, self.calls, self.after = f"cases, {name}", before, calls, after
        self.made = functools.partial(self.said_of, calls)
        self.ample = self.said_of(calls)[0]
        assert self.ample and NO_MEMORY not in self.ample, self.ample
        self.without = [self.said_without(its) for its in refused]
        self.right = [self.ample, *self.without]
        for at in range(len(calls), len(self.ample)):
            if self.ample[at].startswith("entries "):
                # (a read that is refused has no step)
                steps = re.sub(r"^steps (\d+)", lambda it: f"steps {int(it[1]) - 1}", self.ample[at + 1])
                self.right.append([*self.ample[:at], NO_MEMORY, steps, *self.ample[at + 2:]])

    def said_of(self, calls, environment=None):
        return self.said([*self.before, *calls, *self.after], environment)

    def said_without(self, its):
        said = iter(self.said_of([it for at, it in enumerate(self.calls) if at not in its])[0])
        return [NO_MEMORY if at in its else next(said) for at in range(len(self.calls))] + list(said)


class LookedAt(Calls):
    """Calls that are made twice, with a look behind each; then what the slots hold, and a read after they were opened again.
    So a call that is refused has changed neither what the pass sees nor a byte, and once more it is answered. `must` is said
    by some call."""

    def __init__(self, name, settings, calls, must):
        twice = [line for call in calls for line in (call, "look") * 2]
        end = ["close", "bytes 0 0 0", "bytes 0 1 0", "open", "read 1", "close"]
        super().__init__(name, [*settings, "open"], twice, end, [{at} for at in range(0, len(twice), 2)])
        assert self.ample[-1].startswith("steps 1 ") and must in self.ample, self.ample
        # (the row itself wants memory for the last read, and to look at the segments that are left)
        for at, line in enumerate(self.ample):
            if at == len(self.ample) - 2 or " segment " in line:
                read = re.sub(r"segment \d+ \d+|entries .*", NO_MEMORY, line)
                self.right.append([*self.ample[:at], read, *self.ample[at + 1:]])


class Group(Calls):
    """Calls of which those that begin with `with` go in a group. What is said is without the turns and the slots. Where it
    is `shown` which call is refused, some run has to refuse that one, and the others are answered otherwise than with it."""

    def __init__(self, name, before, calls, after, refused, shown=None):
        super().__init__(name, before, calls, after, refused)
        self.second, self.is_found = None if shown is None else self.without[shown], False
        assert not self.second or self.second[shown + 1] != self.ample[shown + 1], "the next call is answered as with it"

    def said_of(self, calls, environment=None):
        count = sum(it.startswith("with ") for it in calls)
        said, found = self.said([*self.before, *calls, *self.after[not count:]], environment)
        turns = [int(it.split()[2]) for it in said if it.startswith("turn of ")]
        lines = [re.sub(r"^(steps \d+) .*", r"\1", it) for it in said if not it.startswith("turn of ")]
        return lines if sum(turns) == count else [], found

    def is_right(self, said):
        if said == self.second:
            self.is_found = True
        return super().is_right(said)

    def lacks(self):
        is_so = not self.second or self.is_found
        return [] if is_so else [f"{self.name}: in no run the second call alone came back"]


class Opening(OfRow):
    """An opening of full slots, refused or not: each still holds what it held, and is read."""

    name = "cases, an opening of full slots"
    # (as in rows whose names end with "leaves the state before or after")
    FULL = [*(f"push 1 {it}000000000000 {it}000000000000*492:x" for it in range(1, 8)), "trim 1 3400000000000",
            "push 1 8000000000000 8000000000000*492:x"]

    def __init__(self):
        slots = self.said(["open", *self.FULL, "close", "bytes 0 0 0", "bytes 0 1 0"])[0][-2:]
        # (in the text of a slot a bar and a star mean something else)
        texts = [re.sub(r"[|* ]", lambda it: f"\\x{ord(it[0]):02x}", line) for line in slots]
        settings = [f"slot 0 {number} {text}" for number, text in enumerate(texts)]
        self.row = [*settings, "opens", "bytes 0 0 0", "bytes 0 1 0", "open", "read 1", "close"]
        self.made = functools.partial(self.said, self.row)
        ample, found = self.made()
        left = r"(segment 3 3108|out of memory) calls [01] [01] slots 4094 3709"
        entries = " ".join(f"{it}000000000000*492:x" for it in range(4, 9))
        self.right = "\n".join([
            rf"(steps 0 {left}|refused: (shard 0: )?(out of memory|thread not started)\nunopened {left})",
            *map(re.escape, slots),
            rf"({re.escape(f'entries {entries}')}|out of memory)", rf"steps [01] {left}",
        ])
        assert self.is_right(ample) and "memory" not in "".join(ample), found

    def is_right(self, said):
        return re.fullmatch(self.right, "\n".join(said))


class Served(OfRow):
    """A connection with a push of two streams, and another that reads both: a row of conformance. Each is answered; or the
    first has written 500 or nothing, and then the calls that it made stand; or the second has written a beginning."""

    name, program, about = "conformance, two streams and their reads", "conformance", "connections"
    STREAMS = ['{"stream":{"a":"%d"},"values":[["1%d","x"]]}' % (it, it) for it in (1, 2)]
    READS = ['post /ingester/v1/read {"stream":{"a":"%d"},"from":"0","to":"100"}' % it for it in (1, 2)]

    def __init__(self):
        self.made = functools.partial(self.said_of, 2)
        texts = [self.said_of(count)[0] for count in range(3)]
        self.ample = texts[-1]
        lost = judges.answer(500, NO_MEMORY, True).decode().replace("\r\n", "\\r\\n\n").splitlines()
        first = [next(at for at, line in enumerate(it) if line.startswith("ended, ")) for it in texts]
        self.tails = [it[at + 1:] for it, at in zip(texts, first)]
        self.right = [self.ample]
        for count, tail in enumerate(self.tails):
            self.right += [[*lost, f"closed, steps {count}", *tail], [f"{NO_MEMORY}, steps {count}", *tail]]
        starts = [at for at, line in enumerate(self.ample) if line.startswith("HTTP/1.1 200 ")]
        assert len(starts) == 2 and self.ample[-1] == "ended, steps 4" and len({*map(tuple, self.tails)}) == 3, texts
        for answered, at in enumerate([*starts, len(self.ample) - 1]):
            for steps in {2 + answered, min(3 + answered, 4)}:
                begun = self.ample[:at]
                self.right += [[*begun, *lost, f"closed, steps {steps}"], [*begun, f"{NO_MEMORY}, steps {steps}"]]

    def said_of(self, count, environment=None):
        """Both connections, of which the first pushes this many of the streams."""
        push = f'post /loki/api/v1/push {{"streams":[{",".join(self.STREAMS[:count])}]}}'
        return self.said([push, "next 20", *self.READS], environment)

    def is_right(self, said):
        begun, failed, rest = "\n".join(said).partition("cannot write, steps ")
        if not failed:
            return said in self.right
        # (the row wants memory for what is written, too, and then its writer fails)
        steps, _, tail = rest.partition("\n")
        is_first = "ended" not in begun and tail == "\n".join(self.tails[int(steps)])
        is_second = "ended" in begun and not tail and steps in "34"
        return "\n".join(self.ample).startswith(begun) and (is_first or is_second)

    @staticmethod
    def is_unsaid(found):
        # (a line that could not be read is named)
        caused = found[2].removeprefix(b"Error: row shown\n\nCaused by:\n    ")
        return caused.startswith((b"post ", b"thread not started")) or OfRow.is_unsaid(found)


def push_of(*streams):
    return servers.push_body([({"s": name}, entries) for name, entries in streams])


def copied(folder, above=None):
    return shutil.copytree(folder, f"{above or tempfile.mkdtemp()}/slots")


class OnSlots(Run):
    """Calls on slots that hold these streams. `act` makes them, and gives what is answered and how the program ended;
    `fault_of` what is wrong with these. After it the slots may hold what they did before, or that with the first parts of
    what is pushed. `setting` is the environment of all programs on them."""

    takes_once = False

    def __init__(self, name, before, parts, setting=None):
        self.name, self.streams = name, sorted({it for it, _ in [*before, *parts]})
        self.folder, self.setting = tempfile.mkdtemp(), setting or {}
        if before:
            self.push(self.folder, before)
        self.states, self.bytes = [self.state(self.folder)], self.bytes_of(self.folder)
        # (all on one shard, where nothing is stored behind a call that was refused)
        slots = copied(self.folder)
        for it in parts:
            self.push(slots, [it])
            self.states.append(self.state(slots))
        slots = copied(self.folder)
        self.ample, last = self.act(slots)[0], self.state(slots)
        # (with a small capacity the call rolls the log into the slot that was empty)
        is_rolled = len(self.bytes) + 1 == len(self.bytes_of(slots))
        assert is_rolled or not setting, f"{name} does not roll"
        self.states += [last] * (last != self.states[-1])

    def ctl(self, folder, kind, body, environment=None):
        words = ["ingestctl", kind, folder, "1", "t", str(NOW)]
        return run(words, json.dumps(body).encode(), {**self.setting, **(environment or {})})

    def push(self, folder, streams):
        assert self.ctl(folder, "push", push_of(*streams)) == (0, b"204\n", b"")

    def state(self, folder):
        return [self.ctl(folder, "read", servers.read_body({"s": name})) for name in self.streams]

    @staticmethod
    def bytes_of(folder):
        """The bytes of each slot that has any."""
        found = {name: servers.bytes_of(f"{folder}/{name}") for name in os.listdir(folder)}
        return {name: data for name, data in found.items() if data}

    def wrong(self, folder, environment):
        slots = copied(self.folder, folder)
        answered, ended = self.act(slots, environment)
        wrong = self.fault_of(answered, ended) or self.wrong_in(slots, answered)
        if not wrong and self.act(slots)[0] != self.ample and not self.takes_once:
            wrong = "what is asked once more has another answer"
        if not wrong and self.state(slots) != self.states[-1]:
            wrong = "after what is asked once more the slots hold something else"
        return wrong and f"{answered}, {ended}: {wrong}"

    def wrong_in(self, slots, answered):
        """What is wrong with slots after a run; each call on them was made or not."""
        if not self.may_have_changed(answered) and self.bytes_of(slots) != self.bytes:
            return "slots were changed"
        state = self.state(slots)
        if state not in (self.states[-1:] if answered == self.ample else self.states):
            return f"slots hold {state}"
        return None


class Call(OnSlots):
    def __init__(self, name, before, kind, body, parts, setting=None):
        # (a second trim has nothing left to take)
        self.kind, self.body, self.takes_once = kind, body, kind == "trim"
        super().__init__(f"ingestctl {kind} {name}", before, parts, setting)

    def act(self, slots, environment=None):
        return self.ctl(slots, self.kind, self.body, environment), None

    def fault_of(self, answered, _):
        is_right = answered in (self.ample, (1, ANSWERED_500, b"")) or ran_out(answered, self.ample)
        return None if is_right else "another end"

    def may_have_changed(self, answered):
        # (where nothing was said the one call may have been made)
        return answered[0] != 3 and (answered != (1, ANSWERED_500, b"") or len(self.states) > 2)


class Connection(OnSlots):
    LOST = judges.answer(500, NO_MEMORY, True)

    def __init__(self, name, before, requests, parts, setting=None):
        self.requests = requests
        super().__init__(f"server {name}", before, parts, setting)
        self.begun = []
        for count in range(len(requests)):
            self.begun.append(self.serve(copied(self.folder), requests[:count])[0])

    def serve(self, slots, requests, environment=None):
        """What these requests are answered, and how the server ended; None for neither."""
        try:
            with servers.Server(slots, 1, 1, {**self.setting, **(environment or {})}, more=["1"]) as server:
                found = None
                with contextlib.suppress(OSError):
                    found = hostile_bytes.exchange(server.port, b"".join(requests), SECONDS)
                with contextlib.suppress(subprocess.TimeoutExpired):
                    server.running.wait(10)
                status = server.running.poll()
        except servers.NotStarted as error:
            return None, (error.status, error.errors)
        return found, (status, server.errors().encode())

    def act(self, slots, environment=None):
        return self.serve(slots, self.requests, environment)

    def fault_of(self, answered, ended):
        status, errors = ended
        if answered is None:
            is_said = status in (1, 3) and (says_no_memory(errors) or errors == NO_THREAD)
            return None if is_said else "the server did not start"
        if answered not in [self.ample, *self.begun, *(it + self.LOST for it in self.begun)]:
            return "another answer"
        return "the server goes on" if status is None else None

    def may_have_changed(self, answered):
        is_one_refused = len(self.requests) == 1 and len(self.states) <= 2 and answered == self.LOST
        return answered is not None and not is_one_refused


# (one entry each, so that the same push once more stores nothing)
ONE, OTHER = ("a", [(NOW - 9, "x", ())]), ("b", [(NOW - 7, "z", ((b"k", b"v"), (b"l", b"")))])
MANY = ("m", [(NOW - 1_000 + at, f"line {at}", ((b"k", b"%d" % at),) * (at % 3 == 0)) for at in range(300)])
OLD = ("o", [(NOW - 3 * HOUR, "x", ()), (NOW - 2 * HOUR, "y", ()), (NOW, "z", ())])
# (six pushes that nearly fill a slot of 4,096 bytes, so that the seventh rolls the log)
SMALL = {"NEEDLEAZURE_CAPACITY": "4096"}
LONG = [("r", [(NOW - 100 + at, "x" * 492, ())]) for at in range(7)]
READ_MANY = servers.read_body({"s": "m"})


def rows_of_layers():
    # (more entries than two buckets have; then late ones, each of which goes into one of these)
    push, late = ("push 9000 " + " ".join(f"{time}:x" for time in its) for its in (range(30, 1830, 3), range(40, 1760, 90)))
    yield Layer("a stream of buckets", "streams", [push, late, "read 900 1100", "limits half_age=0", "trim 930", "state"])
    blocks = "segment " + " ".join(f"cut:{81 + 38 * number} 01 frame" for number in range(10))
    changes = ["append frame", "roll segment at:5=02 from:1", "append frame", "log", "close"]
    reading = [f"records {blocks}", f"streams {blocks}", "open"]
    yield Layer("a log of ten blocks", "logs", [f"slot 1 {blocks}", "open 0 1 900", *changes, *reading], reading)


def rows_of_calls():
    pushes = [f"push 1 20 {time}*492:x" for time in range(10, 18)]
    many = f"push 1 400 {' '.join(f'{time}:x' for time in range(1, 301))}"
    # (on a shard that has a segment those behind a call that is refused come back too)
    together = ["push 1 20 10:x", "with push 1 20 11:y{k=v}", "with read 1", "with push 1 20 12:z"]
    end = ["close", "open alone", "read 1", "close"]
    yield Group("a group of three", ["open alone"], together, ["group", *end], [{0}, {1, 2, 3}, {2, 3}, {3}])
    # (on a fresh one the first goes alone; then the second is the first of a turn, and comes back where it has no memory)
    two = ["with push 1 20 10:x", "with push 1 20 11:y{k=v}"]
    for name, third in (("a read", "with read 1"), ("a repeat", "with push 1 20 11:y{k=v}")):
        what = f"a group of three passes that ends with {name}"
        yield Group(what, [], [*two, third], ["open apart", "read 1", *end], [{0}, {1}, {2}], shown=1)
    full = [*pushes, "read 1", "trim 1 13", "push 1 20 18*492:x"]
    yield LookedAt("calls that fill a shard", ["half_age 0"], full, "NoRoom")
    yield LookedAt("300 entries", ["half_age 0", "capacity 8000"], [many, "read 1"], "steps 4")
    yield Opening()


def calls_of_ingestctl():
    yield Call("of one stream", [], "push", push_of(ONE), [ONE])
    yield Call("of two streams", [], "push", push_of(ONE, OTHER), [ONE, OTHER])
    yield Call("of one stream behind another", [MANY], "push", push_of(ONE), [ONE])
    yield Call("of two streams behind another", [MANY], "push", push_of(ONE, OTHER), [ONE, OTHER])
    yield Call("of 300 entries", [MANY], "read", READ_MANY, [])
    yield Call("of nothing", [MANY], "trim", {"stream": {"s": "m"}, "bound": "0"}, [])
    yield Call("that rolls", LONG[:6], "push", push_of(LONG[6]), LONG[6:], SMALL)
    trim = {"stream": {"s": "o"}, "bound": str(NOW - HOUR)}
    yield Call("of two entries", [OLD], "trim", trim, [])


def connections():
    yield Connection("push of one stream", [], [request(PUSH, push_of(ONE))], [ONE])
    yield Connection("push of two streams", [], [request(PUSH, push_of(ONE, OTHER))], [ONE, OTHER])
    yield Connection("push that rolls", LONG[:6], [request(PUSH, push_of(LONG[6]))], LONG[6:], SMALL)
    yield Connection("read of 300 entries", [MANY], [request(READ, READ_MANY)], [])
    three = [request(PUSH, push_of(ONE)), request(READ, READ_MANY), request(PUSH, push_of(OTHER))]
    yield Connection("push, read and push", [MANY], three, [ONE, OTHER])


LONG_BODY = json.dumps(servers.push_body([({"a": "1"}, [(at, "x" * 400, ()) for at in range(20)])])).encode()
BODIES = [*hostile_bytes.BODIES, hostile_bytes.BODY.replace(b"10", b"1e9"), LONG_BODY]
# runs, and the least number of their requests
RUNS = {"layers": (rows_of_layers, 2_000), "calls": (rows_of_calls, 4_500), "conformance": (lambda: [Served()], 200),
        "ingest1": (lambda: [Plain(["ingest1", "20"], it) for it in BODIES], 300),
        "ingestctl": (calls_of_ingestctl, 2_500), "ingesterd": (connections, 2_500)}


def refuse_each(it):
    """Refuses each request of a run in turn. Returns how many there were, and what was wrong."""
    faults = []
    with concurrent.futures.ThreadPoolExecutor(JOBS) as pool:
        for first in itertools.count(1, 8 * JOBS):
            numbers = range(first, first + 8 * JOBS)
            for number, (was_made, fault) in zip(numbers, pool.map(it.at, numbers)):
                if not was_made:
                    return number - 1, faults + it.lacks()
                faults += [f"{it.name}, request {number} refused: {fault[:2000]}"] if fault else []


@pytest.mark.parametrize("name", [
    "layers", "ingest1", "calls", "conformance",
    *(pytest.param(it, marks=pytest.mark.by_hand) for it in ("ingestctl", "ingesterd"))])
def test_refused_requests(name, preload, folder, monkeypatch):
    # (the library was made before, elsewhere)
    monkeypatch.setattr(tempfile, "tempdir", folder)
    runs, least = RUNS[name]
    counts, faults = zip(*map(refuse_each, runs()))
    assert not any(faults), "\n".join(itertools.chain(*faults))
    assert sum(counts) >= least


def test_quiet_calls(folder):
    """Of the calls that `cases quiet` begins and ends some make no request, and others make some."""
    settings = {"MEMORY_COUNT_TO": f"{folder}/counts", "LD_PRELOAD": servers.library()}
    status, output, errors = run(["cases", "quiet"], b"", settings)
    counts = list(map(int, servers.bytes_of(f"{folder}/counts").split()))
    names = [line.removesuffix(" begins") for line in output.decode().splitlines()[::2]]
    due = "".join(f"{name} begins\n{name} ends\n" for name in names)
    assert (status, output.decode(), errors, len(counts)) == (0, due, b"", 2 * len(names))
    made = {name: end > begin for name, begin, end in zip(names, counts[::2], counts[1::2])}
    assert made == {**dict.fromkeys(["trim", "roll", "append", "look", "meet", "take"], False), "call": True}
