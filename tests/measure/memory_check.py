"""memory_check: what a server has of memory after trims, and in a read.

With the allocator and the settings of deploy/needleazure.service it takes 300 MB of lines, of whose
six hours a trim takes five, and then ten times five hours more. Within 30 seconds it may have at
most 1.6 times the bytes of the lines that are kept, and 50 MB. A read of a stream of 127 MB may
take twice the bytes of its answer. Of many bodies of the largest size that come at once, each worker
may have the lines of one in memory, and whatever one body is made of, it may take 120 MB."""
import concurrent.futures
import itertools
import re
import threading
import time

import servers
from servers import hold, lines_from, text_at

SHARDS, STREAMS, ROUNDS, CAPACITY = 8, 32, 10, 128 << 20
LENGTH, LINES, HOURS, KEPT_HOURS = 200, 500, 6, 1
# bytes of lines: all of the first round
FILLED = 300_000_000
# bodies of 4 MB: what one takes as bytes, and with its lines
BODIES, BODY_BYTES, BODY_LINES = 48, 5_000_000, 20_000_000
# what may be in one body: its parts are counted in the longest one, and not in one of 256 KiB
LONGEST, UNCOUNTED, BODY_MEMORY = 4_194_304, 262_144, 120_000_000
OBJECTS, ARRAYS = '{"":' * 120 + "0" + "}" * 120, "[" * 120 + "]" * 120
FORMS = {
    "streams without entries": ('{"streams":[', '{"stream":{"a":"1"},"values":[]}', "]}"),
    "objects in objects": ('{"streams":[', OBJECTS, "]}"),
    "arrays in arrays": ('{"streams":[', ARRAYS, "]}"),
    "numbers": ('{"streams":[', "0", "]}"),
    "entries": ('{"streams":[{"stream":{"a":"1"},"values":[', '["1",""]', "]}]}"),
    "labels": ('{"streams":[{"stream":{', '"NUMBER":"x"', '},"values":[]}]}'),
    "all parts that there may be": (f'{{"streams":[{f"{OBJECTS}," * 249}{f"{ARRAYS}," * 413}{{', '"NUMBER":0', "}]}"),
    "metadata": ('{"streams":[{"stream":{"a":"1"},"values":[["1","",{', '"NUMBER":"x"', "}]]}]}"),
}


def shipped():
    """The settings of jemalloc in the unit, which have to be those of `make run`."""
    found = re.search(r"^Environment=MALLOC_CONF=(.*)$", text_at("deploy/needleazure.service"), re.MULTILINE)
    is_so = found and f"\nMALLOC_CONF = {found[1]}\n" in text_at("Makefile")
    hold(is_so, "the unit and make run have the same MALLOC_CONF")
    return found[1]


def fill(port, streams, start, hours, lines):
    """Pushes this number of lines to each stream, and returns the newest time."""
    step = int(hours * servers.HOUR) // lines

    def push(some):
        with servers.Client(port) as client:
            for first in range(0, lines, LINES):
                entries = lines_from(start, min(LINES, lines - first), LENGTH, step, first)
                for labels in some:
                    client.store((labels, entries))

    with concurrent.futures.ThreadPoolExecutor(4) as pool:
        list(pool.map(push, [streams[it::4] for it in range(4)]))
    hold(True, f"{lines * len(streams)} lines are pushed")
    return start + step * (lines - 1)


def check_trims(work, settings):
    streams = [{"stream": str(it)} for it in range(STREAMS)]
    lines = FILLED // STREAMS // LENGTH
    hour = lines // HOURS
    kept = hour * KEPT_HOURS * STREAMS * LENGTH
    most = int(1.6 * kept + 50e6)
    with servers.Server(f"{work}/log", SHARDS, 8, {**settings, "NEEDLEAZURE_CAPACITY": str(CAPACITY)}) as server:
        end = time.time_ns() - 150 * servers.HOUR
        for number in range(ROUNDS + 1):
            hours = HOURS if number == 0 else HOURS - KEPT_HOURS
            end = fill(server.port, streams, end, hours, hour * hours)
            full = server.memory()
            with servers.Client(server.port) as client:
                for labels in streams:
                    status, said = client.trim(labels, end - KEPT_HOURS * servers.HOUR)
                    servers.need(status == 200, f"a trim is answered {status} {said}")
            began = time.monotonic()
            servers.wait_until(lambda: server.memory() <= most, 30)
            memory, took = server.memory(), time.monotonic() - began
            what = f"round {number}: {full / 1e6:.0f} MB full, {memory / 1e6:.0f} MB {took:.1f} s after the trim"
            hold(memory <= most, f"{what}, at most {most / 1e6:.0f} MB for {kept / 1e6:.0f} MB of lines")


def check_read(work, settings):
    labels, lines = {"stream": "long"}, 127_000_000 // LENGTH
    with servers.Server(f"{work}/long", 1, 4, {**settings, "NEEDLEAZURE_CAPACITY": str(256 << 20)}) as server:
        fill(server.port, [labels], time.time_ns() - servers.HOUR, 0.9, lines)
        time.sleep(15)
        before = server.memory()
        servers.write(f"/proc/{server.pid}/clear_refs", b"5")
        with servers.Client(server.port) as client:
            status, text = client.ask(servers.READ, servers.read_body(labels))
        more, length = server.memory("VmHWM") - before, len(text)
        what = f"a read of {length / 1e6:.0f} MB takes {more / 1e6:.0f} MB beside the {before / 1e6:.0f} MB"
        hold(status == 200 and more <= 2 * length, f"{what} that the server had, {more / length:.2f} times its answer")


def check_long_bodies(work, settings):
    # (all entries but the first repeat it, and are not stored again)
    ask = servers.push_request({"a": "??"}, [servers.entry("x" * 380)] * 10_000)
    workers, start = 4, threading.Barrier(BODIES)
    with servers.Server(f"{work}/bodies", 4, workers, settings) as server:

        def push(number):
            with servers.Client(server.port) as client:
                client.ends.sendall(ask[:-1].replace(b"??", b"%02d" % number))
                start.wait()
                # (until all of them have come but for their last bytes)
                time.sleep(2)
                client.ends.sendall(ask[-1:])
                return client.answer()[0]

        with concurrent.futures.ThreadPoolExecutor(BODIES) as pool:
            statuses = set(pool.map(push, range(BODIES)))
        memory, most = server.memory("VmHWM"), BODIES * BODY_BYTES + workers * BODY_LINES
        what = f"{BODIES} bodies of 4 MB at once take {memory / 1e6:.0f} MB with {workers} workers, of {most / 1e6:.0f}"
        hold(statuses == {204} and memory <= most, f"{what}, answered {statuses}")


def body_of(length, head, piece, tail):
    """A body of this length at most, of a piece that stands in it as often as it can."""
    if "NUMBER" not in piece:
        return head + ",".join([piece] * ((length - len(head + tail)) // (len(piece) + 1))) + tail
    room, found = length - len(head + tail), []
    for number in itertools.count():
        found.append(piece.replace("NUMBER", f"{number:x}"))
        room -= len(found[-1]) + 1
        if room < 0:
            return head + ",".join(found[:-1]) + tail


def check_forms(work, settings):
    with servers.Server(f"{work}/forms", 1, 1, settings) as server, servers.Client(server.port) as client:
        for (name, form), length in itertools.product(FORMS.items(), (UNCOUNTED, LONGEST)):
            if len(form[0]) > length:
                continue
            body, before, busy = body_of(length, *form).encode(), server.memory(), server.processor()
            servers.write(f"/proc/{server.pid}/clear_refs", b"5")
            status, said = client.ask(servers.PUSH, body)
            more, took = server.memory("VmHWM") - before, server.processor() - busy
            what = f"{name}, {len(body)} bytes: {more / 1e6:.0f} MB, {took:.2f} s, {status} {said[:40].decode()!r}"
            hold(status in (204, 400) and more <= BODY_MEMORY, what)


def check(work, _):
    allocator = servers.allocator()
    hold("LD_PRELOAD" in allocator, "jemalloc is installed")
    settings = {**allocator, "MALLOC_CONF": shipped()}
    check_trims(work, settings)
    check_read(work, settings)
    check_long_bodies(work, settings)
    check_forms(work, settings)
