"""parts: how long the parts of a push take, over built programs.

`ingest1` reads, judges and prints bodies of 1 and 4 MB. A server over files answers pushes of one line, beside the
same device calls alone, and pushes of 1, 8 and 64 streams of its one shard, whose calls are one group. One over memory
answers pushes of ten lines to a stream that keeps 10, 10,000 and 1,000,000 entries, in order and a second late, a read
of 100 of them in the middle, and a trim of the older half; `walcat` lists its segment. Figures are medians: of PUSHES
pushes, of RUNS of what takes long."""
import json
import os
import statistics
import subprocess
import time

import servers

RUNS, PUSHES = 5, 300
KEPT = (10, 10_000, 1_000_000)
# (nanoseconds from one line of a stream to the next)
STEP, SECOND = 3_000_000, 1_000_000_000
LABELS = {"a": "1"}
ROOM = {"NEEDLEAZURE_CAPACITY": str(128 << 20), "NEEDLEAZURE_MAX_CHUNK_AGE": "4s"}


def took(do, *words):
    begun = time.perf_counter()
    do(*words)
    return time.perf_counter() - begun


def median(do, calls):
    """The median of what these calls take, in seconds."""
    return statistics.median(took(do, *words) for words in calls)


def judged(body):
    status, output, errors = servers.run(["ingest1", "20"], body, env=servers.allocator())
    servers.need((status, output[:4], errors) == (0, b"204\n", b""), "ingest1 stores a body")


def bodies():
    start = median(judged, [[json.dumps(servers.push_body([(LABELS, servers.lines_from(1, 1, 10))])).encode()]] * RUNS)
    for count, length in ((4_600, 200), (9_600, 400)):
        body = json.dumps(servers.push_body([(LABELS, servers.lines_from(1, count, length))])).encode()
        spent = median(judged, [[body]] * RUNS) - start
        yield f"{len(body) / 1e6:.2f} MB: {len(body) / spent / 1e6:,.0f} MB/s"


def push(labels, begin, count, length, step=1):
    return servers.push_request(labels, servers.lines_from(begin, count, length, step))


def answered(client, request, due=204):
    client.ends.sendall(request)
    servers.need(client.answer()[0] == due, f"a request is answered {due}")


def answers(client, requests, due=204):
    """The median of what the answers to these requests take."""
    return median(answered, [(client, it, due) for it in requests])


def written(file, at, data):
    """The device calls of an append: the block, then the gate before it."""
    for place, its in ((at + 1, data), (at, b"\1")):
        os.pwrite(file, its, place)
        os.fdatasync(file)


def appends(work, client):
    for length in (200, 4_000, 40_000):
        a_push = answers(client, [push(LABELS, time.time_ns(), 1, length) for _ in range(PUSHES)])
        size = length + 37
        with open(f"{work}/plain", "wb") as file:
            # (as a slot that was filled)
            file.write(bytes(PUSHES * size + 1))
            os.fsync(file.fileno())
            alone = median(written, [(file.fileno(), at * size, b"x" * size) for at in range(PUSHES)])
        yield f"{length:,} bytes: {1e6 * a_push:,.0f} us, {1e6 * alone:,.0f} us"


def groups(client):
    for size in (1, 8, 64):
        lines = (servers.lines_from(time.time_ns(), 1, 200) for _ in range(PUSHES))
        bodies_of_all = (servers.push_body([({"s": str(it)}, its) for it in range(size)]) for its in lines)
        spent = answers(client, [servers.request(servers.PUSH, it) for it in bodies_of_all])
        yield f"{size}: {1e6 * spent:,.0f} us, {size / spent:,.0f} calls a second"


def kept(client, count):
    """Calls on a stream that keeps so many entries."""
    labels, end = {"kept": str(count)}, time.time_ns()
    first = end - count * STEP
    for at in range(0, count, 10_000):
        answered(client, push(labels, first + at * STEP, min(count - at, 10_000), 10, STEP))
    late, in_order = (answers(client, [push(labels, begin + 10 * it * step, 10, 10, step) for it in range(PUSHES)])
                      for begin, step in ((end - SECOND, 1), (end, STEP)))
    middle = first + count // 2 * STEP
    read = servers.request(servers.READ, servers.read_body(labels, middle, middle + 100 * STEP))
    trim = servers.request(servers.TRIM, {"stream": labels, "bound": str(middle)})
    a_read, a_trim = answers(client, [read] * RUNS, 200), answers(client, [trim], 200)
    return f"{count:,}: {1e6 * in_order:,.0f} us, {1e6 * late:,.0f} us, {1e6 * a_read:,.0f} us, {1e3 * a_trim:,.1f} ms"


def listed(slot):
    with open(os.devnull, "wb") as nothing:
        subprocess.run([servers.program("walcat"), slot, "0", "1"], stdout=nothing, check=True)


def served(folder):
    """A server with one shard, and a client of it."""
    server = servers.Server(folder, 1, 1, {**servers.allocator(), **ROOM})
    return server, servers.Client(server.port)


def parts(work, memory):
    yield "`ingest1` over a body, without its start", bodies()
    servers.fill_slots(f"{work}/log", 1, ROOM)
    server, client = served(f"{work}/log")
    with server, client:
        yield "a push of a line; its four device calls alone", appends(work, client)
        yield "a push of so many streams", groups(client)
    server, client = served(memory)
    with server, client:
        yield "a stream of so many entries: ten lines in order, late, a read, a trim", (kept(client, it) for it in KEPT)
    slot = max(servers.slots_of(memory), key=os.path.getsize)
    yield f"`walcat` of a segment of {os.path.getsize(slot) / 1e6:.0f} MB", [f"{median(listed, [[slot]] * RUNS):.2f} s"]


def check(work, ends):
    memory = ends.enter_context(servers.room("parts", servers.memory()))
    print("| What | Figure |\n|---|---|", flush=True)
    for what, figures in parts(work, memory):
        print(f"| {what} | {'; '.join(figures)} |", flush=True)
