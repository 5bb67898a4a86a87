"""gateway_check [PART..]: needleazure-gateway before real servers, asked by encoders and clients that are none of its
own: `random` pushes in all of Loki's forms, some as no shipper sends them, read back entry for entry (of each form a
thousand, or GATEWAY_BODIES, beside each other); `otlp` the same of OpenTelemetry's; `answers`,
beside those of a server that is asked directly; `hostile` bodies, and what memory they take; 500 kept `clients`; `kills`
of a server and a gateway; `limits` of tenants that are read again.
Go's race detector watches all but `hostile`. It needs protoc, python3-protobuf and python3-snappy."""
import collections
import concurrent.futures
import contextlib
import functools
import gzip
import http.client
import itertools
import multiprocessing
import os
import random
import shutil
import signal
import time

import servers
import snappy
from bodies import MOST_LABELS
from gateway_bodies import MINUTE, Draw, Writer, kept, load_messages, texts, value_of
from gateway_odd import PLAIN, OddWriter
from gateway_otlp import OTLPDraw, OTLPWriter, streams_of
from gateway_runs import Client, Gateway
from row_files import pieces_of
from servers import PUSH, TOP, Repeated, Server, hold, need

# (where syncs take no time: what is killed here is no machine)
PLACE = servers.memory()
PUSHES, LARGE, OTLP_PUSHES = 2000, 6, 500
# of most streams how many entries they may have
FEW = (0, 1, 1, 2, 3)
OTLP = "/otlp/v1/logs"
CLIENTS, EACH = 500, 20
RACE = {"program": "needleazure-gateway.race"}
PROTOBUF = {"Content-Type": "application/x-protobuf"}
JSON = {"Content-Type": "application/json"}


def ends_well(gateway, what):
    status, errors = gateway.stop()
    hold(status == 0 and not errors, f"{what}: the gateway ends with status {status}{errors and ', and says ' + errors}")


class Model:
    """What a server has: entries by labels, in the order in which they came."""

    def __init__(self):
        self.streams, self.entries = {}, 0

    def add(self, streams):
        """Adds streams of which each is its labels, and its entries as JSON has them."""
        for labels, entries in streams:
            if entries:
                self.streams.setdefault(tuple(sorted(labels.items())), []).extend(entries)
                self.entries += len(entries)

    def store(self, streams):
        for labels, entries in streams:
            key = tuple(sorted((name, value) for name, value in texts(labels).items() if value))
            self.streams.setdefault(key, []).extend(value_of(it) for it in entries)
            self.entries += len(entries)

    def wrong(self, client):
        """The labels of streams that a server has otherwise."""
        return [key for key, values in self.streams.items()
                if client.values(dict(key)) != sorted(values, key=lambda it: int(it[0]))]


def large(draw):
    """Streams that need several parts: many entries, or long lines."""
    if draw.random.random() < 0.5:
        return [(draw.labels(60), [(draw.time(), b"", {}) for _ in range(draw.random.choice([9_999, 10_001, 15_000]))])
                for _ in range(2)]
    return [(draw.labels(60), [(draw.time(), b"\x00" * 200_000, {}) for _ in range(3)]) for _ in range(3)]


def draw_push(draw, writer, odd, at):
    """The streams of a push, its body in a form, the fields of its head, and whether it is refused."""
    chance, is_json = draw.random, at % 2 == 1
    is_large = at % (PUSHES // LARGE) == 7 and draw.lengths != FEW
    streams = large(draw) if is_large else [draw.stream(not is_json) for _ in range(chance.randint(0, 4))]
    if not is_large and chance.random() < 0.4:
        if is_json:
            streams = [(named(labels, chance), entries) for labels, entries in streams]
        return streams, *odd.draw(streams, is_json)
    return streams, *writer.draw(streams, is_json), False


def named(labels, chance):
    """Labels, one of them with a value that JSON may have without quotes."""
    return {**labels, b"plain": chance.choice(PLAIN)} if chance.random() < 0.2 else labels


def store_random(work, number):
    """Pushes and reads back: how many were refused, parts, entries, and streams."""
    seed = time.time_ns()
    chance = random.Random(seed)
    # (the race detector watches the first of them; others are small, so that there may be many)
    draw, program = (Draw(chance, FEW), {}) if number else (Draw(chance), RACE)
    writer, model, refused = Writer(load_messages(work), chance), Model(), 0
    odd = OddWriter(writer)
    with (Server(f"{work}/random-{number}", workers=64) as server,
          Gateway(server, **program) as gateway, Client(gateway.port) as client):
        for at in range(PUSHES):
            streams, body, head, is_refused = draw_push(draw, writer, odd, at)
            status, text = client.push(body, head, chance.random() < 0.2)
            need(status == 400 if is_refused else (status, text) == (204, b""),
                 f"push {at} of seed {seed}, {head}: {status} {text[:300]}, {body[:2000]}")
            if not is_refused:
                model.store([it for it in streams if it[1]])
            refused += is_refused
        parts = gateway.metric("needleazure_gateway_parts_total")
        with servers.Client(server.port) as client:
            wrong = model.wrong(client)
        need(not wrong, f"seed {seed}: {len(wrong)} streams are stored otherwise, such as {wrong[:1]}")
        need(gateway.stop() == (0, ""), "the gateway ends otherwise than it should")
    shutil.rmtree(f"{work}/random-{number}")
    return refused, int(parts), model.entries, len(model.streams)


def try_random(_, work):
    rounds = -(-int(os.environ.get("GATEWAY_BODIES", 0)) * 2 // PUSHES) or 1
    with concurrent.futures.ProcessPoolExecutor(min(rounds, os.cpu_count()), multiprocessing.get_context("fork")) as pool:
        found = list(pool.map(functools.partial(store_random, work), range(rounds)))
    refused, parts, entries, streams = map(sum, zip(*found))
    hold(True, f"{rounds * PUSHES // 2} random pushes in each of Protobuf and JSON: {refused} of them are refused, the others "
         f"({parts} parts) are read back, {entries} entries of {streams} streams")


def try_otlp(_, work):
    seed = time.time_ns()
    chance = random.Random(seed)
    draw, writer, model = OTLPDraw(Draw(chance)), OTLPWriter(load_messages(work, "otlp_logs"), chance), Model()
    with (Server(f"{work}/otlp", workers=64) as server,
          Gateway(server, **RACE) as gateway, Client(gateway.port) as client):
        for at in range(OTLP_PUSHES):
            resources = [draw.resource() for _ in range(chance.randint(0, 3))]
            body, head = writer.draw(resources, chance.random() < 0.5)
            found = client.push(body, head, chance.random() < 0.2, OTLP)
            if found != (204, b""):
                hold(False, f"push {at} of seed {seed}: {found}")
            model.add(streams_of(resources))
        with servers.Client(server.port) as client:
            wrong = model.wrong(client)
        hold(not wrong, f"{OTLP_PUSHES} random pushes of OpenTelemetry's logs, {model.entries} entries of "
             f"{len(model.streams)} streams read back, {len(wrong)} streams otherwise, seed {seed}")
        ends_well(gateway, "otlp")


def try_limits(messages, work):
    """Tenants by a file: how much of what they push at once is taken, before it is read again and after."""
    path, writer = f"{work}/limits.txt", Writer(messages, random)
    line = b"x" * 1000

    def taken(tenant, count=50):
        with Client(gateway.port, tenant) as client:
            streams = [[({b"a": b"1"}, [(time.time_ns(), line, {})])] for _ in range(count)]
            found = [client.push(snappy.compress(writer.protobuf(it)), PROTOBUF) for it in streams]
        words = b"Ingestion rate limit exceeded for user " + tenant.encode()
        is_so = [status == 204 or status == 429 and text.startswith(words) for status, text in found]
        need(all(is_so), f"pushes are answered {found}")
        return [status for status, _ in found].count(204)

    servers.write(path, b"total: 100000 1000000\nloud 1 10000\nothers: 1% 20000\n")
    with Server(f"{work}/limits", workers=64) as server, Gateway(server, "--limits", path, **RACE) as gateway:
        found = [taken(it) for it in ("loud", "one", "loud")]
        is_so = found[0] == 10 and 20 <= found[1] <= 40 and found[2] == 0
        hold(is_so, f"limits of tenants: {found} pushes of 1,000 bytes are taken")
        servers.write(path, b"loud 1 2 3 4\n")
        gateway.running.send_signal(signal.SIGHUP)
        time.sleep(0.5)
        hold(taken("loud") == 0, "a file with a fault changes nothing")
        servers.write(path, b"loud 1000000000 1000000\n")
        gateway.running.send_signal(signal.SIGHUP)
        time.sleep(0.5)
        hold([taken("loud"), taken("one")] == [50, 50], "limits that are read again hold from then on")
        status, errors = gateway.stop()
        said = f"needleazure-gateway: the limits stay as they are: {path}:1: not a name, a rate and a burst\n" \
            "needleazure-gateway: limits read again: 1 tenants with lines of their own\n"
        hold((status, errors) == (0, said), f"limits: the gateway ends with status {status}, and says {errors}")


class Faults:
    def __init__(self, draw):
        self.draw, self.random = draw, draw.random

    def entry(self):
        at, line, metadata = self.draw.entry(False)
        fault = self.random.randrange(12)
        if fault < 4:
            at = time.time_ns() + [-8 * 24 * 60 * MINUTE, 30 * MINUTE, -100 * MINUTE, 2**62][fault]
        elif fault == 4:
            line = b"\x01" * self.random.choice([262_144, 262_145, 300_000])
        elif fault < 9:
            metadata = [{b"k%d" % it: b"v" for it in range(17)}, {b"k" * 257: b""}, {b"k": b"v" * 1025}, {b"": b""}][fault - 5]
        return at, line, metadata

    def stream(self):
        labels = self.draw.labels(8)
        fault = self.random.randrange(12)
        if fault < 4:
            many = MOST_LABELS + self.random.choice([1, 2, 25])
            labels = [{}, {b"l%d" % it: b"v" for it in range(many)}, {b"l" * 1025: b"v"}, {b"l": b"v" * 2049}][fault]
        labels = {name: kept(value).encode() for name, value in labels.items() if value}
        return labels, [self.entry() for _ in range(self.random.randint(1, 6))]


def try_answers(messages, work):
    seed = time.time_ns()
    chance = random.Random(seed)
    draw, writer, found = Faults(Draw(chance)), Writer(messages, chance), collections.Counter()
    with (Server(f"{work}/first", workers=64) as first,
          Server(f"{work}/second", workers=64) as second, Gateway(second, **RACE) as gateway,
          Client(first.port) as direct, Client(gateway.port) as client):
        for at in range(300):
            streams = [draw.stream() for _ in range(chance.randint(1, 5))]
            asked = writer.json(streams)
            if len(asked) > 4_194_304:
                continue
            body, head = writer.draw(streams, chance.random() < 0.5)
            # (two servers have two clocks, but no entry is near a limit)
            wanted, got = direct.push(asked, JSON), client.push(body, head)
            if wanted != got:
                hold(False, f"push {at} of seed {seed}: {got} in place of {wanted}")
            found[got[0]] += 1
        what = f"{sum(found.values())} pushes are answered as by a server, status and text: {dict(found)}"
        hold(found[400] > 150, f"{what}, seed {seed}")
        try_parts(messages, gateway, client)
        ends_well(gateway, "answers")


def try_parts(messages, gateway, client):
    """A push in three parts, of which the second and the third have something to refuse."""
    now, long = time.time_ns(), b"x" * 262_145
    entries = [(now + at, b"", {}) for at in range(25_000)]
    entries[12_345], entries[24_999] = (now, long, {}), (5, b"", {})
    streams = [({b"a": b"1"}, []), ({b"parts": b"1"}, entries), ({}, entries[:1])]
    before = gateway.metric("needleazure_gateway_parts_total")
    got = client.push(snappy.compress(Writer(messages, random).protobuf(streams)), PROTOBUF)
    parts = gateway.metric("needleazure_gateway_parts_total") - before
    wanted = b"stream 1 entry 12345: line too long\nstream 1 entry 24999: too old\nstream 2: no labels\n"
    hold((got, parts) == ((400, wanted), 3), f"a push in {parts:.0f} parts is refused by the numbers of the whole: {got}")


PACKINGS = {b"snappy": snappy.compress, b"gzip": gzip.compress, b"none": bytes}


def hostile():
    """Name, head, body and the statuses that are right."""
    for name, packing, kind, encoding, statuses, *pieces in pieces_of(f"{TOP}/tests/rows/hostile/gateway.txt"):
        head = {"Content-Type": kind.decode(), "Content-Encoding": encoding.decode()}
        body = PACKINGS[packing](b"".join(pieces))
        yield name.decode(), {field: it for field, it in head.items() if it}, body, {*map(int, statuses.split())}
    yield "random bytes", PROTOBUF, os.urandom(100_000), {400, 413}
    yield "a head of 30,000 bytes", {**JSON, "X-More": "a" * 30_000}, b"{}", {431}


def ask(port, head, body):
    try:
        with Client(port) as client:
            return client.push(body, head)[0]
    except ConnectionError:
        # (one that is refused before it was read may end the connection under the client's hands)
        return None
    except TimeoutError:
        return "none in time"


def try_hostile(messages, work):
    memory, clients = 384 << 20, 12
    with (Server(f"{work}/hostile", workers=64) as server,
          Gateway(server, "--memory", str(memory)) as gateway):
        for name, head, body, wanted in hostile():
            words = [(gateway.port, head, body)] * (clients if len(body) > 10_000 else 1)
            with concurrent.futures.ThreadPoolExecutor(clients) as pool:
                found = collections.Counter(filter(None, pool.map(lambda it: ask(*it), words)))
            is_well = found and found.keys() <= wanted | {503} and (found.keys() & wanted or clients > 1)
            most = gateway.memory("VmHWM")
            hold(is_well, f"{name} in {len(body)} bytes: {dict(found)}, {most >> 20} MB at most")
        hold(most < 2 * memory, f"{most >> 20} MB of memory at most, of --memory {memory >> 20} MB")
        try_half_sent(gateway)
        entry = (time.time_ns(), b"after all", {})
        body = snappy.compress(Writer(messages, random).protobuf([({b"after": b"all"}, [entry])]))
        with Client(gateway.port) as client:
            hold(client.push(body, PROTOBUF) == (204, b""), "a push after all of them")
        hold(server.read("t", {"after": "all"}) == [value_of(entry)], "its line is there")
        held = gateway.metric("needleazure_gateway_held_bytes")
        hold(held == 0, f"{held:.0f} bytes of the memory are still held")
        ends_well(gateway, "hostile")


def try_half_sent(gateway):
    """Clients that announce a large body, send its beginning and no more, take nothing that others need."""
    with contextlib.ExitStack() as ends:
        for at in range(200):
            line = ends.enter_context(Client(gateway.port))
            line.putrequest("POST", PUSH)
            for name, value in {**PROTOBUF, "X-Scope-OrgID": "t", "Content-Length": str(16 << 20)}.items():
                line.putheader(name, value)
            line.endheaders()
            line.send(b"x" * 1000)
        time.sleep(1)
        held, began = gateway.metric("needleazure_gateway_held_bytes"), time.monotonic()
        with Client(gateway.port) as client:
            status = client.push(b"{}", JSON)[0]
        took = time.monotonic() - began
        hold(status == 204 and took < 5 and held < 200 * 20_000,
             f"beside 200 bodies of 16 MB of which 1,000 bytes came: {status} after {took:.2f} s, {held:.0f} bytes held")


def connections(port):
    """How many connections a server on this port has."""
    rows = map(str.split, servers.bytes_of("/proc/net/tcp").decode().splitlines())
    return sum(row[1].endswith(f":{port:04X}") and row[3] == "01" for row in rows)


def push_each(port, tenant, bodies):
    """Pushes these bodies over one connection: how each was answered."""
    statuses = []
    with Client(port, tenant) as client:
        for body in bodies:
            statuses.append(client.push(body, PROTOBUF)[0])
            # (as a shipper sends what came together for a while)
            time.sleep(0.05)
    return statuses


def try_clients(messages, work):
    writer, now = Writer(messages, random), time.time_ns()
    lines = {f"tenant-{at}": [(now + it, b"line %d" % it, {}) for it in range(EACH)] for at in range(CLIENTS)}
    bodies = {tenant: [snappy.compress(writer.protobuf([({b"a": b"1"}, [it])])) for it in entries]
              for tenant, entries in lines.items()}
    with Server(f"{work}/clients", workers=64) as server, Gateway(server, **RACE) as gateway:
        seen = []
        watch = Repeated(lambda: seen.append(connections(server.port)), 0.05)
        watch.start()
        began = time.monotonic()
        with concurrent.futures.ThreadPoolExecutor(CLIENTS) as pool:
            clients = pool.map(push_each, [gateway.port] * CLIENTS, *zip(*bodies.items()))
            statuses = list(itertools.chain.from_iterable(clients))
        took = time.monotonic() - began
        watch.end()
        hold(statuses == [204] * (CLIENTS * EACH), f"{len(statuses)} pushes of {CLIENTS} kept clients in {took:.1f} s")
        # (one that has ended may still be counted beside the next one)
        hold(0 < max(seen) <= 40, f"{max(seen)} connections to the server at most, of --connections 32")
        wrong = [it for it, entries in lines.items() if server.read(it, {"a": "1"}) != list(map(value_of, entries))]
        hold(not wrong, f"{len(wrong)} of them have other lines than they sent")
        ends_well(gateway, "clients")


class Pusher(Repeated):
    """Pushes one body after another until it is done, and keeps what was answered 204, and all that was sent."""

    def __init__(self, port, messages, number):
        super().__init__(self.push, 0)
        self.client, self.writer = Client(port, f"t{number}"), Writer(messages, random.Random(number))
        self.number, self.sent, self.answered, self.others = number, [], [], collections.Counter()

    def push(self):
        # (some need three parts)
        count = len(self.sent)
        length = 21_000 if self.number == 0 and count % 40 == 7 else 5
        entries = [(time.time_ns() + at, b"push %d line %d" % (count, at), {}) for at in range(length)]
        body, head = self.writer.draw([({b"a": b"1"}, entries)], count % 2 == 1)
        self.sent.append(entries)
        try:
            status = self.client.push(body, head)[0]
        except (OSError, http.client.HTTPException):
            status = 0
        if status == 204:
            self.answered.append(entries)
        else:
            self.client.close()
            self.others[status] += 1
            time.sleep(0.05)

    def judge(self, server):
        """Lines that were answered and are gone, and lines that nobody sent, of those that a server has."""
        values = server.read(self.client.tenant, {"a": "1"})
        found = {tuple(it) for it in values}
        sent = {tuple(value_of(it)) for entries in self.sent for it in entries}
        lost = sum(tuple(value_of(it)) not in found for entries in self.answered for it in entries)
        return lost, len(found - sent)


def try_kills(messages, work):
    with Server(f"{work}/kills", workers=64) as server, Gateway(server, **RACE) as gateway:
        pushers = [Pusher(gateway.port, messages, at) for at in range(8)]
        for it in pushers:
            it.start()
        for at in range(8):
            time.sleep(1.5)
            killed = [server, gateway][at % 2]
            killed.end()
            time.sleep(0.3)
            killed.start()
        time.sleep(1.5)
        for it in pushers:
            it.end()
            it.client.close()
        others = dict(sum((it.others for it in pushers), collections.Counter()))
        judged = [it.judge(server) for it in pushers]
        lost, strange = map(sum, zip(*judged))
        answered = sum(len(it.answered) for it in pushers)
        hold(answered > 100 and not lost and not strange and others.keys() <= {0, 502},
             f"{answered} pushes answered 204 beside 4 kills of the server and 4 of the gateway: {lost} of their lines lost, "
             f"{strange} that nobody sent; other answers (0 is none): {others}")
        status = gateway.stop()[0]
        hold(status == 0, f"kills: the gateway ends with status {status}")


PARTS = {"random": try_random, "otlp": try_otlp, "limits": try_limits, "answers": try_answers, "hostile": try_hostile, "clients": try_clients, "kills": try_kills}


def check(work, _, *words):
    servers.allow_many_files()
    messages = load_messages(work)
    for name in words or PARTS:
        PARTS[name](messages, work)
