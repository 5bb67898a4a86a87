"""A stand-in of a Loki: it takes pushes, and on the way refuses lines, limits tenants and streams, fails, lets
clients wait, and dies in the middle of an answer. It knows of Loki what its documentation and its source say: 204
for what was taken; 400 where lines were refused, and 429 where streams were limited, while the others of the body are
kept, with a text that names the last such stream or all of them; 500 for what may be sent again; lines of one stream with
one time and one text are one line. It reads Protobuf by Google's library: it needs protoc, python3-protobuf and
python3-snappy."""
import collections
import datetime
import functools
import http.server
import json
import random
import re
import socket
import ssl
import tempfile
import threading
import time

import gateway_bodies
import snappy

PUSH = "/loki/api/v1/push"
LABEL = re.compile(r'([^=,{} ]+)="((?:[^"\\]|\\.)*)"')


@functools.cache
def messages():
    with tempfile.TemporaryDirectory() as folder:
        return gateway_bodies.load_messages(folder)


def labels_of(text):
    return {name: re.sub(r"\\(.)", lambda it: "\n" if it[1] == "n" else it[1], value) for name, value in LABEL.findall(text)}


def shown(labels):
    """How Loki names a stream."""
    return "{" + ", ".join(f"{name}={json.dumps(labels[name], ensure_ascii=False)}" for name in sorted(labels)) + "}"


def unpacked(body):
    """A body of Protobuf in the form of JSON, and how many bytes it has."""
    plain, push = snappy.uncompress(body), messages().PushRequest()
    push.ParseFromString(plain)
    return len(plain), {"streams": [{"stream": labels_of(it.labels.decode()), "values": [value_of(of) for of in it.entries]}
                                    for it in push.streams]}


def value_of(entry):
    more = {it.name.decode(): it.value.decode() for it in entry.structuredMetadata}
    # (the library's own ToNanoseconds takes longer than all else)
    stamp = entry.timestamp
    return [str(stamp.seconds * 10**9 + stamp.nanos), entry.line.decode(), *([more] if more else [])]


class Loki(http.server.ThreadingHTTPServer):
    """`ways` are what it does beside taking, each with its share of the requests: `limit`, `fail`, `die` before it has
    taken anything, `die_after`, `sleep`. `refuses` says whether it refuses a line by 400, `oldest` is the time before which
    it does so, and says so. `status` has what answers a tenant, `limited` the labels of streams that it answers 429,
    `failed` those by which it fails the whole body.
    `certificate` is a file with one and its key. One that is `blind` takes all, and reads nothing."""

    daemon_threads, request_queue_size = True, 128

    def __init__(self, ways=None, refuses=lambda line: False, seconds=3, most=1 << 30,
                 authorization=None, certificate=None, is_blind=False):
        self.ways, self.refuses, self.seconds, self.most = ways or {}, refuses, seconds, most
        self.oldest, self.limited, self.failed, self.tries, self.is_blind = 0, [], [], [], is_blind
        self.refuses_of = lambda key, line: self.refuses(line)
        self.authorization, self.status, self.chance = authorization, {}, random.Random(1)
        self.lock, self.answers = threading.Lock(), collections.Counter()
        # by tenant and labels: what was taken, in the order in which it came
        self.streams, self.taken, self.orders = {}, set(), collections.Counter()
        super().__init__(("127.0.0.1", 0), Request)
        self.address = f"http{'s' if certificate else ''}://127.0.0.1:{self.server_port}{PUSH}"
        if certificate:
            context = ssl.SSLContext(ssl.PROTOCOL_TLS_SERVER)
            context.load_cert_chain(certificate)
            self.socket = context.wrap_socket(self.socket, server_side=True)
        threading.Thread(target=self.serve_forever, daemon=True, kwargs={"poll_interval": 0.05}).start()

    def __exit__(self, *_):
        self.shutdown()
        super().__exit__()

    def handle_error(self, *_):
        """A client that was killed in the middle is no fault."""

    def way(self):
        with self.lock:
            drawn = self.chance.random()
        for way, share in self.ways.items():
            if drawn < share:
                return way
            drawn -= share
        return "take"

    def take(self, tenant, body):
        """Takes the lines of a body. Returns what answers it."""
        said, status = [], 204
        with self.lock:
            for stream in body["streams"]:
                if stream["stream"] in self.limited:
                    self.tries.append((time.monotonic(), len(body["streams"])))
                    status, count = 429, len(stream["values"])
                    said.append(self.ignored(tenant, stream, count, "Per stream rate limit exceeded (limit: 3MB/sec)"))
                elif refused := self.take_stream(tenant, stream):
                    status = max(status, 400)
                    said.append(self.ignored(tenant, stream, len(refused), "entry too far behind"))
                    if any(int(it[0]) < self.oldest for it in refused):
                        at = datetime.datetime.fromtimestamp(self.oldest / 10**9, datetime.timezone.utc)
                        said[-1] = (f"entry for stream '{shown(stream['stream'])}' has timestamp too old: 2026-01-01T00:00:00Z, "
                                    f"oldest acceptable timestamp is: {at:%Y-%m-%dT%H:%M:%SZ}")
            # (an ingester says its last fault alone, a distributor all)
            is_last = self.chance.random() < 0.5
        if not said:
            return 204, ""
        return status, said[-1] if is_last else f"{len(said)} errors: {'; '.join(said)}"

    @staticmethod
    def ignored(tenant, stream, count, why):
        return (f"entry with timestamp 2026-11-28 10:00:00 +0000 UTC ignored, reason: '{why}',\nuser '{tenant}', "
                f"total ignored: {count} out of {len(stream['values'])} for stream: {shown(stream['stream'])}")

    def take_stream(self, tenant, stream):
        """Takes the lines of a stream. Returns those that it refuses."""
        key, refused = (tenant, json.dumps(stream["stream"], sort_keys=True)), []
        kept = self.streams.setdefault(key, [])
        for stamp, line, *metadata in stream["values"]:
            if self.refuses_of(key, line) or int(stamp) < self.oldest:
                refused.append((stamp, line))
                continue
            name = (*key, stamp, line, json.dumps(metadata[0] if metadata else None, sort_keys=True))
            if name in self.taken:
                self.answers["lines that came again"] += 1
                continue
            if kept and int(kept[-1][2]) > int(stamp):
                self.orders[key] += 1
            self.taken.add(name)
            kept.append(name)
        return refused


class Request(http.server.BaseHTTPRequestHandler):
    protocol_version = "HTTP/1.1"
    # (an answer is one write, and goes at once)
    wbufsize = -1
    disable_nagle_algorithm = True

    def do_POST(self):
        status, text = self.answer(self.rfile.read(int(self.headers["Content-Length"])))
        with self.server.lock:
            self.server.answers[status] += 1
        if status == "died":
            self.close_connection = True
            self.connection.shutdown(socket.SHUT_RDWR)
            return
        self.send_response(status)
        self.send_header("Content-Length", str(len(text)))
        self.end_headers()
        self.wfile.write(text.encode())

    def answer(self, body):
        tenant, loki, kind = self.headers["X-Scope-OrgID"], self.server, self.headers["Content-Type"]
        if self.path != PUSH or not tenant or kind not in ("application/x-protobuf", "application/json"):
            return 404, "no push"
        if loki.is_blind:
            return 204, ""
        if tenant in loki.status:
            return loki.status[tenant], "as the test says"
        if loki.authorization and self.headers["Authorization"] != loki.authorization:
            return 401, "no credentials"
        length, body = unpacked(body) if "protobuf" in kind else (len(body), json.loads(body))
        if length > loki.most:
            return 413, "too large"
        return self.go(loki.way(), tenant, body)

    def go(self, way, tenant, body):
        loki = self.server
        if way in ("limit", "fail", "die"):
            return {"limit": 429, "fail": 500, "die": "died"}[way], "ingestion rate limit exceeded"
        if any(it["stream"] in loki.failed for it in body["streams"]):
            with loki.lock:
                loki.tries.append((time.monotonic(), len(body["streams"])))
            return 500, "at least 2 live replicas required, could only find 1"
        if way == "sleep":
            time.sleep(loki.seconds)
        answer = loki.take(tenant, body)
        return ("died", "") if way == "die_after" else answer

    def log_message(self, *_):
        pass
