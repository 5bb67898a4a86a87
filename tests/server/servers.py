"""What runs over a built server share. An entry is its time, its line, and its metadata as pairs of
bytes in the order of their names; labels are a dict."""
import atexit
import contextlib
import functools
import glob
import gzip
import http.client
import itertools
import json
import mmap
import os
import re
import resource
import select
import shutil
import signal
import socket
import struct
import subprocess
import sys
import tempfile
import threading
import time
import urllib.request

TOP = os.path.dirname(os.path.dirname(os.path.dirname(os.path.realpath(__file__))))
sys.path.append(f"{TOP}/tests/models")
import judges
from bodies import MOST_TIME, canonical, entries_of, value_of
from bodies import shard_of as shard_of_key
from segments import generation_of

SECONDS = 60
HOUR = judges.HALF_AGE
PUSH, READ, TRIM = "/loki/api/v1/push", "/ingester/v1/read", "/ingester/v1/trim"
READY = b"GET /ready HTTP/1.1\r\n\r\n"


def program(name):
    return f"{TOP}/crates/{name}/out/{name}"


def hold(is_so, what):
    """Says whether something is so, and ends the run where it isn't."""
    print(f"{'ok' if is_so else 'WRONG'}: {what}", flush=True)
    if not is_so:
        sys.exit(1)


def need(is_so, what):
    """Ends the run where something isn't so, and says nothing else."""
    if not is_so:
        hold(is_so, what)


def end_by_term(number, _):
    """Ends the run so that its servers and folders go, and lets no second signal stop that (`timeout` sends two)."""
    signal.signal(number, signal.SIG_IGN)
    sys.exit(128 + number)


def run_script(main, *words):
    signal.signal(signal.SIGTERM, end_by_term)
    sys.exit(main(*words))


def wait_until(is_so, seconds=SECONDS, pause=0.05):
    """Waits until something holds, for at most these seconds: what it was at last."""
    until = time.monotonic() + seconds
    while not (found := is_so()) and time.monotonic() < until:
        time.sleep(pause)
    return found


class Repeated(threading.Thread):
    """Does something again, a pause after it was done, until it is told to end, or there is a `fault`."""

    def __init__(self, do, pause=1.0):
        super().__init__(daemon=True)
        self.do, self.pause, self.is_done, self.fault = do, pause, threading.Event(), None

    def run(self):
        while not self.is_done.is_set() and not self.fault:
            self.do()
            self.is_done.wait(self.pause)

    def end(self):
        self.is_done.set()
        self.join(SECONDS)


def allow_many_files():
    """Lets this process have as many open files as it may, and returns how many."""
    most = resource.getrlimit(resource.RLIMIT_NOFILE)[1]
    resource.setrlimit(resource.RLIMIT_NOFILE, (most, most))
    return most


@functools.cache
def library():
    """The library of preload.c, which is preloaded, until this process ends."""
    folder = tempfile.mkdtemp(prefix="needleazure-preload-")
    atexit.register(shutil.rmtree, folder, True)
    path, source = f"{folder}/preload.so", f"{TOP}/tests/server/preload.c"
    subprocess.run(["cc", "-shared", "-fPIC", "-O1", "-o", path, source, "-ldl", "-lpthread"], check=True)
    return path


def run(words, data=b"", **how):
    """Exit status, output and errors of a program, by its name or path. A server that starts is killed: status None."""
    words = [words[0] if "/" in words[0] else program(words[0]), *words[1:]]
    how = {**dict.fromkeys(["stdin", "stdout", "stderr"], subprocess.PIPE), **how, "env": broken(how.get("env", {}))}
    # (without a buffer, so that what comes after the line is left for the rest)
    with subprocess.Popen(words, bufsize=0, **how) as it, contextlib.ExitStack() as ends:
        watch = threading.Timer(SECONDS, it.kill)
        watch.start()
        ends.callback(watch.cancel)
        said = it.stdout.readline() if words[0].endswith("ingesterd") else b""
        if said.startswith(b"ready"):
            it.kill()
            return None, b"ready", b""
        output, errors = it.communicate(data)
        return it.returncode, said + output, errors


def memory():
    """The place where syncs take no time, where the system has such a place."""
    return "/dev/shm" if os.access("/dev/shm", os.W_OK) else None


def room(name, place=None):
    """A temporary folder, in MEASURE_DIR where no other place is said."""
    return tempfile.TemporaryDirectory(prefix=f"needleazure-{name}-", dir=place or os.environ.get("MEASURE_DIR"))


def allocator():
    """The settings by which `make run` gives the server its allocator."""
    found = sorted(glob.glob("/usr/lib/*/libjemalloc.so.2"))
    return {"LD_PRELOAD": found[0]} if found else {"GLIBC_TUNABLES": "glibc.malloc.tcache_count=1000"}


def limit_length(length):
    """What a program is started with whose files may not grow past this length."""
    def limit():
        # (a write past the limit fails, in place of ending the process)
        signal.signal(signal.SIGXFSZ, signal.SIG_IGN)
        resource.setrlimit(resource.RLIMIT_FSIZE, (length, length))
    return limit


def broken(settings):
    """The settings of a server, which is broken where this run's environment has variables of preload.c."""
    ways = {name: value for name, value in os.environ.items() if name.startswith("BREAK_")}
    given = settings.get("LD_PRELOAD", "")
    if ways and "/preload.so" not in given:
        given = f"{library()} {given}".strip()
    return {**settings, **ways, "LD_PRELOAD": given} if ways else settings


def text_of(labels):
    return canonical([(name.encode(), value.encode()) for name, value in labels.items()])


def shard_of(tenant, labels, count):
    return shard_of_key(tenant.encode(), text_of(labels), count)


def labels_in(shard, count, tenant="t", name="s"):
    """Labels of streams of a shard, without end."""
    labels = ({name: str(number)} for number in itertools.count())
    return (it for it in labels if shard_of(tenant, it, count) == shard)


def slots_of(folder, shard=0):
    return [f"{folder}/shard-{shard:02}-{slot}.wal" for slot in (0, 1)]


def other_slot(path):
    """The path of the other slot of a slot's shard; nothing where the path is no slot's."""
    found = re.fullmatch(r"(.*/shard-\d\d-)([01])(\.wal)", path)
    return found and f"{found[1]}{1 - int(found[2])}{found[3]}"


def fill_slots(folder, count, settings):
    subprocess.run([f"{TOP}/deploy/fill-slots", folder, str(count)], env={**os.environ, **settings}, check=True)


def generation(folder, shard=0):
    """The generation of a shard's log: the greater one of its open slots, 0 where none is open."""
    return max(generation_of(bytes_of(it, 21)) for it in slots_of(folder, shard))


def free_ports(count):
    """Ports that nobody listens on."""
    with contextlib.ExitStack() as ends:
        return [ends.enter_context(socket.create_server(("127.0.0.1", 0))).getsockname()[1] for _ in range(count)]


def is_listening(port):
    with socket.socket() as it:
        return not it.connect_ex(("127.0.0.1", port))


def get(port, path):
    """What is at a path of a port of the loopback, nothing where it isn't answered."""
    with contextlib.suppress(OSError, http.client.HTTPException):
        with urllib.request.urlopen(f"http://127.0.0.1:{port}{path}", timeout=10) as answer:
            return answer.read()
    return b""


def memory_of(process, which="VmRSS"):
    """How many bytes of memory it has now, or with VmHWM has had at most; none once it has ended."""
    lines = bytes_of(f"/proc/{process}/status").decode().splitlines()
    return next((int(line.split()[1]) * 1024 for line in lines if line.startswith(which)), 0)


class SetClock:
    """A clock that a server waits by, which stands still until it is set. `settings` are those of such a server."""

    def __init__(self, path):
        write(path, bytes(8))
        with open(path, "r+b") as file:
            self.told = mmap.mmap(file.fileno(), 8)
        self.settings = {"LD_PRELOAD": library(), "CLOCK_AT": path}
        self.set(0)

    def set(self, seconds):
        """Sets it to this many seconds after it was made. A server with one worker has then looked after its connections
        once a new one of them has had two answers."""
        self.told[:] = struct.pack("<q", (1_000 + seconds) * 10**9)


class NotStarted(Exception):
    """A server ended before it was ready, with this status and these words on standard error."""

    def __init__(self, status, errors):
        super().__init__(f"status {status}: {errors.decode().strip()}")
        self.status, self.errors = status, errors


class Program(contextlib.AbstractContextManager):
    """A program that says `ready` and where, until it is killed. `settings` is all of its environment."""

    def __init__(self, words, settings, **how):
        self.words, self.how = words, {"stdout": subprocess.PIPE, "stderr": subprocess.PIPE, "env": settings, **how}
        self.start()

    def start(self):
        self.running = subprocess.Popen(self.words, **self.how)
        watch = threading.Timer(SECONDS, self.running.kill)
        watch.start()
        said = self.running.stdout.readline()
        watch.cancel()
        if not said.startswith(b"ready "):
            errors = self.running.stderr.read() if self.running.stderr else b""
            raise NotStarted(self.end(), errors)
        self.pid, self.port = self.running.pid, int(said.split()[1].rpartition(b":")[2])

    def __exit__(self, *_):
        self.end()

    def end(self):
        """Kills it. Returns its exit status."""
        self.running.kill()
        status = self.running.wait()
        self.running.stdout.close()
        return status

    def errors(self):
        """What it wrote to standard error, after its end."""
        with self.running.stderr as file:
            return file.read().decode()

    def memory(self, which="VmRSS"):
        return memory_of(self.pid, which)

    def sockets(self):
        """How many sockets it has open."""
        found = 0
        for it in os.listdir(f"/proc/{self.pid}/fd"):
            # (it may be closed meanwhile)
            with contextlib.suppress(FileNotFoundError):
                found += os.readlink(f"/proc/{self.pid}/fd/{it}").startswith("socket:")
        return found

    def processor(self):
        """For how many seconds it has had a processor."""
        words = bytes_of(f"/proc/{self.pid}/stat").rpartition(b")")[2].split()
        return (int(words[11]) + int(words[12])) / os.sysconf("SC_CLK_TCK")


class Server(Program):
    def __init__(self, folder, shards=4, workers=8, settings=None, more=(), **how):
        words = [program("ingesterd"), folder, "0", str(shards), str(workers), *more]
        super().__init__(words, broken(settings or {}), **how)
        # (which stays the same when it is started again)
        self.words[2] = str(self.port)

    def read(self, tenant, labels):
        """The entries of a stream as JSON has them."""
        with Client(self.port, tenant) as client:
            return client.values(labels)


def request(path, body, tenant="t", kind="application/json", *more):
    """A request with a body of bytes, or one that is written as JSON, and with more fields of its head."""
    body = body if isinstance(body, bytes) else json.dumps(body).encode()
    fields = [f"X-Scope-OrgID: {tenant}", f"Content-Type: {kind}", f"Content-Length: {len(body)}", *more]
    return "\r\n".join([f"POST {path} HTTP/1.1", *fields, "", ""]).encode() + body


def push_body(streams):
    return {"streams": [{"stream": labels, "values": list(map(value_of, entries))} for labels, entries in streams]}


def push_request(labels, entries, tenant="t"):
    return request(PUSH, push_body([(labels, entries)]), tenant)


def entry(line="x"):
    return time.time_ns(), line, ()


def lines_from(start, count, length, step=1, first=0):
    """Entries of lines of this length, which begin with their numbers from the first one on."""
    numbers = range(first, first + count)
    return [(start + at * step, f"{at} ".ljust(length, "x"), ()) for at in numbers]


def read_body(labels, first=0, last=MOST_TIME):
    return {"stream": labels, "from": str(first), "to": str(last)}


def connect(port, seconds=SECONDS):
    """A connection that sends at once."""
    ends = socket.create_connection(("127.0.0.1", port), seconds)
    ends.setsockopt(socket.IPPROTO_TCP, socket.TCP_NODELAY, 1)
    return ends


def connect_narrowly(port):
    """A connection with small buffers on both sides: of a long answer most waits in the server until it is taken."""
    ends = socket.socket()
    ends.settimeout(SECONDS)
    ends.setsockopt(socket.SOL_SOCKET, socket.SO_RCVBUF, 32_768)
    ends.setsockopt(socket.IPPROTO_TCP, socket.TCP_MAXSEG, 1_400)
    ends.connect(("127.0.0.1", port))
    ends.setsockopt(socket.IPPROTO_TCP, socket.TCP_NODELAY, 1)
    return ends


def is_open(ends):
    """Whether the other end of a connection, of which nothing is to be taken, has neither ended nor hung up."""
    with contextlib.suppress(ConnectionError):
        return not select.select([ends], [], [], 0)[0] or ends.recv(1, socket.MSG_PEEK) != b""
    return False


class Client(contextlib.AbstractContextManager):
    """A connection to a server. Requests may be sent before the answers to earlier ones are taken."""

    def __init__(self, port, tenant="t", seconds=SECONDS, connect=connect):
        self.tenant, self.found, self.ends = tenant, bytearray(), connect(port)
        self.ends.settimeout(seconds)

    def __exit__(self, *_):
        self.ends.close()

    def more(self):
        piece = self.ends.recv(1 << 20)
        if not piece:
            raise ConnectionError("ended without an answer")
        self.found += piece

    def answer(self):
        """Status and body of the next answer."""
        while (begin := self.found.find(b"\r\n\r\n") + 4) < 4:
            self.more()
        head = self.found[:begin].split(b"\r\n")
        end = begin + sum(int(it[15:]) for it in head if it.startswith(b"Content-Length:"))
        while len(self.found) < end:
            self.more()
        body = bytes(self.found[begin:end])
        del self.found[:end]
        return int(head[0].split()[1]), body

    def send(self, path, body):
        self.ends.sendall(request(path, body, self.tenant))

    def ask(self, path, body):
        self.send(path, body)
        return self.answer()

    def store(self, *streams):
        """Pushes streams, each its labels and entries, and ends the run where they are not answered 204."""
        status, text = self.ask(PUSH, push_body(streams))
        need(status == 204, f"a push is answered {status} {text[:200]}")

    def values(self, labels):
        return json.loads(self.ask(READ, read_body(labels))[1])["values"]

    def push(self, labels, entries):
        """Status and text of the answer to a push of one stream."""
        status, text = self.ask(PUSH, push_body([(labels, entries)]))
        return status, text.decode()

    def read(self, labels, first=0, last=MOST_TIME):
        """The entries of a stream, or the status of another answer."""
        return entries_of(*self.ask(READ, read_body(labels, first, last)))

    def read_all(self, streams):
        """The entries of each of these streams, read by requests that are sent together."""
        self.ends.sendall(b"".join(request(READ, read_body(it), self.tenant) for it in streams))
        return [entries_of(*self.answer()) for _ in streams]

    def trim(self, labels, bound):
        status, text = self.ask(TRIM, {"stream": labels, "bound": str(bound)})
        return status, text.decode()


def pushed(port, body, tenant="t", seconds=SECONDS):
    """The status that answers a push over a connection of its own, 0 where none does."""
    with contextlib.suppress(OSError), Client(port, tenant, seconds) as client:
        return client.ask(PUSH, body)[0]
    return 0


class Pusher(Repeated):
    """Pushes line after line to its streams, each again until it is answered 204. `answered` are
    these, with their labels; `errors` are the other answers, with their times."""

    def __init__(self, ask, streams, pause=0):
        super().__init__(self.push_each, pause)
        self.ask, self.streams, self.answered, self.errors = ask, streams, [], []

    def push_each(self):
        for labels in self.streams:
            line = entry(f"line {len(self.answered)}")
            while (status := self.ask(push_body([(labels, [line])]))) != 204:
                self.errors.append((time.monotonic(), status))
                time.sleep(0.1)
            self.answered.append((labels, line))


# (the drain and deploy/sweep run walcat)
WITH_WALCAT = f"{os.path.dirname(program('walcat'))}:{os.environ['PATH']}"


DRAIN = os.environ.get("DRAIN", f"{TOP}/deploy/out/needleazure-drain")


def drain(folder, port, shards, to=None, more=(), **settings):
    """A run of the drain over a log, whose lines go to the folder `lines` beside it, or elsewhere."""
    above = os.path.dirname(folder)
    words = [DRAIN, folder, str(port), str(shards), to or f"{above}/lines", *more]
    environment = {**os.environ, "PATH": WITH_WALCAT, "TMPDIR": above, **settings}
    return subprocess.Popen(words, env=environment, stderr=subprocess.PIPE, text=True, start_new_session=True)


def drained(folder):
    """The lines of the drain's files below a folder: of each its tenant, its file's name, and what it has."""
    for path in sorted(glob.glob(f"{folder}/*/*.gz")):
        with gzip.open(path, "rt", encoding="utf-8") as file:
            for it in map(json.loads, file):
                yield *path.split("/")[-2:], it


def last_run(folder):
    lines = bytes_of(f"{folder}/.last-run").decode().splitlines()
    return {name: float(value) for name, value in map(str.split, lines)}


def text_at(path):
    return bytes_of(f"{TOP}/{path}").decode()


def setting_of(name):
    """What the package's settings say."""
    return re.search(rf"^{name}=(.*)$", text_at("deploy/needleazure.default"), re.MULTILINE)[1]


def number_in(path, name):
    """A constant of the source."""
    return int(re.search(rf"const {name}: \w+ = ([\d_]+);", text_at(path))[1])


def write_program(path, text):
    os.makedirs(os.path.dirname(path), exist_ok=True)
    write(path, text.encode())
    os.chmod(path, 0o755)


def certify(name, key, certificate, *more):
    """Makes a key, and a certificate of this name for a day."""
    kind = ["-newkey", "ec", "-pkeyopt", "ec_paramgen_curve:prime256v1", "-noenc"]
    words = ["openssl", "req", "-x509", "-subj", name, "-days", "1", *kind, "-keyout", key, "-out", certificate, *more]
    subprocess.run(words, check=True, stderr=subprocess.DEVNULL)


def unpacked(folder, *packages):
    """A folder with Debian's packages, which are not installed."""
    os.makedirs(folder)
    get = f"apt-get -qq -o APT::Sandbox::User=root download {' '.join(packages)}"
    subprocess.run(f"{get} && for it in *.deb; do dpkg -x $it .; done", shell=True, check=True, cwd=folder, timeout=300)
    return folder


def write(path, data):
    with open(path, "wb") as file:
        file.write(data)


def bytes_of(path, most=-1):
    """The bytes of a file, or the first of them, none where it isn't there."""
    with contextlib.suppress(FileNotFoundError), open(path, "rb") as file:
        return file.read(most)
    return b""
