"""drain_check [files|loki|both|counted]: needleazure-drain over a server under load, again and again, and killed in the middle.

files: 64 clients push lines of 2,000 streams whose times run fast; each line that was answered stands in the files or
is still in the server. loki: the same to a stub of a Loki that limits, fails, dies, waits, and refuses some lines,
which are then in files; to others that take nothing, small bodies, or only of who is known, that limit a stream for a
minute, or refuse lines of some streams; and to a second server. both: server and drain are killed by turns, KILLS times (10),
while the drain runs as a service, to files or to a Loki. counted: drain_counted.py, over a stub of a server. It needs
protoc, python3-protobuf and python3-snappy."""
import collections
import contextlib
import glob
import json
import os
import random
import signal
import subprocess
import time

import loki_stub
import servers
from servers import hold

KILLS, CLIENTS, SHARDS = {"files": 10, "loki": 6, "both": int(os.environ.get("KILLS", "10"))}, 64, 4
# seconds from one push of a client to its next, pushes of a connection
PAUSE, KEPT = 1, 5
SPECIAL = [("one", {"job": 'quoted " and \\', "from": "ö"}), ("two", {"job": "of\ttwo\nlines"})]
# (so that the streams of a client are those of one tenant)
MANY = [*SPECIAL, ("two", {"job": "plain"}), *((f"tenant-{number % CLIENTS % 5}", {"job": "many", "pod": str(number)})
                                               for number in range(3, 2000))]
FEW = SPECIAL + [(("one", "two", "three")[number % 3], {"job": "many", "pod": str(number)}) for number in range(30)]
HOSTILE = {"limit": 0.05, "fail": 0.05, "die": 0.03, "die_after": 0.03, "sleep": 0.01}


def name_of(tenant, labels, stamp, line, metadata=None):
    return tenant, json.dumps(labels, sort_keys=True), stamp, line, json.dumps(metadata, sort_keys=True)


def is_unwanted(line):
    return line.endswith("7777")


def value_of(stamp, number):
    """An entry: one in three hundred is unwanted, and every third line has metadata."""
    more = [{"trace_id": f"{number:x}", "of": 'quoted " ö'}] if number % 3 == 0 else []
    return [str(stamp), f"line {number}{' 7777' if number % 300 == 0 else ''}", *more]


class Pusher(servers.Repeated):
    """Pushes a number of lines to each of its streams each second, whose times run by ten minutes."""

    def __init__(self, port, streams, lines):
        super().__init__(self.keep_pushing, 0)
        self.port, self.lines, self.step = port, lines, servers.HOUR // 6 // lines
        self.tenants = {tenant: [] for tenant, _ in streams}
        for tenant, labels in streams:
            self.tenants[tenant].append(labels)
        self.answered, self.count, self.stamp = [], 0, time.time_ns() - 6 * 24 * servers.HOUR

    def keep_pushing(self):
        try:
            with servers.Client(self.port) as client:
                for _ in range(KEPT):
                    self.push(client, self.lines)
                    if self.is_done.wait(PAUSE) or self.fault:
                        break
        except OSError as fault:
            self.fault = fault

    def push(self, client, lines):
        values = [value_of(self.stamp + at * self.step, self.count + at) for at in range(lines)]
        for client.tenant, streams in self.tenants.items():
            status, said = client.ask(servers.PUSH, {"streams": [{"stream": it, "values": values} for it in streams]})
            if status != 204:
                self.fault = status, said
                return
            self.answered += [name_of(client.tenant, it, *value) for it in streams for value in values]
        self.count, self.stamp = self.count + lines, self.stamp + lines * self.step


def begin(pushers):
    for it in pushers:
        it.start()
        time.sleep(PAUSE / len(pushers))


def end(pushers):
    """Ends them: the lines that were answered."""
    for it in pushers:
        it.end()
    faults = [it.fault for it in pushers if it.fault]
    hold(not faults, f"each push is answered 204 {faults[:3] or ''}".strip())
    return {line for it in pushers for line in it.answered}


class Drain:
    def __init__(self, work, port, to=None, **settings):
        self.began, self.running = time.monotonic(), servers.drain(f"{work}/log", port, SHARDS, to, **settings)

    def end(self):
        """Its exit status, what it said, and how long it took. (A server of layout 2 counts no trims, as each run says.)"""
        said = self.running.communicate(timeout=300)[1].splitlines(True)
        said = "".join(it for it in said if not it.startswith("the server counts no trims (501 "))
        return self.running.returncode, said, time.monotonic() - self.began

    def kill(self, seconds, has_begun=lambda: True):
        """Whether it is killed, with all that it started, these seconds after it has begun."""
        while self.running.poll() is None and not has_begun():
            time.sleep(0.005)
        try:
            self.running.communicate(timeout=seconds)
            return False
        except subprocess.TimeoutExpired:
            os.killpg(self.running.pid, signal.SIGKILL)
            self.running.communicate()
            return True


def in_files(folder):
    for tenant, name, it in servers.drained(folder):
        day = time.strftime("%Y-%m-%d", time.gmtime(int(it["time"]) // 10**9))
        assert name == f"{day}.jsonl.gz", (name, it)
        yield name_of(tenant, it["stream"], it["time"], it["line"], it.get("metadata"))


def in_server(port, streams):
    with servers.Client(port) as client:
        for client.tenant, labels in streams:
            for value in client.values(labels):
                yield name_of(client.tenant, labels, *value)


def tells(folder, left, **due):
    """Whether the last run left what it did, and the time of the oldest line that it left."""
    told = servers.last_run(folder)
    return {**told, **due} == told and abs(told["oldest"] - min(int(it[2]) for it in left) / 10**9) < 0.001


def written(work):
    return sum(map(os.path.getsize, glob.glob(f"{work}/lines/*/*.gz")))


def run_and_kill(work, port):
    """Whole runs, and ten that are killed."""
    status, text, whole = Drain(work, port).end()
    hold(status == 0 and not text, f"a run beside {CLIENTS} busy clients ends well after {whole:.1f} s {text[:300]}")
    kills, ends = 0, 1
    while kills < KILLS["files"]:
        # (some of them between a write and its trims)
        is_late, before = kills >= KILLS["files"] // 2, written(work)
        has_begun = lambda: not is_late or written(work) != before
        is_killed = Drain(work, port).kill(random.uniform(0, 0.25 if is_late else whole * 0.8), has_begun)
        kills, ends = kills + is_killed, ends + (not is_killed)
    return kills, ends


def to_files(work, server):
    port = server.port
    pushers = [Pusher(port, MANY[it::CLIENTS], 1) for it in range(CLIENTS)]
    begin(pushers)
    while min(it.count for it in pushers) < 15 and not any(it.fault for it in pushers):
        time.sleep(0.2)
    kills, ends = run_and_kill(work, port)
    answered = end(pushers)
    before = sum(1 for _ in in_server(port, MANY))
    status, text, _ = Drain(work, port).end()
    hold(status == 0 and not text, f"the last run ends well {text[:300]}")
    kept, left = collections.Counter(in_files(f"{work}/lines")), collections.Counter(in_server(port, MANY))
    lost, strange = answered - kept.keys() - left.keys(), (kept.keys() | left.keys()) - answered
    files, in_all = sum(kept.values()), sum(left.values())
    print(f"{len(answered)} lines answered, {files} written to files over {kills} kills and {ends} whole runs")
    hold(not lost and not strange and kept and len(left) < len(answered), f"{in_all} left in the server, {len(lost)} "
         f"lost, {files + in_all - len(answered)} twice, {len(strange)} of nobody")
    check_told(work, left, before)
    check_idle(work, port)
    check_hung(work, server)
    check_window(work, port)


def check_told(work, left, before):
    """The last run, before which the server had `before` lines, left what it did, and one without a server does."""
    said = servers.last_run(f"{work}/lines")
    is_so = tells(f"{work}/lines", left, streams=len(MANY), lines=before - sum(left.values()), errors=0)
    is_so &= said["good"] == said["ended"] and 0 <= time.time() - said["ended"] < 60 and 0 < said["seconds"] < 60
    hold(is_so, f"the last run tells {said}")
    status, text, _ = Drain(work, 1).end()
    after = servers.last_run(f"{work}/lines")
    is_so = status == 1 and after["errors"] == len(MANY) and after["good"] == said["good"] < after["ended"]
    hold(is_so and "the server doesn't answer" in text, f"one without a server: {after} {text.splitlines()[-1]}")


def check_idle(work, port):
    """A run beside more idle connections than the server has workers."""
    idle = [servers.Client(port) for _ in range(CLIENTS + 1)]
    status, text, took = Drain(work, port).end()
    hold(status == 0 and not text, f"one beside {len(idle)} idle connections ends well after {took:.1f} s {text[:300]}")


def check_hung(work, server):
    """A run over a server that accepts connections and does not answer."""
    os.kill(server.running.pid, signal.SIGSTOP)
    status, text, took = Drain(work, server.port, NEEDLEAZURE_DRAIN_TIMEOUT="2s").end()
    os.kill(server.running.pid, signal.SIGCONT)
    is_so = status == 1 and took < 20 and servers.last_run(f"{work}/lines")["errors"] == len(MANY)
    is_so &= "no answer within 2 s" in text
    hold(is_so, f"one over a server that hangs ends after {took:.1f} s: {text.splitlines()[:1]}")


def check_window(work, port):
    """A run that is told a shorter window than the server's writes the lines of one stream, and stops."""
    kept = sum(1 for _ in in_files(f"{work}/lines"))
    status, text, _ = Drain(work, port, NEEDLEAZURE_MAX_CHUNK_AGE="20m").end()
    more = sum(1 for _ in in_files(f"{work}/lines")) - kept
    hold(status == 1 and "NEEDLEAZURE_MAX_CHUNK_AGE" in text and 0 < more < 10,
         f"one with a shorter window than the server's writes {more} lines again, and stops: {text.splitlines()[0]}")


class Place:
    """A server, and the lines that it answered. What drains leave is in the folder `state`."""

    def __init__(self, work, server):
        self.work, self.state, self.port = work, f"{work}/state", server.port
        self.pushers = [Pusher(self.port, [it], 10) for it in FEW]

    def fill(self, lines=200):
        """Pushes lines of some hours of each stream. What the server has then."""
        with servers.Client(self.port) as client:
            for it in self.pushers:
                it.push(client, lines)
                servers.need(not it.fault, f"a push is answered {it.fault}")
        return self.left()

    def left(self):
        return set(in_server(self.port, FEW))

    def start(self, to, **settings):
        usual = {"STATE_DIRECTORY": self.state, "NEEDLEAZURE_DRAIN_TIMEOUT": "60s", "NEEDLEAZURE_LOKI_PATIENCE": "60s"}
        return Drain(self.work, self.port, to, **{**usual, **settings})

    def drain(self, to, **settings):
        return self.start(to, **settings).end()[:2]

    def drain_and_kill(self, loki):
        """A run that is killed after it has sent something. Whether it was still there."""
        before = sum(loki.answers.values())
        run = self.start(loki.address, NEEDLEAZURE_DRAIN_TIMEOUT="1s")
        return run.kill(random.uniform(0, 0.4), lambda: sum(loki.answers.values()) != before)


def under_load(place):
    with loki_stub.Loki(HOSTILE, is_unwanted, most=8_000) as loki:
        begin(place.pushers)
        kills = 0
        while kills < KILLS["loki"]:
            kills += place.drain_and_kill(loki)
        answered = end(place.pushers)
        status, said = place.drain(loki.address)
        what = f"a drain ends well after {kills} kills, over {dict(loki.answers)}"
        hold(status == 0, f"{what} {said if status else ''}".strip())
    kept, left = collections.Counter(in_files(f"{place.state}/refused")), place.left()
    lost, strange = answered - loki.taken - kept.keys() - left, (loki.taken | kept.keys() | left) - answered
    refused = {it for it in answered - left if is_unwanted(it[3])}
    hold(not lost and not strange, f"{len(answered)} lines answered, {len(loki.taken)} in the Loki, {len(kept)} "
         f"refused, {len(left)} in the server; {len(lost)} lost, {len(strange)} of nobody")
    unwanted, twice = {it for it in kept.keys() | loki.taken if is_unwanted(it[3])}, sum(kept.values()) - len(kept)
    is_so = refused <= kept.keys() == unwanted and not unwanted & loki.taken
    hold(is_so, f"what the Loki refused is in the files, and nothing else ({twice} of it twice)")
    hold(loki.taken and left and not sum(loki.orders.values()), "each stream came in its order")
    told = servers.last_run(place.state)
    hold(tells(place.state, left, errors=0) and told["lines"] + told["refused"] > 0, f"the last run tells {told}")


def one_tenant(place):
    """Tenants that a Loki limits or doesn't let in keep their lines in the server, and the others are drained."""
    for status in (429, 401):
        place.fill()
        with loki_stub.Loki() as loki:
            loki.status["two"] = status
            ended, said = place.drain(loki.address, NEEDLEAZURE_LOKI_PATIENCE="2s")
        of_two = {line for it in place.pushers for line in it.answered if line[0] == "two"} - loki.taken
        hold(ended == 1 and f"answers {status} as the test says" in said, f"a tenant that is answered {status}: "
             f"exit status {ended}: {said.splitlines()[0]}")
        kept = of_two & place.left()
        hold({it[0] for it in loki.taken} == {"one", "three"} and len(kept) > 1000,
             f"the {len(loki.taken)} lines of the others are in the Loki, and {len(kept)} of it in the server")


def no_loki(place):
    """One that is away, and one that never answers: nothing is trimmed, and the run ends."""
    before, away = place.fill(50), f"http://127.0.0.1:{servers.free_ports(1)[0]}/loki/api/v1/push"
    with loki_stub.Loki({"sleep": 1}, seconds=30) as silent:
        for what, address in [("is away", away), ("never answers", silent.address)]:
            status, said = place.drain(address, NEEDLEAZURE_LOKI_PATIENCE="3s", NEEDLEAZURE_DRAIN_TIMEOUT="1s")
            hold(status == 1 and "does not take lines" in said and place.left() == before,
                 f"a Loki that {what}: exit status {status}, and nothing is trimmed: {said.strip()}")


def small_bodies(place):
    before = place.fill()
    with loki_stub.Loki(most=20_000, authorization="Basic dTpwL3c=") as loki:
        status, said = place.drain(loki.address.replace("//", "//u:p%2Fw@"))
        what = "a Loki that takes 20,000 bytes, and wants to know who sends"
        hold(status == 0, f"{what}: {dict(loki.answers)} {said}".strip())
    left, taken = place.left(), loki.taken
    hold(before - left == taken and not left & taken, f"{len(taken)} lines are in it, {len(left)} in the server")
    with loki_stub.Loki(authorization="Bearer x") as loki:
        place.fill(100)
        status, said = place.drain(loki.address, NEEDLEAZURE_LOKI_AUTHORIZATION="Bearer x")
        hold(status == 0 and loki.taken, f"and one that wants a token {said}".strip())


def over_tls(place):
    before, certificate = place.fill(100), f"{place.work}/loki.pem"
    servers.certify("/CN=loki", certificate, f"{certificate}.crt", "-addext", "subjectAltName=IP:127.0.0.1")
    servers.write(certificate, servers.bytes_of(certificate) + servers.bytes_of(f"{certificate}.crt"))
    with loki_stub.Loki(certificate=certificate) as loki:
        status, said = place.drain(loki.address, NEEDLEAZURE_LOKI_PATIENCE="1s")
        hold(status == 1 and "certificate signed by unknown authority" in said and place.left() == before,
             f"a Loki whose certificate nobody knows gets nothing: {said.strip()}")
        status, said = place.drain(loki.address, SSL_CERT_FILE=f"{certificate}.crt")
        is_so = status == 0 and loki.taken == before - place.left()
        hold(is_so, f"and by SSL_CERT_FILE {len(loki.taken)} lines {said}".strip())


def second_server(place):
    before = place.fill()
    with servers.Server(f"{place.work}/second", SHARDS, 64) as second:
        status, said = place.drain(f"http://127.0.0.1:{second.port}/loki/api/v1/push")
        hold(status == 0, f"to a second server, which takes no gzip {said}".strip())
        there = collections.Counter(in_server(second.port, FEW))
    left = place.left()
    hold(before - left == set(there) and len(there) > 1000 and sum(there.values()) == len(there),
         f"its {len(there)} lines are there once, and {len(left)} left")


class Tenant:
    """Streams of a tenant, into which some hours of lines are pushed."""

    def __init__(self, place, name, count, lines, pushes=1, hours=3):
        self.port, self.streams = place.port, [(name, {"job": "many", "pod": str(it)}) for it in range(count)]
        pusher = Pusher(place.port, self.streams, lines)
        pusher.step = hours * servers.HOUR // (lines * pushes)
        with servers.Client(place.port) as client:
            for _ in range(pushes):
                pusher.push(client, lines)
        servers.need(not pusher.fault, f"a push is answered {pusher.fault}")
        self.all = set(pusher.answered)
        self.due = {it for it in self.all if int(it[2]) < pusher.stamp - pusher.step - servers.HOUR}

    def key(self, at):
        return json.dumps(self.streams[at][1], sort_keys=True)

    def left(self):
        return set(in_server(self.port, self.streams))


@contextlib.contextmanager
def service(place, loki, **settings):
    """The drain as a service, to a Loki."""
    settings = {"STATE_DIRECTORY": place.state, "NEEDLEAZURE_LOKI_PATIENCE": "60s", **settings}
    running = servers.drain(f"{place.work}/log", place.port, SHARDS, loki.address, ("--every", "1s"), **settings)
    try:
        yield running
    finally:
        running.kill()
        running.wait()


def limited_stream(place, seconds=60):
    """One stream of twenty is answered 429 for a minute: the others are drained within a round, and nothing is sent twice."""
    tenant = Tenant(place, "limited", 20, 400, 5)
    theirs = {it for it in tenant.due if it[1] == tenant.key(7)}
    with loki_stub.Loki() as loki:
        loki.limited = [tenant.streams[7][1]]
        with service(place, loki) as running:
            began = time.monotonic()
            is_so = servers.wait_until(lambda: tenant.due - theirs <= loki.taken, 40, 0.5)
            hold(is_so and servers.wait_until(lambda: tenant.left() == tenant.all - tenant.due | theirs, 2),
                 f"the {len(tenant.due - theirs)} lines of the others are drained after {time.monotonic() - began:.1f} s")
            time.sleep(max(0, seconds - (time.monotonic() - began)))
            tries, loki.limited = [at - began for at, _ in loki.tries], []
            hold(not theirs & loki.taken and 4 <= len(tries) <= 15,
                 f"it is tried {len(tries)} times in a minute, at {' '.join(f'{it:.0f}' for it in tries)} s")
            is_so = servers.wait_until(lambda: theirs <= loki.taken and tenant.left() == tenant.all - tenant.due, 40)
            hold(is_so, f"then its {len(theirs)} lines are taken too")
            os.kill(running.pid, signal.SIGTERM)
            said = running.communicate(timeout=60)[1]
        is_so = running.returncode == 143 and not loki.answers["lines that came again"] and not sum(loki.orders.values())
        hold(is_so, f"nothing is sent twice: {dict(loki.answers)}, and a stop is no fault {said[:200]}".strip())


def partial_refusals(place):
    """A Loki that refuses lines of two streams of thirty: no other stream is split."""
    tenant, lines = Tenant(place, "partial", 30, 100), ("line 17", "line 31")
    unwanted = {it for it in tenant.due if it[1] in (tenant.key(3), tenant.key(11)) and it[3] in lines}
    with loki_stub.Loki() as loki:
        loki.refuses_of = lambda key, line: line in lines and key[1] in (tenant.key(3), tenant.key(11))
        status, said = place.drain(loki.address)
        twice, pushes = loki.answers["lines that came again"], loki.answers[204] + loki.answers[400]
        taken = {it for it in loki.taken if it[0] == "partial"}
        hold(status == 0 and len(unwanted) == 4 and taken == tenant.due - unwanted and tenant.left() == tenant.all - tenant.due,
             f"{len(taken)} lines are taken and {len(unwanted)} refused {said if status else ''}".strip())
        hold(unwanted <= set(in_files(f"{place.state}/refused")), "which are in the files")
        # (what isn't named is sent again, once at most for each of the two, and whole)
        hold(pushes <= 60 and twice <= 3 * len(taken), f"by {pushes} pushes, {twice} lines of them again: {dict(loki.answers)}")


def too_old(place):
    """A Loki that refuses what is older than a time, and says so: few requests."""
    tenant = Tenant(place, "old", 1, 4000, 3, 6)
    times = sorted(int(it[2]) for it in tenant.due)
    with loki_stub.Loki() as loki:
        loki.oldest = times[len(times) * 2 // 3] // 10**9 * 10**9
        status, _ = place.drain(loki.address)
        taken, pushes = {it for it in loki.taken if it[0] == "old"}, loki.answers[204] + loki.answers[400]
    old = {it for it in tenant.due if int(it[2]) < loki.oldest}
    is_so = status == 0 and old <= set(in_files(f"{place.state}/refused")) and tenant.due - old == taken and len(old) > 5000
    hold(is_so and pushes <= 20, f"{len(old)} lines that are too old are refused by {pushes} pushes, {len(taken)} are taken")


def wrong_words(place):
    for address in ("http://127.0.0.1:9", "https:///loki/api/v1/push", "http://127.0.0.1:x/loki/api/v1/push"):
        status, said = place.drain(address)
        hold(status == 2 and "TO is not the push route" in said, f"{address}: exit status {status}: {said.strip()}")


def to_loki(work, server):
    place = Place(work, server)
    for step in (under_load, one_tenant, no_loki, small_bodies, over_tls, limited_stream, partial_refusals, too_old,
                 second_server, wrong_words):
        step(place)


class Life:
    """A server and a drain that runs on beside it, each of which is killed and started again."""

    settings = {"NEEDLEAZURE_MAX_CHUNK_AGE": "2s", "NEEDLEAZURE_LOKI_PATIENCE": "2s", "NEEDLEAZURE_DRAIN_TIMEOUT": "5s"}

    def __init__(self, work, to):
        self.work, self.to, self.kills = work, to, collections.Counter()
        self.server = servers.Server(f"{work}/log", SHARDS, 16, {**servers.allocator(), **self.settings})
        self.start()

    def start(self):
        self.drain = servers.drain(f"{self.work}/log", self.server.port, SHARDS, self.to, ("--every", "1s"),
                                   STATE_DIRECTORY=f"{self.work}/state", **self.settings)

    def kill_drain(self):
        os.killpg(self.drain.pid, signal.SIGKILL)
        self.drain.communicate()
        self.kills["drain"] += 1

    def kill(self):
        """Kills one of them, or both, and starts it again."""
        which = random.choice(["server", "drain", "both"])
        if which != "server":
            self.kill_drain()
        if which != "drain":
            self.server.end()
            self.server.start()
            self.kills["server"] += 1
        if which != "server":
            self.start()

    def end(self):
        self.server.end()
        self.drain.kill()

    def last(self):
        """The last rounds, after which nothing is to be taken any more."""
        self.kill_drain()
        ended = servers.drain(f"{self.work}/log", self.server.port, SHARDS, self.to, STATE_DIRECTORY=f"{self.work}/state",
                              **self.settings)
        return ended.communicate(timeout=120)[1], ended.returncode


def in_order(lines):
    """Whether the lines of each stream come in rising time, but for those that came before."""
    newest, seen = {}, set()
    for it in lines:
        if it in seen:
            continue
        seen.add(it)
        if newest.get(it[:2], 0) > int(it[2]):
            return False
        newest[it[:2]] = int(it[2])
    return True


def live_through(work, to, kept):
    """Pushers, and kills of both sides; `kept` are the lines that are elsewhere at the end."""
    life = Life(work, to)
    with contextlib.ExitStack() as ends:
        ends.callback(life.end)
        judge_life(life, kept)


def judge_life(life, kept):
    streams = [[{"job": "killed", "pod": f"{pusher}-{it}"} for it in range(5)] for pusher in range(4)]
    pushers = [servers.Pusher(lambda body: servers.pushed(life.server.port, body), it, 0.01) for it in streams]
    for it in pushers:
        it.start()
    while sum(life.kills.values()) < KILLS["both"]:
        time.sleep(random.uniform(0, 1.5))
        life.kill()
    time.sleep(2)
    for it in pushers:
        it.end()
    said, status = life.last()
    hold(status == 0, f"the last run ends well {said}".strip())
    answered = {name_of("t", labels, str(line[0]), line[1]) for it in pushers for labels, line in it.answered}
    left, taken = set(in_server(life.server.port, [("t", it) for of in streams for it in of])), collections.Counter(kept())
    lost, strange = answered - left - taken.keys(), (left | taken.keys()) - answered
    twice = sum(taken.values()) - len(taken)
    hold(not lost and not strange and len(taken) > len(answered) / 2, f"{len(answered)} lines answered over {dict(life.kills)} "
         f"kills, {len(taken)} outside, {len(left)} left, {twice} twice, {len(lost)} lost, {len(strange)} of nobody")


def both(work, _):
    os.makedirs(f"{work}/first")
    lines = lambda: list(in_files(f"{work}/first/lines"))
    live_through(f"{work}/first", f"{work}/first/lines", lines)
    hold(in_order(lines()), "each stream is in its order in the files")
    os.makedirs(f"{work}/second")
    with loki_stub.Loki() as loki:
        live_through(f"{work}/second", loki.address, lambda: loki.taken)
        hold(not sum(loki.orders.values()), f"each stream came in its order to the Loki, "
             f"{loki.answers['lines that came again']} lines again")


def counted(work, _):
    # (it uses what is above)
    import drain_counted
    drain_counted.check(work)


PARTS = {"files": to_files, "loki": to_loki, "both": both, "counted": counted}


def check(work, _, *words):
    for name in words or PARTS:
        if name == "counted":
            counted(f"{work}/{name}", None)
            continue
        with servers.Server(f"{work}/{name}/log", SHARDS, CLIENTS, settings=servers.allocator()) as server:
            PARTS[name](f"{work}/{name}", server)
