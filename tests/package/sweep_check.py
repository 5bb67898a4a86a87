"""sweep_check: deploy/sweep over a server with 500 quiet streams in 8 shards, beside a client that pushes all the while
and sends again what got no answer. Sweeps are whole, find nothing quiet, fail at a step, or are killed, ten times: no
answered line may be lost, and nobody is served for at most five seconds."""
import collections
import fcntl
import os
import random
import signal
import subprocess
import time

import servers
from servers import TOP, hold

SHARDS, QUIET, LINES, BUSY, KILLS, MOST = 8, 500, 40, 20, 10, 5.0
QUIET_STREAMS = [{"pod": f"gone-{it}"} for it in range(QUIET)]
BUSY_STREAMS = [{"pod": f"busy-{it}"} for it in range(BUSY)]
# What stops and starts the server, as systemd does: one call at a time, a start of what runs is none, and one that fails is
# tried again.
SERVICE = """#!/bin/bash
cd "$(dirname "$0")"
# (not one that has ended with all its threads, where nobody has asked yet for its status)
runs() { awk '/^State:/ { z = $2 == "Z" } /^Threads:/ { n = $2 } END { exit z && n <= 1 }' "/proc/$1/status" 2> /dev/null; }
exec 9> turn
flock 9
process=$(cat process 2> /dev/null)
if [ "$1" = stop ]; then
    kill "$process"
    while runs "$process"; do sleep 0.01; done
    exit 0
fi
! runs "$process" || exit 0
for turn in {1..20}; do
    env $SETTINGS setsid "$PROGRAM" "$PWD/log" "$PORT" "$SHARDS" 16 < /dev/null > ready 2>> errors 9>&- &
    process=$!
    echo "$process" > process
    while runs "$process"; do
        ! grep -q ready ready || exit 0
        sleep 0.01
    done
    sleep 0.5
done
exit 1
"""


class Service:
    """A server that a script starts and stops, at a port that stays."""

    def __init__(self, work):
        self.work, self.script = work, f"{work}/service"
        servers.write_program(self.script, SERVICE)
        self.port, = servers.free_ports(1)
        self.settings = {**os.environ, "PATH": servers.WITH_WALCAT, "PORT": str(self.port), "SHARDS": str(SHARDS),
                         "PROGRAM": servers.program("ingesterd"), "NEEDLEAZURE_CAPACITY": str(128 << 20),
                         "SETTINGS": " ".join(f"{name}={value}" for name, value in servers.allocator().items())}

    def call(self, word):
        subprocess.run([self.script, word], env=self.settings, check=True, close_fds=True)

    def process(self):
        return int(servers.bytes_of(f"{self.work}/process"))

    def sweep(self, *words, **how):
        begin = [f"{TOP}/deploy/sweep", f"{self.work}/log", str(self.port), str(SHARDS), f"{self.work}/lines",
                 "--stop", f"{self.script} stop", "--start", f"{self.script} start"]
        server = [] if "--server" in words else ["--server", servers.program("ingesterd")]
        return subprocess.Popen([*begin, *server, *words], env=self.settings, stdout=subprocess.PIPE, stderr=subprocess.STDOUT,
                                text=True, **how)

    def swept(self, *words):
        running = self.sweep(*words)
        said = running.communicate(timeout=600)[0].strip()
        return running.returncode, said

    def wait(self, seconds=30):
        return servers.wait_until(lambda: servers.get(self.port, "/ready") == b"ready", seconds, 0.02)


def key_of(labels, stamp, line):
    return labels["pod"], int(stamp), line


class Quiet:
    """Lines of streams that end long ago, a time later with each round."""

    def __init__(self, port):
        self.port, self.rounds, self.answered, self.newest, self.pauses = port, 0, [], {}, []
        self.start = time.time_ns() - 140 * servers.HOUR

    def push(self):
        """Lines of half an hour, for each stream; so all of them stay in the window."""
        begin = self.start + self.rounds * servers.HOUR
        with servers.Client(self.port) as client:
            for at in range(0, QUIET, 50):
                streams = [(labels, [(begin + it * 45 * 10**9, f"round {self.rounds} line {it}", ()) for it in range(LINES)])
                           for labels in QUIET_STREAMS[at:at + 50]]
                client.store(*streams)
                for labels, entries in streams:
                    self.answered += [key_of(labels, *it[:2]) for it in entries]
                    self.newest[labels["pod"]] = entries[-1][0]
        self.rounds += 1


def in_files(work):
    lines = servers.drained(f"{work}/lines")
    return collections.Counter(key_of(it["stream"], it["time"], it["line"]) for _, _, it in lines)


def in_server(port, streams):
    found = collections.Counter()
    with servers.Client(port) as client:
        for labels in streams:
            found.update(key_of(labels, *it[:2]) for it in client.read(labels))
    return found


def check_sweep(service, quiet):
    quiet.push()
    before = in_files(service.work)
    status, said = service.swept()
    hold(status == 0 and f"{QUIET} streams were swept" in said, f"a sweep: {said}")
    quiet.pauses.append(float(said.rpartition("for ")[2].split()[0]))
    left, kept = in_server(service.port, QUIET_STREAMS), in_files(service.work) - before
    hold(left.keys() == {it for it in quiet.answered if it[1] == quiet.newest[it[0]]}, "the newest line of each is left, and no other")
    hold(kept and max(kept.values()) == 1, f"{len(kept)} lines are written once each")


def check_left_alone(service, quiet):
    """Runs after which the server is the same, or is back."""
    process = service.process()
    status, said = service.swept()
    hold(status == 0 and "nothing to sweep" in said and service.process() == process, f"a second sweep: {said}")
    status, said = service.swept("--older-than", "5x")
    hold(status == 2, f"a wrong age: {said.splitlines()[-1]}")
    quiet.push()
    status, said = service.swept("--server", "/bin/false")
    hold(status == 1 and service.wait(0.5), f"a server that doesn't start on another port: {said}")
    with open(f"{service.work}/lines/.lock", "w", encoding="ascii") as file:
        fcntl.flock(file, fcntl.LOCK_EX)
        process, running = service.process(), service.sweep()
        time.sleep(1.5)
        is_so = running.poll() is None and service.process() == process
        hold(is_so, "a sweep waits for a drain, while the server runs")
    said = running.communicate(timeout=600)[0].strip()
    hold(running.returncode == 0 and "streams were swept" in said, f"and goes on after that: {said}")


def check_kills(service, quiet):
    """Sweeps that are killed at any moment, each of them alone or with all that it started."""
    stopped = 0
    for number in range(KILLS):
        quiet.push()
        process = service.process()
        running = service.sweep(start_new_session=True)
        # (most of them after the server was stopped)
        while number % 5 and running.poll() is None and servers.memory_of(process):
            time.sleep(0.002)
        time.sleep(random.uniform(0, 1.0))
        os.kill(running.pid, signal.SIGTERM if number % 3 == 0 else signal.SIGKILL)
        running.communicate(timeout=600)
        hold(service.wait(), f"the server is ready after kill {number} of a sweep")
        stopped += service.process() != process
    hold(stopped >= KILLS // 2, f"{stopped} of {KILLS} kills came after the server was stopped")
    status, said = service.swept()
    hold(status == 0, f"a whole sweep after that: {said}")


def check_unavailable(service, quiet):
    """A shard whose disk has failed: nobody starts the server again before somebody has looked at the disk."""
    service.call("stop")
    settings = dict(service.settings)
    service.settings["PROGRAM"] = f"{service.work}/limited"
    limited = f'#!/bin/bash\ntrap "" XFSZ\nulimit -f 1\nexec {servers.program("ingesterd")} "$@"\n'
    servers.write_program(service.settings["PROGRAM"], limited)
    service.call("start")
    with servers.Client(service.port) as client:
        hold(client.push(QUIET_STREAMS[0], [(time.time_ns(), "x" * 2000, ())])[0] == 503, "a shard is unavailable")
    process = service.process()
    status, said = service.swept()
    hold(status == 1 and "unavailable" in said and service.process() == process, f"the server is not stopped: {said}")
    service.call("stop")
    service.settings = settings
    service.call("start")


def check(work, _):
    service = Service(work)
    service.call("start")
    pusher = servers.Pusher(lambda body: servers.pushed(service.port, body), BUSY_STREAMS)
    quiet = Quiet(service.port)
    pusher.start()
    try:
        check_sweep(service, quiet)
        check_left_alone(service, quiet)
        check_sweep(service, quiet)
        # (a machine that has other work makes one of them longer)
        hold(min(quiet.pauses) <= MOST, f"nobody was served for {min(quiet.pauses):.2f} s, at most {MOST:g}; all: {quiet.pauses}")
        check_kills(service, quiet)
        pusher.end()
        refused = {status for _, status in pusher.errors} - {0}
        hold(not refused and pusher.errors, f"{len(pusher.answered)} lines of busy streams were "
             f"answered, {len(pusher.errors)} tries were not {refused or ''}".strip())
        answered = {*(key_of(it, *line[:2]) for it, line in pusher.answered), *quiet.answered}
        left, kept = in_server(service.port, [*QUIET_STREAMS, *BUSY_STREAMS]), in_files(work)
        lost, strange = answered - left.keys() - kept.keys(), (left.keys() | kept.keys()) - answered
        hold(not lost and not strange and max(left.values()) == 1,
             f"{len(answered)} lines answered, {len(lost)} lost, {len(strange)} of nobody, {sum(kept.values()) - len(kept)} twice in files")
        check_unavailable(service, quiet)
        status, said = service.swept("--all")
        hold(status == 0 and not answered - in_files(work).keys(), f"after sweep --all each line is in the files: {said}")
    finally:
        service.call("stop")
