"""What drain_check tries over a stub of a server that counts trims: all lines leave that are older than a moment, each
once, though answers are lost and lines come late meanwhile; another drain beside it; a stream of a Loki that is answered
429, or fails, for a minute; lines that it refuses; kills at any moment; the ends of streams; and a server that counts none."""
import collections
import contextlib
import os
import random
import signal
import threading
import time

import drain_check
import loki_stub
import server_stub
import servers
from servers import hold

SECOND = server_stub.SECOND
KILLS = int(os.environ.get("KILLS", "20"))
SECONDS = int(os.environ.get("LIMITED_SECONDS", "60"))


class Log:
    """A stub of a server, and all lines that it took."""

    def __init__(self, ends, work, name, **how):
        self.work = f"{work}/{name}"
        os.makedirs(self.work)
        self.server = ends.enter_context(server_stub.Server(self.work, **how))
        self.to, self.all, self.count, self.draw = f"{self.work}/lines", [], 0, random.Random(name)

    def push(self, pod, stamp, text=""):
        """Pushes a line of a stream."""
        self.count += 1
        labels, value = {"job": "counted", "pod": str(pod)}, [str(stamp), f"line {self.count}{text}"]
        if self.server.push("t", labels, [value]):
            self.all.append(drain_check.name_of("t", labels, *value))

    def fill(self, streams, lines, age=600):
        start = time.time_ns() - age * SECOND
        for at in range(lines):
            for pod in range(streams):
                self.push(pod, start + at * 20_000_000 + pod)

    def run(self, to=None, **settings):
        """A run: its status, and what it said."""
        running = self.server.drain(to or self.to, **settings)
        said = running.communicate(timeout=120)[1]
        return running.returncode, said

    def left(self):
        return sum(map(len, self.server.left().values()))

    def need_good(self, to=None, **settings):
        status, said = self.run(to, **settings)
        servers.need(status == 0 and not said, f"a run ends with {status} {said[:300]}")

    def refusals(self):
        return collections.Counter(f"{status} {said.rstrip('0123456789')}".strip() for route, status, said in
                                   self.server.answers if status != 200)


def lost_answers(log):
    """Each eighth trim is made and its answer lost, and late lines come before others."""
    log.fill(40, 200)
    stamps, late = [int(it[2]) for it in log.all], []

    def come(key, stream):
        if log.draw.random() < 0.3 and len(late) < 500:
            # (it is called in the middle of an answer)
            labels, value = stream.labels, [str(log.draw.choice(stamps)), f"late {len(late)}"]
            stream.store(value)
            late.append(drain_check.name_of("t", labels, *value))

    log.server.late, log.server.cut = come, 0.12
    for _ in range(8):
        status, said = log.run()
        # (a connection that breaks twice is given up)
        servers.need(status == 0 or "is given up" in said, f"a run ends with {status} {said[:300]}")
    log.server.late, log.server.cut = lambda key, stream: None, 0
    log.need_good()
    found = collections.Counter(drain_check.in_files(log.to))
    lost = {*log.all, *late} - found.keys()
    twice = sum(found.values()) - len(found)
    hold(not lost and not log.left() and len(late) > 100 and not found.keys() - {*log.all, *late},
         f"{sum(found.values())} lines are written over trims whose answers are lost, and {len(late)} late ones: {len(lost)} lost, "
         f"{twice} twice: {dict(log.refusals())}")


def one_process(log):
    """The same in one process that runs on: nothing is written twice."""
    log.server.cut = 0.05
    running = log.server.drain(log.to, "--every", "1s")
    start = time.time_ns() - 900 * SECOND
    for turn in range(50):
        for pod in range(30):
            log.push(pod, start + turn * SECOND + log.draw.randrange(-30, 30) * SECOND)
        time.sleep(0.1)
    log.server.cut = 0
    is_so = servers.wait_until(lambda: not log.left(), 20)
    time.sleep(1)
    os.kill(running.pid, signal.SIGTERM)
    said = running.communicate(timeout=60)[1]
    found = collections.Counter(drain_check.in_files(log.to))
    hold(is_so and found == collections.Counter(log.all) and "not trimmed" not in said,
         f"{len(found)} lines come while it runs, many late, and are written once: {dict(log.refusals())}")


def two_drains(log):
    """Two drains at once: each line is with one of them, and none has one twice."""
    log.fill(40, 300)
    elsewhere = f"{log.work}/elsewhere"
    running = [log.server.drain(to) for to in (log.to, elsewhere)]
    for at in range(200):
        log.push(at % 40, time.time_ns() - 500 * SECOND)
        time.sleep(0.005)
    for it in running:
        servers.need(it.wait(timeout=60) == 0, "a run ends well")
    log.need_good()
    found = [collections.Counter(drain_check.in_files(it)) for it in (log.to, elsewhere)]
    both, lost = found[0].keys() & found[1].keys(), {*log.all} - found[0].keys() - found[1].keys()
    hold(not lost and not log.left() and max([*found[0].values(), *found[1].values()]) == 1,
         f"two drains at once write {[len(it) for it in found]} lines, {len(both)} of them both, {len(lost)} lost: "
         f"{dict(log.refusals())}")


@contextlib.contextmanager
def service(log, loki, **settings):
    running = log.server.drain(loki.address, "--every", "1s", **{"NEEDLEAZURE_LOKI_PATIENCE": "90s", **settings})
    try:
        yield running
    finally:
        running.kill()
        running.communicate()


def one_stream(log, what):
    """One stream of twenty is answered 429, or each body with it fails, for a minute."""
    log.fill(20, 1000)
    labels = {"job": "counted", "pod": "7"}
    theirs = {it for it in log.all if it[1] == drain_check.name_of("t", labels, "1", "")[1]}
    others = {*log.all} - theirs
    with loki_stub.Loki() as loki:
        setattr(loki, what, [labels])
        began = time.monotonic()
        with service(log, loki) as running:
            is_so = servers.wait_until(lambda: others <= loki.taken and log.left() == len(theirs), 20)
            hold(is_so, f"{what}: the {len(others)} lines of the others are drained after {time.monotonic() - began:.1f} s")
            while time.monotonic() - began < SECONDS:
                log.push(3, time.time_ns() - 300 * SECOND)
                time.sleep(0.5)
            tries = [at - began for at, _ in loki.tries]
            setattr(loki, what, [])
            hold(not theirs & loki.taken and len(tries) <= 30 + SECONDS / 4, f"it is tried {len(tries)} times meanwhile: "
                 f"{' '.join(f'{it:.0f}' for it in tries)} s")
            is_so = servers.wait_until(lambda: loki.taken == {*log.all} and not log.left(), 40)
            hold(is_so, f"then its {len(theirs)} lines are taken too, and those of the others that came meanwhile")
            os.kill(running.pid, signal.SIGTERM)
            said = running.communicate(timeout=60)[1]
        hold(not loki.answers["lines that came again"] and not sum(loki.orders.values()) and running.returncode == 143,
             f"nothing is sent twice: {dict(loki.answers)} {said[:200]}".strip())


def limited_stream(log):
    one_stream(log, "limited")


def failing_stream(log):
    one_stream(log, "failed")


def refused_lines(log):
    """A Loki that refuses lines of two streams of thirty: the others are not split, and the server is empty."""
    log.fill(30, 100)
    pods = [drain_check.name_of("t", {"job": "counted", "pod": it}, "1", "")[1] for it in ("3", "11")]
    is_unwanted = lambda line: int(line.split()[1]) % 7 == 0
    unwanted = {it for it in log.all if it[1] in pods and is_unwanted(it[3])}
    with loki_stub.Loki() as loki:
        loki.refuses_of = lambda key, line: key[1] in pods and is_unwanted(line)
        status, said = log.run(loki.address)
        pushes = loki.answers[204] + loki.answers[400]
        kept = collections.Counter(drain_check.in_files(f"{log.server.folder}/state/refused"))
        hold(status == 0 and len(unwanted) > 20 and loki.taken == {*log.all} - unwanted and kept == collections.Counter(unwanted) and not log.left(),
             f"{len(loki.taken)} lines are taken and {len(kept)} refused, which are in files once {said[:80] if status else ''}".strip())
        told = servers.last_run(f"{log.server.folder}/state")
        hold(told["refused"] == len(unwanted) and pushes <= 20 + 8 * len(unwanted) and not sum(loki.orders.values()),
             f"by {pushes} pushes: {dict(loki.answers)}; the run tells {told['refused']:.0f} refused")


def killed(log, is_to_loki):
    """A service that is killed at any moment and started again, over lost answers."""
    log.server.cut = 0.02
    with contextlib.ExitStack() as ends:
        loki = ends.enter_context(loki_stub.Loki({"die_after": 0.02, "fail": 0.02}))
        to, is_done = loki.address if is_to_loki else log.to, threading.Event()
        start = time.time_ns() - 1000 * SECOND

        def push():
            while not is_done.is_set():
                # (in rising time, so that the order can be seen)
                log.push(log.draw.randrange(30), start + log.count * 1_000_000, "x" * 100)
                if log.count % 20 == 0:
                    time.sleep(0.005)

        pushing = threading.Thread(target=push)
        pushing.start()
        for _ in range(KILLS):
            running = log.server.drain(to, "--every", "1s", NEEDLEAZURE_LOKI_PATIENCE="2s")
            time.sleep(random.uniform(0.05, 0.6))
            os.killpg(running.pid, signal.SIGKILL)
            running.communicate()
        is_done.set()
        pushing.join()
        log.server.cut, loki.ways = 0, {}
        log.need_good(to)
        kept = list(drain_check.in_files(log.to)) if not is_to_loki else sorted(loki.taken)
        lost = {*log.all} - {*kept}
        again = loki.answers["lines that came again"] if is_to_loki else len(kept) - len({*kept})
        in_order = not sum(loki.orders.values()) and (is_to_loki or drain_check.in_order(kept))
        hold(not lost and not log.left() and in_order and len({*kept}) == len(log.all),
             f"{len(log.all)} lines over {KILLS} kills: {len(lost)} lost, {again} twice, each stream in its order")


def killed_to_files(log):
    killed(log, False)


def killed_to_loki(log):
    killed(log, True)


def ended_streams(log):
    """Streams whose lines are gone and old end, and others stay."""
    log.server.window, log.server.grace = 2 * SECOND, SECOND
    log.fill(50, 4, 60)
    for pod in range(50, 60):
        log.push(pod, time.time_ns() + 3 * SECOND)
    log.need_good()
    log.need_good()
    hold(log.server.ended == 50 and len(log.server.streams) == 10, f"{log.server.ended} streams end, {len(log.server.streams)} stay")
    log.push(1, time.time_ns() - 50 * SECOND)
    time.sleep(5)
    log.need_good()
    log.need_good()
    found = collections.Counter(drain_check.in_files(log.to))
    hold(not log.left() and found == collections.Counter(log.all), f"one begins anew, and all {len(found)} lines are written once")


def young_lines(log):
    log.fill(5, 10)
    taken = len(log.all)
    for pod in range(5):
        log.push(pod, time.time_ns())
    log.need_good(DRAIN_DELAY="60s")
    hold(log.left() == 5 and sum(1 for _ in drain_check.in_files(log.to)) == taken, "lines younger than DRAIN_DELAY stay")
    status, said = log.run(DRAIN_DELAY="soon")
    hold(status == 2 and "DRAIN_DELAY" in said, f"and another one is refused: {said.strip()}")


def no_counts(log):
    """A server of layout 2 is drained by its window, and that is said once."""
    log.server.layout, log.server.window = 2, 300 * SECOND
    for at in range(100):
        log.push(1, time.time_ns() - (1000 - 10 * at) * SECOND)
    running = log.server.drain(log.to, "--every", "1s")
    is_so = servers.wait_until(lambda: log.left() <= 31, 20)
    time.sleep(2.5)
    os.kill(running.pid, signal.SIGTERM)
    said = running.communicate(timeout=60)[1].splitlines()
    found = collections.Counter(drain_check.in_files(log.to))
    hold(is_so and log.left() == 30 and len(said) == 1 and said[0].startswith("the server counts no trims (501 "),
         f"by a window {len(found)} lines leave and {log.left()} stay: {said}")


STEPS = [lost_answers, one_process, two_drains, refused_lines, killed_to_files, killed_to_loki, ended_streams, young_lines,
         no_counts, limited_stream, failing_stream]


def check(work):
    for step in STEPS:
        with contextlib.ExitStack() as ends:
            step(Log(ends, work, step.__name__))
