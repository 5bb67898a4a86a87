"""failover_check PACKAGE [RUNS [PART..]]: sets up a pair of machines literally as docs/FAILOVER.md says, on two fresh
Debians, and then loses the one that serves, 100 times or RUNS, while clients push: a third of the
times without more ado, a third some seconds after the link between the two was cut, and a third in
the middle of a roll. Each time the other one is promoted by the page's command, and each line that
was ever acknowledged has to be read back there, once. Then the same without fencing, which has to
lose lines. It runs as root, and takes some half a minute a run.

Where PAIR is a folder, the pair is kept there as it was set up, for later sittings. Runs are noted (NOTES), so those of
several sittings with the same package add up, also of some side by side:
PAIR=/tmp/pair make failover-check RUNS="20 losses"."""
import collections
import concurrent.futures
import hashlib
import http.client
import itertools
import json
import os
import random
import re
import statistics
import subprocess
import threading
import time

import block_devices
import edge_clients
import failover_spread
import machines
import servers
from machines import Machine, Network
from servers import PUSH, READ, SECONDS, TOP, TRIM, Repeated, hold, need, push_body, read_body, text_at, value_of

IMAGE, NGINX = "NEEDLEAZURE_FAILOVER_IMAGE", "NEEDLEAZURE_FAILOVER_NGINX"
# where the pair is kept as it was set up, for runs that don't set it up again
KEPT = os.environ.get("PAIR")
# where runs are noted
NOTES = os.environ.get("NOTES", f"{TOP}/tests/out/failover-runs")
BEGUN = str(time.time_ns())
ADDRESS, PROXY = "10.0.0.10", 3101
WORDS = f"{ADDRESS}/24 eth0"
SHARDS, CAPACITY, MIRROR_MIB = 2, 2_900_000, 96
# (a window of a second: so all that is older may be trimmed)
SETTINGS = {"SHARDS": SHARDS, "NEEDLEAZURE_CAPACITY": CAPACITY, "NEEDLEAZURE_MAX_CHUNK_AGE": "2s"}
# a server listens on its loopback alone, so what comes from outside goes through systemd's proxy
PROXY_SOCKET = f"[Socket]\nListenStream={PROXY}\n[Install]\nWantedBy=sockets.target\n"
PROXY_SERVICE = "[Service]\nExecStart=/lib/systemd/systemd-socket-proxyd 127.0.0.1:3100\n"
# the window is a second here, so a drain would take lines that are still to be read
NO_DRAIN = "[Unit]\nConditionPathExists=/nowhere\n"
UNITS = {"proxy.socket": PROXY_SOCKET, "proxy.service": PROXY_SERVICE,
         "needleazure-drain.service.d/none.conf": NO_DRAIN}
# what a start may leave out once a machine is set up, so that a hundred of them take less
LEFT_OUT = """
systemd-udev-trigger.service systemd-udevd.service systemd-udevd-control.socket systemd-udevd-kernel.socket
systemd-sysusers.service systemd-sysctl.service systemd-random-seed.service systemd-remount-fs.service
dbus.socket dbus.service systemd-update-utmp-runlevel.service systemd-binfmt.service
systemd-network-generator.service systemd-tmpfiles-clean.timer systemd-modules-load.service
kmod-static-nodes.service modprobe@configfs.service modprobe@drm.service modprobe@dm_mod.service
modprobe@efi_pstore.service modprobe@fuse.service modprobe@loop.service dev-hugepages.mount dev-mqueue.mount
sys-kernel-debug.mount sys-kernel-tracing.mount sys-kernel-config.mount sys-fs-fuse-connections.mount
proc-sys-fs-binfmt_misc.automount systemd-ask-password-console.path systemd-ask-password-wall.path
systemd-firstboot.service systemd-machine-id-commit.service""".split()
# (a body with one line of a stream: of several a part may be stored again where the body is pushed again)
TENANT, CLIENTS, STREAMS, LENGTH = "t", 4, 8, 100
# a segment has room for three pushes of so many lines, or, as it begins, for what two have left and a third one
LARGE, LARGE_STREAMS, FIRST = 250_000, 3, 3
CALM, MOST_CUT, PATIENCE, AFTER = 1.5, 8, 3, 1
DAYS = 6 * 24 * 3_600
KINDS = ["a kill", "a cut, then a kill", "a kill in a roll"]


class Client:
    """Asks at the address of the pair, over a connection that is opened again after each failure."""

    def __init__(self, address=ADDRESS):
        self.address, self.kept = address, None

    def ask(self, path, body, seconds=PATIENCE, tenant=TENANT):
        """Status and text of the answer, or 0 where none comes in time."""
        try:
            if not self.kept:
                self.kept = http.client.HTTPConnection(self.address, PROXY, timeout=seconds)
                self.kept.connect()
            self.kept.sock.settimeout(seconds)
            self.kept.request("POST", path, body, {"X-Scope-OrgID": tenant, "Content-Type": "application/json"})
            answer = self.kept.getresponse()
            return answer.status, answer.read()
        except (OSError, http.client.HTTPException):
            self.end()
            return 0, b""

    def end(self):
        if self.kept:
            self.kept.close()
        self.kept = None

    def must(self, path, body, tenant=TENANT):
        status, text = self.ask(path, json.dumps(body).encode(), SECONDS, tenant)
        if status == 0:
            # (its connection may have been one to a machine that was lost)
            status, text = self.ask(path, json.dumps(body).encode(), SECONDS, tenant)
        need(status in (200, 204), f"{path} is answered {status} {text[:200]}")
        return text


class Pusher(Repeated):
    """Pushes lines to its streams, each body again until it is answered 204. `acknowledged` are the lines of each
    stream, in their order, `times` when pushes were answered and what each took; `asked` and `gone` are the bounds of
    the last trim of each stream, and of the last one that was answered."""

    def __init__(self, name, streams, lines):
        super().__init__(self.push, 0.01)
        self.patience, self.client, self.lines, self.count, self.since = PATIENCE, Client(), lines, 0, None
        self.name, self.streams = name, list(streams)
        self.acknowledged, self.times, self.refused = [[] for _ in self.streams], [], {}
        self.asked, self.gone = [0 for _ in self.streams], [0 for _ in self.streams]

    def fresh(self):
        self.count += 1
        return [self.lines(self.count) for _ in self.streams]

    def push(self):
        entries = self.fresh()
        body = json.dumps(push_body(zip(self.streams, entries))).encode()
        self.since = begun = time.monotonic()
        while (status := self.client.ask(PUSH, body, self.patience)[0]) != 204:
            self.refused[status] = self.refused.get(status, 0) + 1
            if self.is_done.is_set() and time.monotonic() > self.since + 5 * SECONDS:
                self.fault = f"a push is not answered for {5 * SECONDS} s: {self.refused}"
                return
            time.sleep(0.1)
            begun = time.monotonic()
        self.since = None
        self.times.append((time.monotonic(), time.monotonic() - begun))
        for stream, more in zip(self.acknowledged, entries):
            stream += map(tuple, map(value_of, more))

    def read(self):
        """What the server has of each stream."""
        texts = [self.client.must(READ, read_body(it)) for it in self.streams]
        return [list(map(tuple, json.loads(it)["values"])) for it in texts]

    def trim(self, at):
        """Takes the lines of a stream that may be taken. Whether that is answered."""
        if not self.acknowledged[at]:
            return True
        bound = self.asked[at] = int(self.acknowledged[at][-1][0]) - 10**9
        body = json.dumps({"stream": self.streams[at], "bound": str(bound)}).encode()
        is_so = self.client.ask(TRIM, body, self.patience)[0] in (200, 204)
        if is_so:
            self.gone[at] = bound
        return is_so

    def trim_all(self):
        """Returns what is left of each stream."""
        for at, stream in enumerate(self.streams):
            need(servers.wait_until(lambda: self.trim(at)), f"a trim of {stream} is answered")
        return self.read()


def client_of(at, text):
    """A client of short lines, each of which says the text and its number. Its streams are those of the runs before."""
    name = f"client-{at}"
    streams = [{"from": name, "begun": BEGUN, "at": str(it)} for it in range(STREAMS)]
    return Pusher(name, streams, lambda count: [(time.time_ns(), f"{text} {count} ".ljust(LENGTH, "x"), ())])


class Roller(Pusher):
    """Pushes a quarter of a segment to a shard at a time, and then trims the lines of the push before it. What is left
    is as much, and as much again for the last lines of streams. So each push but the first three begins a segment."""

    at = time.time_ns() - DAYS * 10**9

    def __init__(self, shard):
        labels = ({"roller": str(it), "begun": BEGUN} for it in itertools.count())
        there = (it for it in labels if servers.shard_of(TENANT, it, SHARDS) == shard)
        super().__init__(f"roller-{shard}", itertools.islice(there, LARGE_STREAMS), self.long_lines)
        # (its pushes are long)
        self.pause, self.patience = 0.2, 10 * PATIENCE

    def long_lines(self, count):
        Roller.at += 3 * 10**9
        return [(Roller.at, f"{count} ".ljust(LARGE, "x"), ())]

    def push(self):
        super().push()
        for at in range(len(self.streams)):
            if not self.is_done.is_set():
                self.trim(at)


class Pair:
    """Two machines, of which one serves. `left` are the lines that each pusher's streams had after the last trim."""

    def __init__(self, network, one, two):
        self.network, self.serving, self.other, self.left = network, one, two, {}

    def swap(self):
        self.serving, self.other = self.other, self.serving

    def promote(self):
        """The page's command on the machine that is left."""
        self.serving.do(block_of("on the machine that is left"))

    def is_whole(self):
        """Whether both disks are up to date, or are within five seconds. (Each command of a machine takes long.)"""
        text = "for it in {1..10}; do ! grep ds:UpToDate/UpToDate /proc/drbd || exit 0; sleep 0.5; done; exit 1"
        return self.serving.says(text, 60) != ""


def block_of(head):
    """The commands of the page whose first line says where they are run."""
    found = re.findall(rf"^# {re.escape(head)}\n(.*?)^(?:```$|# on )", text_at("docs/FAILOVER.md"), re.M | re.S)
    need(len(found) == 1, f"FAILOVER.md has one block {head!r}")
    return found[0]


def follow(machine, head):
    """Runs a block of the page, each command of which has to go well."""
    return machine.do("set -e\nexport DEBIAN_FRONTEND=noninteractive HOME=/root\ncd\n" + block_of(head))


def settle(machine):
    """What is of this run, and not of the page: small shards, and a way in from outside."""
    rows = "".join(f"sed -i '/^#*{name}=/d' /etc/default/needleazure; echo {name}={value} >> /etc/default/needleazure\n"
                   for name, value in SETTINGS.items())
    texts = "".join(f"install -D /dev/stdin /etc/systemd/system/{name} << 'X'\n{text}X\n"
                    for name, text in UNITS.items())
    machine.do(f"{rows}{texts}systemctl daemon-reload\nsystemctl enable --now proxy.socket")
    # (without udev the second disk has no other name, and the first one is never said to be there)
    machine.do("sed -i /ubda/d /etc/fstab; echo 'L /dev/sdb - - - - ubdb' > /etc/tmpfiles.d/disks.conf\n"
               f"cd /etc/systemd/system; for it in {' '.join(LEFT_OUT)}; do ln -sf /dev/null $it; done")


def machines_of(work):
    program, _ = machines.kernel(work)
    names = {11: "one", 12: "two"}
    return Network(names), [Machine(program, f"{work}/{name}", number, name) for number, name in names.items()]


def start_with(pair, disks):
    """Starts both machines, with these disks: of each its name, and where its image is, or none for an empty one."""
    for machine in pair:
        for disk, image in disks.items():
            machine.renew_disk(disk, MIRROR_MIB, image and image.format(machine.name))
        machine.start()
    for machine in pair:
        machine.wait_for()


def answers():
    return Client().ask(READ, json.dumps(read_body({"a": "b"})).encode())[0] == 200


def set_up(work, package):
    """The page's steps on two fresh machines, up to a server that answers."""
    network, (one, two) = machines_of(work)
    start_with((one, two), {"root": os.environ[IMAGE], "mirror": None, "alone": None})
    # (so that the number of the server's user isn't the same on both)
    two.do("useradd --system --uid 101 somebody")
    begun = time.monotonic()
    for it in (one, two):
        it.put(package, f"/root/{os.path.basename(package)}")
    in_parallel(lambda it: follow(it, "on both machines"), one, two)
    for it in (one, two):
        settle(it)
    follow(one, "on one, once")
    hold(servers.wait_until(answers),
         f"two fresh machines after the page's commands, {time.monotonic() - begun:.0f} s: it answers")
    numbers = [it.do("id -u needleazure") for it in (one, two)]
    hold(numbers[0] != numbers[1], f"the server's user has the numbers {numbers}")
    pair = Pair(network, one, two)
    hold(servers.wait_until(pair.is_whole, SECONDS), "both disks are up to date")
    if KEPT:
        keep(pair)
    return pair


def keep(pair):
    """Keeps the pair as it is now for later runs, by a loss of both machines at once."""
    os.makedirs(KEPT, exist_ok=True)
    for it in (pair.serving, pair.other):
        it.do("sync")
        it.kill()
        for disk in ("root", "mirror"):
            source, kept = f"{it.folder}/{disk}.img", f"{KEPT}/{it.name}-{disk}.img"
            subprocess.run(["cp", "--sparse=always", source, kept], check=True)
        it.start()
    start_again(pair)


def start_again(pair):
    for it in (pair.serving, pair.other):
        it.wait_for()
    need(servers.wait_until(pair.is_whole, 10 * SECONDS), "both disks are up to date")
    pair.serving.do(block_of("on the machine that takes over"))


def kept_pair(work):
    network, them = machines_of(work)
    start_with(them, {"root": f"{KEPT}/{{}}-root.img", "mirror": f"{KEPT}/{{}}-mirror.img", "alone": None})
    pair = Pair(network, *them)
    start_again(pair)
    hold(servers.wait_until(answers), "the pair of an earlier run answers")
    return pair


def in_parallel(do, *them):
    threads = [threading.Thread(target=do, args=(it,)) for it in them]
    for it in threads:
        it.start()
    for it in threads:
        it.join()


def wait_for_roll(rollers, typical):
    """Until a push that begins a segment is under way for a part of the time that such a push takes."""
    until = time.monotonic() + SECONDS
    while time.monotonic() < until:
        since = [it.since for it in rollers if it.since]
        late = random.uniform(0.1, 0.9) * typical
        if since and time.monotonic() - max(since) < late:
            time.sleep(max(0.0, max(since) + late - time.monotonic()))
            if any(it.since in since for it in rollers):
                return True
        time.sleep(0.001)
    return False


class Run:
    """A loss of the machine that serves, under load."""

    def __init__(self, pair, kind, pushers, rollers):
        self.pair, self.kind, self.pushers, self.rollers = pair, kind, pushers, rollers
        self.is_in_roll, self.cut_at = False, None

    def times(self):
        return sorted(it for pusher in self.pushers for it in pusher.times)

    def lose(self):
        """Kills the machine that serves, as this run's kind has it."""
        time.sleep(CALM)
        if self.kind == 1:
            self.pair.network.cut()
            self.cut_at = time.monotonic()
            time.sleep(random.uniform(3, MOST_CUT))
        if self.kind == 2:
            is_so = servers.wait_until(lambda: all(len(it.times) > FIRST for it in self.rollers))
            need(is_so, "segments are full")
            typical = statistics.median(took for it in self.rollers for _, took in it.times[FIRST:])
            self.is_in_roll = wait_for_roll(self.rollers, typical)
        self.pair.serving.kill()
        self.lost_at = time.monotonic()
        self.pair.swap()
        if self.kind == 1:
            self.pair.network.mend()

    def go_on(self, is_renewed):
        """Promotes the other one, and waits until clients have answers again. The lost machine is then on its way back,
        with an empty disk where it is `renewed`."""
        self.pair.promote()
        if is_renewed:
            self.pair.other.renew_disk("mirror", MIRROR_MIB)
        self.pair.other.start()
        need(servers.wait_until(self.answered_again, 5 * SECONDS), "pushes are answered")
        self.without = self.answered_again()[0] - self.lost_at
        time.sleep(AFTER)
        for it in (*self.pushers, *self.rollers):
            it.end()
            # (it has a limit of its own, for machines that are slow)
            it.join(5 * SECONDS)
            need(not it.fault and not it.is_alive(), f"each push is answered at last: {it.fault}")

    def answered_again(self):
        """When pushes were answered that began after the loss. (An answer from before it may be noted after it.)"""
        return [at for at, took in self.times() if at - took > self.lost_at]

    def after_cut(self):
        """How many pushes were answered between the cut and the loss."""
        return sum(self.cut_at < at < self.lost_at for at, _ in self.times()) if self.cut_at else 0


def compare(pair, pushers):
    """How many lines were acknowledged, and how many of them are missing, there twice, or not known to anybody."""
    lines = missing = twice = invented = 0
    for pusher in pushers:
        before = pair.left.get(pusher.name, [[]] * len(pusher.streams))
        for at, found in enumerate(pusher.read()):
            known = {*pusher.acknowledged[at], *before[at]}
            # (where a trim was not answered its lines may be there)
            due = {it for it in known if int(it[0]) >= pusher.asked[at]}
            lines += len(due)
            missing += len(due - set(found))
            twice += len(found) - len(set(found))
            invented += sum(it not in known or int(it[0]) < pusher.gone[at] for it in set(found))
    return lines, missing, twice, invented


def hold_once(pair, pusher, what):
    lines, *wrong = compare(pair, [pusher])
    hold(not any(wrong), f"{what}: {lines} lines, {wrong[0]} missing, {wrong[1]} twice, {wrong[2]} of nobody")


def trim_all(pair, pushers):
    with concurrent.futures.ThreadPoolExecutor(len(pushers)) as pool:
        pair.left.update(zip([it.name for it in pushers], pool.map(Pusher.trim_all, pushers)))


def make_run(pair, number, kind):
    """A loss, and what became of the lines."""
    pushers = [client_of(at, f"run {number}") for at in range(CLIENTS)]
    rollers = [Roller(at) for at in range(SHARDS)] if kind == 2 else []
    run = Run(pair, kind, pushers, rollers)
    for it in (*pushers, *rollers):
        it.start()
    run.lose()
    run.go_on(is_renewed(number))
    found = compare(pair, (*pushers, *rollers))
    trim_all(pair, (*pushers, *rollers))
    return run, found


def is_renewed(number):
    """Each fourth machine that is lost comes back with an empty disk, as another one."""
    return number % 4 == 3


def bring_back(pair, is_new):
    """Waits until the machine that was started is the other half again. How many seconds that took."""
    begun = time.monotonic()
    pair.other.wait_for()
    if is_new:
        # (its start tries the disk, too)
        pair.other.do("until systemctl list-jobs | grep -q '^No jobs'; do sleep 0.2; done")
        follow(pair.other, "on a machine with an empty disk")
    need(servers.wait_until(pair.is_whole, 10 * SECONDS, 0.3), f"{pair.other.name} is up to date again: "
         + pair.serving.says("cat /proc/drbd"))
    return time.monotonic() - begun


class Notes:
    """The runs of all sittings over what a package has but for its pages: of each a note as it begins, and one of what
    was found. So one that came to no end is known too."""

    def __init__(self, package):
        sums = subprocess.run(["dpkg-deb", "--info", package, "md5sums"], check=True, capture_output=True, text=True)
        rows = [it for it in sums.stdout.splitlines() if not re.search(r"/man/|/doc/(?!needleazure/examples/)", it)]
        self.of, self.begun = hashlib.sha256("\n".join(rows).encode()).hexdigest()[:16], 0

    def all(self, what):
        found = map(json.loads, servers.bytes_of(NOTES).splitlines())
        return [it for it in found if it["of"] == self.of and what in it]

    def add(self, kind, **what):
        os.makedirs(os.path.dirname(NOTES), exist_ok=True)
        with open(NOTES, "a", encoding="utf-8") as file:
            file.write(json.dumps({"of": self.of, "kind": kind, **what}) + "\n")

    def begin(self):
        """The kind of the next run: of the one that there were fewest of."""
        there = collections.Counter(it["kind"] for it in self.all("begun"))
        kind = min(range(len(KINDS)), key=lambda it: there[it])
        self.add(kind, begun=time.time())
        return kind

    def tell(self):
        """Says what all of them found."""
        ended = self.all("without")
        lines, *wrong = ([sum(it["found"][at] for it in ended) for at in range(4)])
        rolls, answered = (sum(it[name] for it in ended) for name in ("is_in_roll", "after_cut"))
        hold(not any(wrong), f"{len(ended)} machines lost in all, {rolls} of them while a roll was under way: {lines} "
             f"lines read back, {wrong[0]} missing, {wrong[1]} twice, {wrong[2]} of nobody; {answered} pushes answered "
             f"after a cut; {len(self.all('begun')) - len(ended)} more are under way, or came to no end")
        for kind, name in [*enumerate(KINDS), (None, "in all")]:
            seconds = [it["without"] for it in ended if kind in (None, it["kind"])] or [0]
            print(f"  {name}: {len(seconds)} times, {statistics.median(seconds):.1f} s without service (median), "
                  f"at most {max(seconds):.1f}")


def losses(pair, notes, runs):
    for number in range(runs):
        kind = notes.begin()
        run, found = make_run(pair, number, kind)
        notes.add(kind, found=found, without=run.without, is_in_roll=run.is_in_roll, after_cut=run.after_cut())
        need(not any(found[1:]), f"{number + 1}: {KINDS[kind]}: {found}")
        took = bring_back(pair, is_renewed(number))
        print(f"{number + 1}: {KINDS[kind]}{' (under way)' if run.is_in_roll else ''}: {found[0]} lines, {found[1]} "
              f"missing, {found[2]} twice, {found[3]} of nobody; {run.without:.1f} s without service, "
              f"whole again after {took:.0f} s", flush=True)
    notes.tell()


def quantile(values, share):
    return sorted(values)[int(share * (len(values) - 1))]


def time_pushes(pair, seconds=6):
    # (streams that no run reads: there are two logs of them)
    pushers = [client_of(CLIENTS + at, "timed") for at in range(CLIENTS)]
    for it in pushers:
        it.start()
    time.sleep(seconds)
    for it in pushers:
        it.end()
    took = [it for pusher in pushers for _, it in pusher.times]
    trim_all(pair, pushers)
    return len(took) / seconds, quantile(took, 0.5) * 1e3, quantile(took, 0.99) * 1e3


ALONE = """systemctl stop needleazure && umount /var/lib/needleazure-drain /var/lib/needleazure
blkid /dev/ubdc > /dev/null || mkfs.ext4 -q /dev/ubdc
mount /dev/ubdc /var/lib/needleazure && systemctl start needleazure"""
TOGETHER = f"systemctl stop needleazure && umount /var/lib/needleazure && needleazure-promote {WORDS}"


def compare_costs(pair):
    """A push with the mirror and without it, by turns, on the same machine: three times each."""
    rows = {"with the mirror": [], "without it": []}
    for _ in range(3):
        rows["with the mirror"].append(time_pushes(pair))
        pair.serving.do(ALONE)
        need(servers.wait_until(answers), "it answers")
        rows["without it"].append(time_pushes(pair))
        pair.serving.do(TOGETHER)
    for name, found in rows.items():
        rate, half, most = (statistics.median(it) for it in zip(*found))
        print(f"  {name}: {rate:.0f} pushes a second of {CLIENTS} clients, p50 {half:.1f} ms, p99 {most:.1f} ms "
              "(medians of 3)", flush=True)


def says_of(machine, command):
    """Status and one line of a command that may fail."""
    status, text = machine.run(command)
    return status, " ".join(text.split())


def refuses(machine, words, due):
    status, text = says_of(machine, f"needleazure-promote {words} {WORDS}")
    hold(status == 1 and due in text, f"promote {words or 'without a word'} on {machine.name} is refused: {text}")


def guard(machine, due):
    status, text = says_of(machine, "/usr/lib/needleazure/check-filesystem /var/lib/needleazure")
    is_so = due in text if due else text == ""
    hold(is_so and status == bool(due), f"check-filesystem on {machine.name}: {text or 'nothing'}")


def degraded(machine):
    folder = "/var/lib/prometheus/node-exporter"
    machine.do(f"mkdir -p {folder}; systemctl start needleazure-metrics.service")
    return machine.do(f"sed -n 's/^needleazure_mirror_degraded{{.*}} //p' {folder}/needleazure.prom")


def try_refusals(pair):
    """What promote refuses, and what the guard and the metrics say, with a link that is cut and mended."""
    serving, other = pair.serving, pair.other
    guard(serving, "")
    hold(degraded(serving) == "0", "the metrics of a whole mirror")
    refuses(other, "", "the other machine serves")
    refuses(other, "--other-is-off", "is not off: it is connected")
    pusher = client_of(0, "a cut that mends")
    pusher.start()
    time.sleep(1)
    pair.network.cut()
    time.sleep(6)
    before = len(pusher.times)
    time.sleep(3)
    hold(before == len(pusher.times), "after a cut no push is answered")
    refuses(other, "", "the other machine is not connected")
    refuses(other, "--other-is-off", f"is not off: {serving.name} answers")
    guard(serving, "is without its other half")
    hold(degraded(serving) == "1", "the metrics of a mirror without its other half")
    pair.network.mend()
    is_so = servers.wait_until(lambda: len(pusher.times) > before + 5, SECONDS)
    pusher.end()
    hold(is_so and servers.wait_until(pair.is_whole, SECONDS), "after the link is there again, pushes are answered")
    hold_once(pair, pusher, "after a cut that mends")
    trim_all(pair, [pusher])


def lose_other(pair):
    """The machine that does not serve is lost: pushes wait until its operator has said so; then the one that served is
    lost as well, and the other one, which comes back alone, may lack lines and is refused."""
    pusher = client_of(1, "the other one is lost")
    pusher.start()
    time.sleep(1)
    pair.other.kill()
    time.sleep(6)
    before = len(pusher.times)
    time.sleep(2)
    hold(before == len(pusher.times), "after the loss of the other machine no push is answered")
    pair.serving.do(block_of("on the machine that is left"))
    is_so = servers.wait_until(lambda: len(pusher.times) > before + 5, SECONDS)
    hold(is_so, "and by the page's command they are again")
    pusher.end()
    guard(pair.serving, "is without its other half")
    pair.serving.kill()
    pair.other.start()
    pair.other.wait_for()
    refuses(pair.other, "--other-is-off", "not UpToDate: it may lack acknowledged lines")
    pair.serving.start()
    pair.serving.wait_for()
    need(servers.wait_until(pair.is_whole, 10 * SECONDS), "both are up to date")
    pair.serving.do(block_of("on the machine that takes over"))
    hold_once(pair, pusher, "the machine that was alone comes back")
    trim_all(pair, [pusher])


def hand_over(pair):
    """A change of machines while both run."""
    pair.serving.do(block_of("on the machine that serves"))
    begun = time.monotonic()
    pair.other.do(block_of("on the machine that takes over"))
    pair.swap()
    hold(servers.wait_until(answers),
         f"a hand-over: the server answers {time.monotonic() - begun:.1f} s after it was stopped")


def spread(pair, work, ends):
    failover_spread.try_spread(pair, Client(), work, os.environ[NGINX], ends)
    pair.other.start()
    bring_back(pair, False)


UNFENCED = """sed -i 's/fencing resource-and-stonith/fencing dont-care/' /etc/drbd.d/needleazure.res
drbdadm adjust needleazure"""


def teeth(pair):
    """Without fencing the same run has to find lost lines."""
    for it in (pair.serving, pair.other):
        it.do(UNFENCED)
    guard(pair.serving, "has no fencing resource-and-stonith")
    run, found = make_run(pair, -1, 1)
    hold(run.after_cut() and found[1] and not found[3], f"without fencing, {run.after_cut()} pushes are answered "
         f"after the cut, and of {found[0]} lines {found[1]} are missing")


def prepare(work):
    """The image of a fresh machine, and nginx, outside of the namespace, where Debian's mirror is in reach."""
    if not os.environ.get(block_devices.INSIDE):
        os.environ[NGINX] = edge_clients.find_nginx(work)
        if not is_kept():
            tar = f"{TOP}/tests/out/machine.tar"
            machines.debian(tar)
            os.environ[IMAGE] = machines.make_image(work, tar, machines.kernel(work)[1])
    block_devices.enter_namespace("--net")


def is_kept():
    return bool(KEPT) and os.path.exists(f"{KEPT}/two-mirror.img")


def check(work, ends, package, runs="100", *parts):
    prepare(work)
    # (nginx's workers are another user's)
    os.chmod(work, 0o711)
    pair = kept_pair(work) if is_kept() else set_up(work, package)
    ends.callback(lambda: [it.kill() for it in (pair.serving, pair.other)])
    for name, do in {"costs": compare_costs, "refusals": try_refusals, "hand-over": hand_over, "alone": lose_other,
                     "losses": lambda it: losses(it, Notes(package), int(runs)),
                     "spread": lambda it: spread(it, work, ends),
                     "teeth": teeth}.items():
        if not parts or name in parts:
            do(pair)
