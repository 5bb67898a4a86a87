"""after_check: each block of docs/AFTER.md, over files that needleazure-drain wrote of a server. A block
has to print what its comments say, on the day before this one and in a folder of this run; the
object store is a local server of rclone, and the Loki a stub, which at first refuses a line. It
needs rclone, lnav, sqlite3 and jq."""
import datetime
import os
import re
import shutil
import subprocess
import time

import loki_stub
import servers
from servers import TOP, hold

# the day that the page has, and ten o'clock of it
DAY, TEN = "2026-11-28", 1795860000
TOOLS = ["rclone", "lnav", "sqlite3", "jq", "systemd-tmpfiles", "systemd-analyze"]
LINES = {"api": [(0, "GET /cart 200", ()), (1, "timeout after 5 s", ((b"trace_id", b"0242ac"),)), (2, "GET /cart 200", ())],
         "worker": [(3, "order 17 done", ()), (4, "timeout after 9 s", ())]}
HOSTS = {"api": "web-1", "worker": "web-2"}
# three hours later, for the Loki
LATER = [(10800, "order 18 done", ()), (10801, "refused at first", ((b"trace_id", b"1f"),)), (21600, "the last line", ())]
LOKI, SHARDS = "http://127.0.0.1:3200/loki/api/v1/push", 8


class Place:
    """The folder of a run: where its lines are, and what stands for the places that the page names."""

    def __init__(self, work, server, loki):
        self.work, self.lines, self.server, self.loki = work, f"{work}/lines", server, loki
        day = datetime.datetime.now(datetime.timezone.utc).date() - datetime.timedelta(days=1)
        self.day = day.isoformat()
        self.ten = int(datetime.datetime(day.year, day.month, day.day, 10, tzinfo=datetime.timezone.utc).timestamp())
        for it in ("home", "tmpfiles.d", "system", "store", "programs", "bin"):
            os.mkdir(f"{work}/{it}")
        os.symlink(servers.program("walcat"), f"{work}/programs/walcat")
        os.symlink(servers.DRAIN, f"{work}/programs/needleazure-drain")
        servers.write_program(f"{work}/programs/systemctl", "#!/bin/sh\n")

    def environment(self):
        return {**os.environ, "HOME": f"{self.work}/home", "RCLONE_CONFIG": f"{self.work}/rclone.conf", "LC_ALL": "C.UTF-8",
                "PATH": f"{self.work}/programs:{os.environ['PATH']}", "TMPDIR": self.work, "TERM": "dumb"}

    def run(self, *words, **how):
        how = {"env": self.environment(), "capture_output": True, "text": True, "errors": "replace", "timeout": 120, **how}
        return subprocess.run(words, check=False, **how)

    def of(self, text):
        """A text of the page, as it is here and now."""
        places = {"sudo ": "", "/usr/share/doc/needleazure/examples/": f"{TOP}/deploy/",
                  "/etc/tmpfiles.d": f"{self.work}/tmpfiles.d", "/etc/systemd/system": f"{self.work}/system",
                  "/var/lib/needleazure-drain": self.lines, LOKI: self.loki.address,
                  f"/var/lib/needleazure 3100 {SHARDS} ": f"{self.work}/log {self.server.port} {SHARDS} ",
                  DAY: self.day, DAY[:-1]: self.day[:-1]}
        for old, new in places.items():
            text = text.replace(old, new)
        return re.sub(r"\b(\d{10})(\d{9})\b", lambda it: f"{int(it[1]) - TEN + self.ten}{it[2]}", text)


def push(place, job, lines):
    entries = [((place.ten + at) * 10**9 + 123456789, line, more) for at, line, more in lines]
    with servers.Client(place.server.port, "shop") as client:
        hold(client.push({"job": job, "host": HOSTS[job]}, entries)[0] == 204, f"lines of {job} are pushed")


def push_and_drain(place):
    """The lines of the page. Each stream also has one two hours later, so that the drain takes the others."""
    for job, lines in LINES.items():
        push(place, job, [*lines, (7200, "the last line", ())])
    ended = place.run(servers.DRAIN, f"{place.work}/log", str(place.server.port), str(SHARDS), place.lines)
    hold(ended.returncode == 0, f"they are drained {ended.stderr}".strip())


def blocks():
    """The blocks of the page, by their headings."""
    heading = ""
    for found in re.finditer(r"^#+ ([^\n]*)$|^```sh\n(.*?)^```$", servers.text_at("docs/AFTER.md"), re.M | re.S):
        heading = found[1] or heading
        if found[2]:
            yield heading, found[2]


def run_block(place, heading, block):
    if "apt-get install" in block:
        return
    due = [it[2:] for it in place.of(block).splitlines() if it.startswith("# ")]
    ended = place.run("bash", "-euo", "pipefail", "-c", place.of(block), cwd=place.lines)
    said = ended.stdout.splitlines()
    # (what is only written somewhere is written here too)
    is_so = ended.returncode == 0 and (said == due or "<< 'END'" in block)
    hold(is_so, f"{heading}: {len(due)} lines as the page has them" if is_so else
         f"{heading}: {block}\nsaid {said}, exit status {ended.returncode}, {ended.stderr}, and the page has {due}")


def hold_sent(place, is_again):
    """After the drain to the Loki, and after what that refused was sent again."""
    taken = {line for _, _, _, line, _ in place.loki.taken}
    refused = f"{place.lines}/refused/shop/{place.day}.jsonl.gz"
    is_so = "order 18 done" in taken and ("refused at first" in taken) == is_again and os.path.exists(refused) != is_again
    hold(is_so, f"the Loki has {len(taken)} lines, and what it refused {'too' if is_again else 'is in a file'}")


def start_store(place, ends):
    port, = servers.free_ports(1)
    login = ["--user", "store", "--pass", "secret"]
    words = ["rclone", "serve", "sftp", "--addr", f"127.0.0.1:{port}", *login, f"{place.work}/store"]
    store = subprocess.Popen(words, env=place.environment(), stderr=subprocess.DEVNULL)
    ends.callback(store.wait)
    ends.callback(store.kill)
    servers.wait_until(lambda: servers.is_listening(port), 10)
    named = ["host=127.0.0.1", f"port={port}", "user=store", "pass=secret"]
    hold(place.run("rclone", "config", "create", "store", "sftp", *named).returncode == 0, "a store is named")


def check(work, ends):
    missing = [it for it in TOOLS if not shutil.which(it)]
    hold(not missing, f"the tools of the page are installed {missing or ''}".strip())
    server = ends.enter_context(servers.Server(f"{work}/log", SHARDS, 16))
    place = Place(work, server, ends.enter_context(loki_stub.Loki()))
    push_and_drain(place)
    start_store(place, ends)
    old = f"{place.lines}/shop/2020-01-01.jsonl.gz"
    shutil.copy(f"{place.lines}/shop/{place.day}.jsonl.gz", f"{place.work}/bin/old")
    for count, (heading, block) in enumerate(blocks(), 1):
        if "tmpfiles" in block:
            shutil.copy(f"{place.work}/bin/old", old)
            os.utime(old, (time.time(), time.time() - 91 * 86400))
        if "rclone copy" in block:
            os.utime(f"{place.lines}/shop/{place.day}.jsonl.gz", (time.time(), time.time() - 7200))
        if LOKI in block and "curl" not in block:
            push(place, "worker", LATER)
            place.loki.refuses = lambda line: line.startswith("refused")
        run_block(place, heading, block)
        if LOKI in block:
            hold_sent(place, is_again="curl" in block)
            place.loki.refuses = lambda line: False
        if "tmpfiles" in block:
            left = sorted(os.listdir(f"{place.lines}/shop"))
            is_so = not os.path.exists(old) and f"{place.day}.jsonl.gz" in left
            hold(is_so, f"a file of ninety days is gone, and others are there: {left}")
    units = [f"{work}/system/needleazure-copy.{it}" for it in ("service", "timer")]
    ended = place.run("systemd-analyze", "--man=no", "verify", *units)
    said = [it for it in ended.stderr.splitlines() if "needleazure-copy" in it]
    hold(ended.returncode == 0 and not said, f"systemd-analyze verifies the units {said or ''}".strip())
    hold(count > 10, f"{count} blocks of the page")
