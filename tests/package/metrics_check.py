"""metrics_check: deploy/metrics, deploy/alerts.yml and the dashboards, with Debian's Prometheus and
its node exporter, over cut slots and a server that fills, is drained and killed, and whose disk
fails. docs/MONITORING.md and docs/RUNBOOK.md have to have each alert. It needs Chromium;
what else isn't installed is unpacked from Debian's packages."""
import json
import os
import re
import shutil
import subprocess
import time

import dashboards
import servers
from servers import TOP, free_ports, get, hold, need, text_at

SHARDS, CAPACITY, LINE, STEP = 2, 262_144, 1000, 60_000_000_000
ROOM = {"NEEDLEAZURE_CAPACITY": str(CAPACITY)}
PACKAGES = ["prometheus", "prometheus-node-exporter"]
PROGRAMS = ["promtool", *PACKAGES]
# (a stream of each shard)
TENANT, STREAMS = "metrics-check", [{"job": "load"}, {"job": "more"}]


def find_programs(work):
    """The paths of Prometheus, its tool and the exporter, and of the folder in which Debian's files of them lie."""
    found = {"folder": "", **{name: shutil.which(name) for name in PROGRAMS}}
    if all(found[name] for name in PROGRAMS):
        return found
    folder = servers.unpacked(f"{work}/tools", *PACKAGES, *dashboards.PACKAGES)
    return {"folder": folder, **{name: f"{folder}/usr/bin/{name}" for name in PROGRAMS}}


def wait_for(what, is_so, seconds):
    hold(servers.wait_until(is_so, seconds, 0.2), what)


def start(ends, work, name, words):
    log = ends.enter_context(open(f"{work}/{name}.log", "ab"))
    running = ends.enter_context(subprocess.Popen(words, stdout=log, stderr=log))
    ends.callback(running.kill)


class Server(servers.Server):
    """A server on a port that stays. Which process it is stands in a file, as in that of its unit's control group."""

    def __init__(self, work):
        self.group = f"{work}/cgroup.procs"
        super().__init__(f"{work}/log", SHARDS, 8, {**os.environ, **ROOM}, preexec_fn=None)

    def start(self, preexec_fn=None):
        self.how["preexec_fn"] = preexec_fn
        super().start()
        servers.write(self.group, b"%d\n" % self.pid)
        hold(True, "the server starts")


class Pusher(servers.Repeated):
    """Pushes a line to each stream, and the next one a while later. What is refused for want of room is sent again."""

    def __init__(self, port):
        super().__init__(self.push, 0.01)
        self.port, self.statuses, self.stamp = port, [], time.time_ns() - 6 * 24 * servers.HOUR

    def push(self):
        body = servers.push_body([(it, [(self.stamp, "x" * LINE, ())]) for it in STREAMS])
        status = servers.pushed(self.port, body, TENANT, 10)
        self.statuses.append(status)
        self.stamp += STEP * (status == 204)


def service_words(work, port):
    """What needleazure-metrics.service runs, over these folders, with a file for its group."""
    text, place = text_at("deploy/metrics"), "/sys/fs/cgroup/system.slice/needleazure.service/cgroup.procs"
    assert text.count(place) == 1
    servers.write_program(f"{work}/metrics", text.replace(place, f"{work}/cgroup.procs"))
    script = re.search(r"^ExecStart=/bin/sh -ec '(.*)'$", text_at("deploy/needleazure-metrics.service"), re.M)[1]
    changes = [("/usr/sbin/needleazure-metrics", f"{work}/metrics"), ("/var/lib/needleazure-drain", f"{work}/lines"),
               ("/usr/lib/needleazure/with-shards", f"SHARDS={SHARDS} {TOP}/deploy/with-shards")]
    for old, new in [*changes, ("/var/lib/needleazure", f"{work}/log"), ("${PORT}", str(port))]:
        assert script.count(old) == 1, old
        script = script.replace(old, new)
    return ["/bin/sh", "-ec", script]


def start_prometheus(ends, work, programs):
    """Prometheus over the exporter, both on the loopback. Their ports."""
    exporter, port = free_ports(2)
    start(ends, work, "exporter", [
        programs["prometheus-node-exporter"], f"--web.listen-address=127.0.0.1:{exporter}", "--collector.disable-defaults",
        "--collector.textfile", f"--collector.textfile.directory={work}/textfiles"])
    job = {"job_name": "node", "static_configs": [{"targets": [f"127.0.0.1:{exporter}"]}]}
    config = {"global": {"scrape_interval": "1s", "evaluation_interval": "1s"},
              "rule_files": [f"{TOP}/deploy/alerts.yml"], "scrape_configs": [job]}
    servers.write(f"{work}/prometheus.yml", json.dumps(config).encode())
    os.mkdir(f"{work}/consoles")
    servers.write(f"{work}/consoles/needleazure.html", dashboards.CONSOLE.encode())
    folder = programs["folder"]
    start(ends, work, "prometheus", [
        programs["prometheus"], f"--config.file={work}/prometheus.yml", f"--storage.tsdb.path={work}/data",
        f"--web.listen-address=127.0.0.1:{port}", f"--web.local-assets={folder}/usr/share/prometheus/web/",
        f"--web.console.libraries={folder}/{dashboards.EXAMPLES}", f"--web.console.templates={work}/consoles"])
    wait_for("Prometheus is ready", lambda: b"Ready" in get(port, "/-/ready"), 60)
    return port, exporter


def firing(port):
    found = json.loads(get(port, "/api/v1/alerts") or b'{"data":{"alerts":[]}}')["data"]["alerts"]
    return {it["labels"]["alertname"] for it in found if it["state"] == "firing"}


def check_texts(programs, metrics):
    """What promtool says of the metrics and the alerts, and whether the page says what the alerts say."""
    promtool = programs["promtool"]
    rules = [["check", "rules", f"{TOP}/deploy/alerts.yml"], ["test", "rules", f"{TOP}/tests/rows/alerts.yml"]]
    for words, given in [(["check", "metrics"], metrics), *((it, None) for it in rules)]:
        ended = subprocess.run([promtool, *words], input=given, capture_output=True, timeout=300, check=False)
        said = (ended.stdout + ended.stderr).decode().split()
        is_so = ended.returncode == 0 and (given is None or not said)
        hold(is_so, f"promtool {' '.join(words[:2])} says {' '.join(said) or 'nothing'}")
    alerts = re.findall(r"^ *- alert: (.*)$", text_at("deploy/alerts.yml"), re.M)
    page, runbook = text_at("docs/MONITORING.md"), text_at("docs/RUNBOOK.md")
    hold(len(alerts) == 10 and all(f"`{it}`" in page and f"`{it}`" in runbook for it in alerts),
         "docs/MONITORING.md and docs/RUNBOOK.md have each alert")
    named = re.findall(r'"([^"]+)" in /usr/share/doc/needleazure/(docs/\w+\.md)', text_at("deploy/alerts.yml"))
    hold(named and all(f"## {it}" in text_at(path) for it, path in named), "and the sections that alerts name are there")
    names = {it.split("{")[0].split(" ")[0] for it in metrics.decode().splitlines() if not it.startswith("#")}
    hold(names and all(f"`{it}" in page for it in names), f"and has all {len(names)} metrics that come")


def look(folder, **words):
    """What is said of the slots of a folder with one shard where no server is: the bytes in use, and the faults."""
    ended = subprocess.run([f"{TOP}/deploy/metrics", folder, "9", "1"], capture_output=True, text=True, timeout=60,
                           check=True, env={**os.environ, **words})
    value = lambda name: re.search(rf'^needleazure_{name}{{shard="00"}} (\d+)$', ended.stdout, re.M)
    found, faulty = value("shard_segment_bytes"), value("shard_faulty_slots")[1]
    faults = [it.removeprefix("metrics: shard 0: ") for it in ended.stderr.splitlines() if "is not ready" not in it]
    need(int(faulty) == len(faults), f"{faulty} faulty slots, and {faults}")
    return int(found[1]) if found else None, faults


def check_slots(work):
    """A slot cut at each of its bytes, against walcat; one whose last block goes after a look; and what is no slot."""
    folder, slot = f"{work}/cut", f"{work}/cut/shard-00-1.wal"
    os.mkdir(folder)
    servers.write(f"{folder}/shard-00-0.wal", b"")
    whole = servers.bytes_of(f"{TOP}/crates/walcat/data/slot")
    for length in range(len(whole) + 1):
        servers.write(slot, whole[:length])
        status, output, errors = servers.run(["walcat", slot, "0", "1"])
        last = (output + errors).decode().splitlines()[-1]
        end = 0 if last == "closed" else last.removeprefix("end ")
        due = (None, [f"slot 1 {last}"]) if status else (int(end), [])
        need(look(folder) == due, f"cut at {length}: {look(folder)}, and walcat says {last}")
    hold(True, f"a slot that is cut at each of its {len(whole)} bytes, as walcat has it")
    kept = [look(folder, CACHE_DIRECTORY=work)[0]]
    servers.write(slot, whole[:81] + b"\0" + whole[82:])
    kept += [look(folder, CACHE_DIRECTORY=work)[0] for _ in range(2)]
    hold(kept == [119, 81, 81], "a block that is gone at the next look")
    os.remove(slot)
    found = [look(folder)[1]]
    os.mkfifo(slot)
    found.append(look(folder)[1])
    hold(found == [["slot 1 missing"], ["slot 1 is no regular file"]], "a slot that is missing, and one that is no file")


def begin(ends, repeated):
    repeated.start()
    ends.callback(repeated.end)


def check(work, ends):
    check_slots(work)
    programs, textfiles = find_programs(work), f"{work}/textfiles"
    os.mkdir(textfiles)
    server = ends.enter_context(Server(work))
    # (each second what timers do every few minutes)
    how = {"cwd": textfiles, "env": {**os.environ, **ROOM, "CACHE_DIRECTORY": work}, "stderr": subprocess.DEVNULL}
    words = service_words(work, server.port)
    begin(ends, servers.Repeated(lambda: subprocess.run(words, timeout=60, check=False, **how)))
    port, exporter = start_prometheus(ends, work, programs)
    pusher = Pusher(server.port)
    drain = servers.Repeated(lambda: servers.drain(f"{work}/log", server.port, SHARDS).communicate(timeout=60))
    fill_and_drain(ends, pusher, drain, port)
    check_texts(programs, servers.bytes_of(f"{textfiles}/needleazure.prom"))
    fail(server, pusher, port)
    dashboards.hold_all(programs["promtool"], port, f"127.0.0.1:{exporter}", work, SHARDS)


def fill_and_drain(ends, pusher, drain, port):
    wait_for("the first metrics are there", lambda: b'"1"' in get(port, "/api/v1/query?query=needleazure_ready"), 30)
    hold(not firing(port), "no alert comes of an empty server")
    begin(ends, pusher)
    name = "NeedleazureShardNearlyFull"
    wait_for(f"a shard is above 95 %: {name} comes", lambda: name in firing(port), 60)
    statuses = list(pusher.statuses)
    hold(set(statuses) <= {204, 507}, f"{statuses.count(204)} pushes are answered 204, {statuses.count(507)} 507")
    pusher.pause = 1
    begin(ends, drain)
    wait_for("a drain runs: it goes", lambda: not firing(port), 60)
    pushed = len(pusher.statuses)
    wait_for("and pushes are taken again", lambda: 204 in pusher.statuses[pushed:], 30)


def fail(server, pusher, port):
    server.end()
    wait_for("the server is killed: NeedleazureNotReady comes", lambda: "NeedleazureNotReady" in firing(port), 120)
    server.start(servers.limit_length(4096))
    unavailable = "NeedleazureShardUnavailable"
    wait_for(f"its disk fails: {unavailable} comes, and the other goes",
             lambda: firing(port) & {unavailable, "NeedleazureNotReady"} == {unavailable}, 60)
    hold(503 in pusher.statuses, "pushes are answered 503")
    server.end()
    server.start()
    wait_for("it is started again: no alert is left", lambda: not firing(port), 60)
