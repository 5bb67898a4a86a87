"""scale_out_check: deploy/nginx-spread.conf and deploy/nginx-member.conf in real nginx, as
docs/SCALE.md has them. The model of placement.py is held against nginx. Then 48 shippers push to
three servers, of whose list one is added, killed and marked down, and comes back: each line that
was answered has to stand on a server where the model has its shipper at some time."""
import base64
import collections
import contextlib
import http.client
import os
import re
import shutil
import signal
import subprocess
import time

import edge_clients
import placement
import servers
from edge_clients import Client, Pusher, find_nginx, write_nginx, write_users
from servers import PUSH, free_ports, hold, text_at

KEYS, MANY = 1000, 100
TENANTS = {"large": 34, "small-1": 7, "small-2": 7}
CALM, AWAY = 6, 3


class Nginx(edge_clients.Nginx):
    def reload(self):
        """Returns once each process that serves has the new list. Those before it end by themselves."""
        before = self.children()
        self.running.send_signal(signal.SIGHUP)
        servers.wait_until(lambda: self.children() - before, 10)
        time.sleep(0.5)

    def children(self):
        it = self.running.pid
        return {*servers.bytes_of(f"/proc/{it}/task/{it}/children").split()}

    def kill(self):
        """As a machine that loses its power does."""
        started = self.children()
        self.running.kill()
        self.running.wait()
        for it in started:
            os.kill(int(it), signal.SIGKILL)


def write_probe(folder, port, lines, ports):
    """An nginx that spreads as deploy/nginx-spread.conf does, over ports of its own which answer their number."""
    spread = text_at("deploy/nginx-spread.conf")
    chosen = re.search(r"^    map .*?^    }\n", spread, re.M | re.S)[0]
    hashed = re.search(r"^        hash .*;\n", spread, re.M)[0]
    listens = "".join(f"        listen 127.0.0.1:{it};\n" for it in ports)
    here = f"    server {{\n        listen 127.0.0.1:{port};\n        location / {{ proxy_pass http://all; }}\n    }}\n"
    there = f"    server {{\n{listens}        return 200 $server_port;\n    }}\n"
    text = f"    upstream all {{\n{hashed}{''.join(lines)}    }}\n{here}{there}"
    os.makedirs(folder, exist_ok=True)
    most = "worker_processes 1;\nevents { worker_connections 1024; }\n"
    http = f"access_log off;\n{edge_clients.temporary(folder)}{chosen}{text}"
    servers.write(f"{folder}/nginx.conf", f"user www-data;\n{most}http {{\n    {http}}}\n".encode())


def ask_probe(port, keys):
    client, found = http.client.HTTPConnection("127.0.0.1", port, timeout=10), []
    for tenant, shipper in keys:
        login = base64.b64encode(f"{tenant}:x".encode()).decode()
        client.request("GET", "/", headers={"Authorization": f"Basic {login}", **({"X-Shipper": shipper} if shipper else {})})
        found.append("127.0.0.1:" + client.getresponse().read().decode())
    client.close()
    return found


def hold_model(work, program):
    port, *ports = free_ports(MANY + 2)
    names = [f"127.0.0.1:{it}" for it in ports]
    keys = [(f"tenant-{at % 7}", f"host-{at}" if at % 100 else "") for at in range(KEYS)]
    lists = [("a hundred servers", dict.fromkeys(names[:MANY], 1), []), ("one more", dict.fromkeys(names, 1), []),
             ("one marked down", dict.fromkeys(names[:MANY], 1), names[:1]),
             ("weights of 1 to 5", {it: at % 5 + 1 for at, it in enumerate(names[:MANY])}, [])]
    homes = []
    for at, (what, weights, down) in enumerate(lists):
        lines = [f"        server {name} max_fails=0 weight={weight}{' down' if name in down else ''};\n"
                 for name, weight in weights.items()]
        write_probe(f"{work}/probe-{at}", port, lines, ports)
        with contextlib.ExitStack() as ends:
            Nginx(program, f"{work}/probe-{at}", port, ends)
            homes.append(ask_probe(port, keys))
        circle = placement.Circle(weights, down)
        due = [circle.server_of(placement.key_of(tenant, shipper or "127.0.0.1")) for tenant, shipper in keys]
        same = sum(one == other for one, other in zip(homes[-1], due))
        hold(same == KEYS, f"nginx, {what}: {same} of {KEYS} keys where the model has them, on {len(set(due))} servers")
    to = collections.Counter(new for old, new in zip(*homes[:2]) if new != old)
    hold(set(to) == {names[MANY]}, f"with one more {sum(to.values())} of {KEYS} keys move, all to it")
    stays = all(new == old for old, new in zip(homes[0], homes[2]) if old != names[0])
    hold(stays, f"with one marked down its {homes[0].count(names[0])} keys move, and no other")


class Member:
    """A machine of a server: the server, and nginx before it."""

    def __init__(self, program, folder, ends):
        self.program, self.folder, self.ends = program, folder, ends
        self.port, = free_ports(1)
        self.name = f"127.0.0.1:{self.port}"
        self.start()

    def start(self):
        self.server = servers.Server(f"{self.folder}/log", 4, 64)
        self.ends.callback(self.server.end)
        changes = [("listen 3443", f"listen {self.name}"), ("127.0.0.1:3100", f"127.0.0.1:{self.server.port}")]
        write_nginx(self.folder, "deploy/nginx-member.conf", changes)
        for it in ("member.pem", "member.key", "spread.pem"):
            shutil.copy(f"{self.folder}/../{it}", self.folder)
        self.nginx = Nginx(self.program, self.folder, self.port, self.ends)

    def kill(self):
        self.server.end()
        self.nginx.kill()


class Edge:
    def __init__(self, program, folder, members, ends):
        self.folder = folder
        self.port, = free_ports(1)
        write_nginx(folder, "deploy/nginx-spread.conf", [("listen 443", f"listen 127.0.0.1:{self.port}")])
        for it in ("spread.pem", "spread.key", "member.pem"):
            shutil.copy(f"{folder}/../{it}", folder)
        for it in ("pem", "key"):
            shutil.copy(f"{folder}/spread.{it}", f"{folder}/edge.{it}")
        write_users(folder, TENANTS)
        self.circles = []
        self.write_list(members)
        self.nginx = Nginx(program, folder, self.port, ends)

    def write_list(self, members, down=()):
        rows = "".join(f"server {it.name} max_fails=0{' down' if it in down else ''};\n" for it in members)
        servers.write(f"{self.folder}/needleazure.servers", rows.encode())
        self.circles.append(placement.Circle([it.name for it in members], [it.name for it in down]))

    def homes(self, shipper):
        """The names of the servers where the model has a shipper, list after list."""
        return [it.server_of(placement.key_of(shipper.tenant, shipper.home_key)) for it in self.circles]


class Shipper(Pusher):
    """A client with a name and a stream of its own. (One of a tenant doesn't say who it is.)"""

    def __init__(self, port, tenant, name):
        is_named = not name.endswith("-0")
        more, self.home_key = ({"X-Shipper": name}, name) if is_named else ({}, "127.0.0.1")
        super().__init__(port, tenant, {"from": "scale", "host": name}, more, 0.02)
        self.name = name


def statuses(shippers, since):
    """What was answered but 204 since then: 0 is a connection that ended without an answer."""
    return dict(collections.Counter(status for it in shippers for at, status in it.errors if at >= since))


def change_the_list(edge, members, shippers, start_member):
    """A server is added; one is killed and marked down; it comes back. Each time the shippers go on."""
    def change(what, act, *others, down=()):
        """Changes a server and then the list. Others are the answers that may come beside 204."""
        begun = time.monotonic()
        act()
        edge.write_list(members, down)
        edge.nginx.reload()
        time.sleep(CALM)
        found = statuses(shippers, begun)
        hold(set(found) <= {0, *others}, f"{what}: other answers than 204 are {found or 'none'}")

    def kill_one():
        members[1].kill()
        time.sleep(AWAY)

    for it in shippers:
        it.start()
    time.sleep(CALM)
    count = sum(len(it.answered) for it in shippers)
    hold(not statuses(shippers, 0), f"three servers: {count} pushes answered, none refused")
    change("a fourth is added", lambda: members.append(start_member()))
    change(f"one is killed, and marked down after {AWAY} s", kill_one, 502, down=[members[1]])
    change("it comes back", members[1].start)
    for it in shippers:
        it.end()
    hold(not any(it.is_alive() for it in shippers), "each push is answered at last")


def all_there(edge, members, shippers):
    lines, twice, several, by_move = 0, 0, 0, collections.Counter()
    for it in shippers:
        homes = edge.homes(it)
        found = {at.name: at.server.read(it.tenant, it.labels) for at in members}
        kept = [tuple(entry) for name in found for entry in found[name]]
        answered = set(map(tuple, it.values()))
        servers.need(answered <= set(kept), f"{it.name}: {len(answered - set(kept))} answered lines are lost")
        servers.need(set(kept) <= answered, f"{it.name}: {len(set(kept) - answered)} lines of nobody")
        on = {name for name in found if found[name]}
        servers.need(on == set(homes), f"{it.name}: its lines are on {on}, and the model has {homes}")
        lines, twice, several = lines + len(answered), twice + len(kept) - len(answered), several + (len(on) > 1)
        by_move["added"] += homes[1] != homes[0]
        by_move["down"] += homes[2] != homes[1]
    hold(lines > 0, f"{lines} lines answered are all there, {twice} of them twice")
    hold(all(by_move.values()), f"of {len(shippers)} shippers {by_move['added']} moved to the server that was added, "
         f"{by_move['down']} from the one that was down, and the lines of {len(shippers) - several} are on one server")


def keeps_others_out(edge, members):
    """A client without the edge's certificate is not let in by a server's machine, and a trim not by the edge."""
    status = Client(members[0].port).ask(PUSH, "large", b"{}", {"X-Scope-OrgID": "large"})
    hold(status == 400, f"a push past the edge, without its certificate: {status}")
    command = re.search(r"`(curl --cert [^`]*)`", text_at("docs/SCALE.md"))[1]
    command = command.replace("10.0.0.14:3443", members[0].name)
    for path, due in [("/ready", "200"), ("/ingester/v1/read", "404")]:
        words = ["bash", "-euc", f"{command.replace('/ready', path)} -sS -o /dev/null -w '%{{http_code}}'"]
        said = subprocess.run(words, cwd=edge.folder, capture_output=True, text=True, timeout=60, check=False)
        hold(said.stdout == due, f"{path} of a server's machine by the page's curl: {said.stdout} {said.stderr}".strip())
    status = Client(edge.port).ask("/ingester/v1/trim", "large")
    hold(status == 404, f"a trim through the edge: {status}")
    lie = servers.push_body([({"from": "liar"}, [servers.entry()])])
    status = Client(edge.port).ask(PUSH, "large", lie, {"X-Scope-OrgID": "small-1"})
    kept = [sum(len(it.server.read(tenant, {"from": "liar"})) for it in members)
            for tenant in ("large", "small-1")]
    hold([status, *kept] == [204, 1, 0], f"a client that lies about its tenant: {status}, {kept}")


def check(work, ends):
    # (nginx's workers are another user's)
    os.chmod(work, 0o711)
    program = find_nginx(work)
    hold_model(work, program)
    # (certificates by the commands of the page)
    blocks = re.findall(r"^```sh\n(.*?)^```$", text_at("docs/SCALE.md"), re.M | re.S)
    block = next(it for it in blocks if "openssl req" in it)
    subprocess.run(["bash", "-euc", block], check=True, cwd=work, stderr=subprocess.DEVNULL)
    members = [Member(program, f"{work}/member-{at}", ends) for at in range(3)]
    edge = Edge(program, f"{work}/edge", members, ends)
    of_tenants = ((tenant, f"{tenant}-{at}") for tenant, count in TENANTS.items() for at in range(count))
    shippers = [Shipper(edge.port, *it) for it in of_tenants]
    change_the_list(edge, members, shippers, lambda: Member(program, f"{work}/member-3", ends))
    all_there(edge, members, shippers)
    keeps_others_out(edge, members)
