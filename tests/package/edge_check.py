"""edge_check: deploy/nginx.conf in real nginx, before two real servers, and before a gateway and its server.

While 2,000 connections send a byte a second and 16 tenants push line after line, one server is killed and started
again. No push may be refused but those to it, and each line that was answered has to stand there once, on one
server."""
import gzip
import json
import os
import time

from edge_clients import Client, Crowd, Nginx, Pusher, find_nginx, login, write_nginx, write_users
from gateway_runs import Gateway
from servers import PUSH, Server, allow_many_files, certify, entry, free_ports, hold, push_body
from servers import value_of

TENANTS = [f"tenant-{at}" for at in range(16)]
SLOW, CALM, AWAY = 2000, 20, 3
LIES = ["X-Scope-OrgID", "x-scope-orgid", "X_Scope_OrgID"]
# what the file's comments have it changed to before two servers, and before a gateway
SECOND = [("        #server 127.0.0.1:3101", "        server 127.0.0.1:3101")]
GATEWAY = [("    #upstream needleazure-gateway {\n    #    hash", "    upstream needleazure-gateway {\n        hash"),
           ("    #    server 127.0.0.1:3110", "        server 127.0.0.1:3110"),
           ("    #    keepalive 64;\n    #}", "        keepalive 64;\n    }"),
           ("proxy_pass http://needleazure;", "proxy_pass http://needleazure-gateway;"),
           ("client_max_body_size 4194304;", "client_max_body_size 16m;")]


def start_edge(work, behind, ends, more=()):
    """deploy/nginx.conf with these ports in place of its own, a certificate, and a login for each tenant. Its port."""
    port, = free_ports(1)
    ports = [(f"127.0.0.1:{at}", f"127.0.0.1:{it.port}") for at, it in behind.items()]
    write_nginx(work, "deploy/nginx.conf", [("listen 443", f"listen 127.0.0.1:{port}"), *more, *ports])
    write_users(work, [*TENANTS, "slow"])
    certify("/CN=edge", f"{work}/edge.key", f"{work}/edge.pem")
    Nginx(find_nginx(work), work, port, ends)
    return port


def under_load(port, server):
    """The edge keeps slow connections, and refuses pushes to a killed server alone. The pushers."""
    crowd, pushers = Crowd(port, SLOW), [Pusher(port, it, {"from": "edge"}) for it in TENANTS]
    for it in (crowd, *pushers):
        it.start()
    time.sleep(CALM)
    calm, refused = [sum(map(len, its)) for its in (
        [it.answered for it in pushers], [it.errors for it in pushers])]
    server.end()
    time.sleep(AWAY)
    server.start()
    time.sleep(AWAY)
    for it in (*pushers, crowd):
        it.end()
    hold(calm and not refused, f"{calm} pushes of {len(pushers)} clients in {CALM} s beside {SLOW} "
         f"slow connections, {refused} refused")
    hold(crowd.sent > CALM / 2 and not crowd.ended,
         f"{crowd.sent} bytes were sent by each of these, {len(crowd.ended)} ended by the edge")
    late = sum(it.is_alive() for it in pushers)
    hold(not late, f"{late} clients wait for an answer at the end")
    return pushers


def all_there(servers, pushers):
    """Each answered line is there once, on one server, and only the killed server's tenants were refused."""
    stays, refused, lines = [0, 0], 0, 0
    for it in pushers:
        found = [server.read(it.tenant, {"from": "edge"}) for server in servers]
        home = 0 if found[0] else 1
        stays[home] += 1
        refused, lines = refused + len(it.errors), lines + len(it.answered)
        if found[home] != it.values() or found[1 - home] or (home == 1 and it.errors):
            hold(False, f"{it.tenant}: {len(it.answered)} lines answered, {[*map(len, found)]} found, {it.errors}")
    hold(True, f"{stays[0]} tenants on the killed server, {refused} pushes refused, {lines} lines all there once")


def single_requests(port, servers):
    user, other = TENANTS[:2]
    body, lie = (push_body([({"from": it}, [entry()])]) for it in ("size", "liar"))
    text = json.dumps(body).encode()
    wrong = f"Basic x{login(user).removeprefix('Basic ')}"
    asked = [
        ("a body of 4,194,304 bytes", 204, PUSH, text.ljust(4_194_304), {}),
        ("a body of 4,194,305 bytes", 413, PUSH, None, {"Content-Length": "4194305"}),
        ("a chunked body", 204, PUSH, iter([text]), {}),
        ("a wrong password", 401, PUSH, b"", {"Authorization": wrong}),
        ("a trim", 404, "/ingester/v1/trim", b"", {}),
        ("a client that lies about its tenant", 204, PUSH, lie, dict.fromkeys(LIES, other)),
    ]
    for what, wanted, path, sent, more in asked:
        status = Client(port).ask(path, user, sent, more)
        hold(status == wanted, f"{what}: {status}")
    kept = [sum(len(it.read(tenant, {"from": "liar"})) for it in servers) for tenant in (user, other)]
    hold(kept == [1, 0], f"its line is there once, of its own tenant: {kept}")


def before_a_gateway(work, ends):
    """A body that the server alone would refuse, by its form and its length, and one of a liar."""
    server = ends.enter_context(Server(f"{work}/server", workers=64))
    gateway = ends.enter_context(Gateway(server))
    port = start_edge(work, {3110: gateway}, ends, GATEWAY)
    user, other = TENANTS[:2]
    large = [entry(f"{it} ".ljust(250_000, "x")) for it in range(20)]
    statuses = []
    for labels, entries, more in (("gateway", large, {}), ("liar", [entry()], {LIES[0]: other})):
        body = gzip.compress(json.dumps(push_body([({"from": labels}, entries)])).encode())
        statuses.append(Client(port).ask(PUSH, user, body, {"Content-Encoding": "gzip", **more}))
    kept = [len(server.read(tenant, {"from": "liar"})) for tenant in (user, other)]
    is_so = server.read(user, {"from": "gateway"}) == list(map(value_of, large))
    hold(is_so and [*statuses, *kept] == [204, 204, 1, 0], "gzip'd JSON of 5 MB through nginx and "
         f"the gateway, and a client that lies about its tenant: {statuses}, {kept}")


def check(work, ends):
    allow_many_files()
    # (nginx's workers are another user's)
    os.chmod(work, 0o711)
    servers = [ends.enter_context(Server(f"{work}/{it}", workers=64)) for it in ("first", "second")]
    port = start_edge(work, dict(zip((3100, 3101), servers)), ends, SECOND)
    all_there(servers, under_load(port, servers[0]))
    single_requests(port, servers)
    before_a_gateway(f"{work}/gateway", ends)
