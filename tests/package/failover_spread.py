"""A pair of machines as one of two servers behind deploy/nginx-spread.conf: what shippers see while
the pair's machine is lost, and where their lines are meanwhile."""
import collections
import json
import re
import subprocess
import time

import scale_out_check
import servers
from scale_out_check import Edge, Member, Shipper, statuses
from servers import hold, need, text_at, wait_until

# (a push that was under way to the lost machine has no answer until its shipper gives up, after ten seconds)
SHIPPERS, CALM, LOST = 24, 4, 18
FILES = ["member.pem", "member.key", "spread.pem"]
INSTALL = """export DEBIAN_FRONTEND=noninteractive
apt-get install -y --no-install-recommends nginx
cp /usr/share/doc/needleazure/examples/nginx-member.conf /etc/nginx/nginx.conf
cp /root/*.pem /root/*.key /etc/nginx/
systemctl restart nginx"""


class Served:
    """The pair as a line of the list, by its moving address."""

    def __init__(self, address):
        self.name = f"{address}:3443"


def install(machine, work):
    for it in FILES:
        machine.put(f"{work}/{it}", f"/root/{it}")
    machine.do(INSTALL)


def make_certificates(work):
    """By the commands of docs/SCALE.md."""
    blocks = re.findall(r"^```sh\n(.*?)^```$", text_at("docs/SCALE.md"), re.M | re.S)
    block = next(it for it in blocks if "openssl req" in it)
    subprocess.run(["bash", "-euc", block], check=True, cwd=work, stderr=subprocess.DEVNULL)


def change_list(edge, members, down=()):
    edge.write_list(members, down)
    edge.nginx.reload()


def answered_since(shippers, since):
    """How many pushes of these shippers were answered 204 since then, by the times of their lines."""
    return sum(line[0] > since for it in shippers for _, line in it.answered)


def lose_it(pair, edge, members, shippers):
    """The pair's machine is lost under load, its line marked, the other machine promoted, and the line unmarked."""
    theirs = [it for it in shippers if edge.homes(it)[0] == members[0].name]
    others = [it for it in shippers if it not in theirs]
    need(theirs and others, "both servers have shippers")
    before, begun = {it: list(it.answered) for it in theirs}, time.monotonic()
    pair.serving.kill()
    pair.swap()
    time.sleep(LOST)
    found, rest = statuses(theirs, begun), statuses(others, begun)
    hold(set(found) <= {0, 502, 504} and found and not rest, f"a lost machine: its {len(theirs)} shippers are answered "
         f"{found}, the {len(others)} others {rest or '204 alone'}")
    since = time.time_ns()
    change_list(edge, members, down=members[:1])
    is_so = wait_until(lambda: all(answered_since([it], since) for it in theirs), 20)
    count = answered_since(theirs, since)
    hold(is_so, f"marked down: each of them is answered 204 by the other server, {count} pushes")
    pair.promote()
    change_list(edge, members)
    time.sleep(CALM)
    return before


def read_both(pair_client, other, shipper):
    text = pair_client.must(servers.READ, servers.read_body(shipper.labels), shipper.tenant)
    return ({tuple(it) for it in json.loads(text)["values"]},
            {tuple(it) for it in other.server.read(shipper.tenant, shipper.labels)})


def try_spread(pair, client, work, program, ends):
    make_certificates(work)
    for it in (pair.serving, pair.other):
        install(it, work)
    members = [Served(client.address), Member(program, f"{work}/member", ends)]
    edge = Edge(program, f"{work}/edge", members, ends)
    of_tenants = [(tenant, f"{tenant}-{at}") for tenant in scale_out_check.TENANTS for at in range(SHIPPERS // 3)]
    shippers = [Shipper(edge.port, *it) for it in of_tenants]
    for it in shippers:
        it.start()
    time.sleep(CALM)
    hold(not statuses(shippers, 0), f"{sum(len(it.answered) for it in shippers)} pushes through TLS, none refused")
    before = lose_it(pair, edge, members, shippers)
    for it in shippers:
        it.end()
    count = collections.Counter()
    for it in shippers:
        on_pair, on_other = read_both(client, members[1], it)
        values = {tuple(value) for value in it.values()}
        need(values <= on_pair | on_other, f"{it.name}: {len(values - on_pair - on_other)} answered lines are lost")
        early = {tuple(servers.value_of(line)) for _, line in before.get(it, [])}
        need(early <= on_pair, f"{it.name}: {len(early - on_pair)} lines from before the loss are not on the mirror")
        count.update(lines=len(values), early=len(early), both=len(on_pair & on_other))
    hold(count["early"], f"{count['lines']} lines answered are all there, {count['both']} of them on both servers; "
         f"{count['early']} of the lost machine waited on its mirror")
