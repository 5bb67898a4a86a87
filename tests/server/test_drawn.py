"""Drawn, cut and changed bytes for the programs, each answer held to a judge of the definitions
(judges.py). hypothesis draws 100 of each kind, always the same ones, or with DRAWN=n any n, and
shrinks what differs; `by_hand` are the cases that have a name. Labels go into a push of
`ingestctl`, whose log `walcat` then prints, and label texts into a slot. A connection is sent to a
server that has no stream."""
import concurrent.futures
import itertools
import json
import os
import tempfile

import hostile_bytes
import judges
import pytest
import servers
from bodies import canonical, label_fault
from hypothesis import HealthCheck, given, settings, strategies

NOW, SECONDS = 20, 60
# the least number of named cases of each kind
FLOORS = {"segments": 126_000, "bodies": 15_000, "heads": 8_000}
DRAWING = settings(max_examples=int(os.environ.get("DRAWN", 100)), derandomize="DRAWN" not in os.environ, deadline=None,
                   database=None, suppress_health_check=list(HealthCheck))


def walcat(data, shard=0, count=1):
    with tempfile.NamedTemporaryFile(prefix="needleazure-") as file:
        servers.write(file.name, data)
        return servers.run(["walcat", file.name, str(shard), str(count)])


def pushed(sets):
    """What a push of these labels, one line for each, is answered, and what `walcat` then prints of its slot."""
    lines, records = [], []
    for number, pairs in enumerate(sets):
        fault = label_fault(sorted(pairs))
        if fault:
            lines.append(f"stream {number}: {fault}\n")
            continue
        # (the first call begins a segment with its stream, each later one appends to it)
        records.append((b"append t %b entries 1" if records else b"state t %b highest 10 entries 1") % canonical(pairs))
    answer = f"{400 if lines else 204}\n{''.join(lines)}".encode()
    return answer, b"\n".join([b"segment version 2 generation 1 shard 0 of 1", *records]) if records else b"closed\n"


def try_labels(sets):
    if isinstance(sets, bytes):
        data = hostile_bytes.state_of_text(sets)
        return walcat(data), [judges.walcat(data)]
    streams = [{"stream": {name.decode(): value.decode() for name, value in pairs}, "values": [["10", f"{number}"]]}
               for number, pairs in enumerate(sets)]
    body = json.dumps({"streams": streams}, ensure_ascii=False).encode()
    with tempfile.TemporaryDirectory(prefix="needleazure-") as slots:
        _, answer, _ = servers.run(["ingestctl", "push", slots, "1", "t", str(NOW)], body)
        _, printed, _ = servers.run(["walcat", f"{slots}/shard-00-1.wal", "0", "1"])
    # (without its last line, the place of the end)
    return (answer, printed if printed == b"closed\n" else printed.rpartition(b"\nend ")[0]), [pushed(sets)]


@pytest.fixture(scope="module")
def tries(tmp_path_factory):
    with servers.Server(f"{tmp_path_factory.mktemp('drawn')}/log", 4, 64) as server:
        # (addresses of its own, so that ports suffice)
        addresses = itertools.cycle(f"127.0.1.{it}" for it in range(1, 251))
        exchange = lambda data: hostile_bytes.exchange(server.port, data, SECONDS, next(addresses))
        yield {"segments": lambda case: (walcat(*case), [judges.walcat(*case)]),
               "bodies": lambda case: (servers.run(["ingest1", str(case[0])], case[1]), [judges.ingest1(*case)]),
               "labels": try_labels,
               "heads": lambda data: (exchange(data), judges.connection(data))}


@pytest.mark.parametrize("kind", hostile_bytes.DRAWN)
@DRAWING
@given(draw=strategies.randoms(use_true_random=False))
def test_drawn(tries, kind, draw):
    said, wanted = tries[kind](hostile_bytes.DRAWN[kind](draw))
    assert said in wanted


@pytest.mark.by_hand
@pytest.mark.parametrize("kind", FLOORS)
def test_named(tries, kind):
    made = 0
    with concurrent.futures.ThreadPoolExecutor(os.cpu_count()) as pool:
        cases = hostile_bytes.NAMED[kind]()
        while part := list(itertools.islice(cases, 1_000)):
            found = pool.map(lambda it: tries[kind](it[1]), part)
            for (name, _), (said, wanted) in zip(part, found):
                assert said in wanted, name
            made += len(part)
    print(f"{kind}: {made} named cases")
    assert made >= FLOORS[kind]
