"""fill_check: deploy/fill-slots under losses of power, and the number of shards that deploy/with-shards finds.

What it writes between two syncs may be lost in part, and where a file was made longer anything may stand. So for each
piece that it writes, the bytes of the piece are made ones, up to many lengths; walcat has to find each such slot
closed, and a server has to start over them. As a control the same is done for slots that are filled in one piece."""
import contextlib
import fcntl
import os
import shutil
import subprocess
import time

import servers
from row_files import pieces_of
from servers import TOP, hold, write_program

SHARDS, CAPACITY = 2, 65536
SLOTS = [f"shard-{at // 2:02}-{at % 2}.wal" for at in range(2 * SHARDS)]


def fill(folder, tools=None):
    environment = {**os.environ, "NEEDLEAZURE_CAPACITY": str(CAPACITY)}
    if tools:
        environment["PATH"] = f"{tools}:{environment['PATH']}"
    words = [f"{TOP}/deploy/fill-slots", folder, str(SHARDS)]
    return subprocess.run(words, env=environment, capture_output=True, text=True, timeout=60)


def pieces(work):
    """The lengths that a slot had behind each of its syncs, of each slot in turn."""
    tools, folder = f"{work}/sized", f"{work}/slots"
    size = f'echo "${{it##*/}} $(stat -c %s "${{it#of=}}")" >> {work}/sizes'
    each = f'for it in "$@"; do case $it in of=*) {size};; esac; done'
    write_program(f"{tools}/dd", f'#!/bin/bash\n{shutil.which("dd")} "$@" || exit\n{each}\n')
    hold(fill(folder, tools).returncode == 0, "the slots are filled")
    hold(all(servers.bytes_of(f"{folder}/{it}") == bytes(CAPACITY) for it in SLOTS), "with zeros, to the capacity")
    rows = [line.split() for line in servers.bytes_of(f"{work}/sizes").decode().splitlines()]
    return {name: [int(size) for slot, size in rows if slot == name] for name in SLOTS}


def images(lengths):
    """What a loss of power may leave of a slot that had these lengths behind its syncs."""
    for low, high in zip([0, *lengths], lengths):
        for length in sorted({low, low + 1, low + 2, low + 5, low + 21, low + 26, (low + high) // 2, high - 1, high}):
            if low <= length <= high:
                yield bytes(low) + b"\1" * (length - low)


def is_closed(work, image):
    servers.write(f"{work}/image", image)
    return servers.run(["walcat", f"{work}/image", "0", "1"])[:2] == (0, b"closed\n")


def starts_over(folder, image):
    """Whether a server starts over an image in the place of all slots."""
    os.makedirs(folder, exist_ok=True)
    for name in SLOTS:
        servers.write(f"{folder}/{name}", image)
    with contextlib.suppress(servers.NotStarted), servers.Server(folder, SHARDS, 1):
        return True
    return False


def meet_a_server(work):
    """A segment that comes between the look and the lock stays; a slot that is locked stays, and fill-slots says so."""
    folder, tools, segment = f"{work}/met", f"{work}/late", b"\1LWL2 as a server writes it"
    write = f'printf "\\001LWL2 as a server writes it" > {folder}/{SLOTS[1]}'
    write_program(f"{tools}/flock", f'#!/bin/bash\n[ -e {folder}/done ] || {{ {write}; : > {folder}/done; }}\n'
                                    f'exec {shutil.which("flock")} "$@"\n')
    hold(fill(folder, tools).returncode == 0, "slots of which one gets a segment behind the first look")
    hold(servers.bytes_of(f"{folder}/{SLOTS[1]}") == segment, "it stays as the server wrote it")
    folder = f"{work}/locked"
    os.makedirs(folder)
    with open(f"{folder}/{SLOTS[0]}", "wb") as file:
        fcntl.flock(file, fcntl.LOCK_EX)
        ended = fill(folder)
    hold(ended.returncode == 1 and "a server has it" in ended.stderr, "a slot that a server has is told")
    hold(os.path.getsize(f"{folder}/{SLOTS[0]}") == 0, "and stays")


def found_over(folder, **settings):
    """The number of shards and the capacity that a command is given over a folder."""
    environment = {name: it for name, it in os.environ.items() if name not in ("SHARDS", "NEEDLEAZURE_CAPACITY")}
    words = [f"{TOP}/deploy/with-shards", f"{os.path.dirname(folder)}/told", folder, "a b", "{}", ""]
    ended = subprocess.run(words, env={**environment, **settings}, capture_output=True, text=True, timeout=60)
    given, number, capacity = ended.stdout.split("\n")[:3]
    if (ended.returncode, ended.stderr, given) != (7, "", f"{folder}|a b|{number}|"):
        hold(False, f"the command's status and its other words are as they were: {ended}")
    return number, capacity


def write_slots(folder, count, slots=()):
    """Empty slots of `count` shards, and these in the place of some: a slot, its length, and its bytes up to zeros."""
    shutil.rmtree(folder, ignore_errors=True)
    os.makedirs(folder)
    empty = [(b"%02d-%d" % (shard, slot), 0, b"") for shard in range(count) for slot in (0, 1)]
    for name, length, data in [*empty, *slots]:
        path = f"{folder}/shard-{name.decode()}.wal"
        servers.write(path, data)
        os.truncate(path, int(length))


NEW, SIXTEEN = ("8", "134217728"), ("16", "none")


def find_numbers(work):
    folder = f"{work}/found"
    told = 'echo "$1|$2|$3|$4"; echo "$3"; echo "${NEEDLEAZURE_CAPACITY-none}"; exit 7'
    write_program(f"{work}/told", f"#!/bin/bash\n{told}\n")
    hold(found_over(folder) == NEW, "a folder that isn't there: 8 shards")
    for what, due, count, *slots in pieces_of(f"{TOP}/tests/rows/folders.txt"):
        wanted = tuple(due.decode().split())
        write_slots(folder, int(count), [it.split(b" ", 2) for it in slots])
        hold(found_over(folder) == wanted, f"{what.decode()}: {wanted[0]} shards, capacity {wanted[1]}")
        if wanted[0] == "8":
            hold(found_over(folder, SHARDS="8") == wanted, "and the same where 8 is set")
    write_slots(folder, 16)
    os.remove(f"{folder}/shard-10-0.wal")
    os.mkfifo(f"{folder}/shard-10-0.wal")
    hold(found_over(folder) == SIXTEEN, "a pipe holds nothing up")
    hold(found_over(folder, SHARDS="9") == ("9", "none"), "a number that is set is taken")
    hold(found_over(folder, SHARDS="x") == ("x", "none"), "also what is no number")
    hold(found_over(folder, NEEDLEAZURE_CAPACITY="5000") == ("16", "5000"), "so is a capacity")
    hold(found_over(folder, SHARDS="8", NEEDLEAZURE_CAPACITY="") == ("8", ""), "also an empty one")
    shutil.rmtree(folder)
    with servers.Server(folder, 5, 1) as server, servers.Client(server.port) as client:
        hold(client.push({"job": "it"}, [(time.time_ns(), "a line", ())])[0] == 204, "a server takes a line")
    hold(found_over(folder) == ("5", "none"), "what a server of 5 shards wrote: 5 shards")


def check(work, _):
    found = {image for lengths in pieces(work).values() for image in images(lengths)}
    refused = [it for it in found if not is_closed(work, it)]
    hold(not refused, f"{len(found)} slots that a loss of power may leave, {len(refused)} refused")
    hold(all(starts_over(f"{work}/images", it) for it in found), "a server starts over each of them")
    control = set(images([CAPACITY]))
    refused = [it for it in control if not is_closed(work, it)]
    hold(len(refused) > len(control) // 2, f"filled in one piece, {len(refused)} of {len(control)} are refused")
    meet_a_server(work)
    find_numbers(work)
