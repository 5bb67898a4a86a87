"""Slots that can't be used, file systems that fill, few descriptors, and splits whose device calls fail."""
import collections
import concurrent.futures
import contextlib
import fcntl
import itertools
import os
import re
import resource
import shutil
import signal
import stat
import struct
import subprocess
import time

import pytest
import servers
from hostile_bytes import APPENDED, EXAMPLE, EXAMPLE_OF_1
from row_files import pieces_of

NOBODY, LONGEST = 65_534, 2**30
READ = b'{"stream":{"a":"1"},"from":"0","to":"100"}'
READ_ALL = b'{"stream":{"a":"1"},"from":"0","to":"9223372036854775807"}'
as_root = pytest.mark.skipif(os.geteuid() != 0, reason="needs root")


def test_ingestctl_reads_what_a_server_kept(serve, folder):
    """Once the server is killed."""
    now, server = time.time_ns(), serve("log", 2)
    with servers.Client(server.port) as client:
        assert client.push({"a": "1"}, [(now, "x", ())]) == (204, "")
    server.end()
    wanted = b'200\n{"values":[["%d","x"]]}' % now
    assert servers.run(["ingestctl", "read", f"{folder}/log", "2", "t", str(now)], READ_ALL) == (0, wanted, b"")


def files_of(folder):
    """What stands in a folder: of each name its kind, rights, target or bytes, but for files without a byte."""
    found = {}
    for name in sorted(os.listdir(folder)):
        path, its, what = f"{folder}/{name}", os.lstat(f"{folder}/{name}"), None
        if stat.S_ISLNK(its.st_mode):
            what = os.readlink(path)
        elif stat.S_ISREG(its.st_mode):
            # (of a long one, which is mostly a hole, the beginning)
            what = servers.bytes_of(path, 200 if its.st_size > LONGEST else -1)
        if what != b"":
            found[name] = stat.filemode(its.st_mode), its.st_size, its.st_blocks, what
    return found


@pytest.fixture
def programs(folder):
    """A folder of programs that any user may start."""
    os.chmod(folder, 0o755)
    os.mkdir(f"{folder}/programs")
    for name in ("ingesterd", "ingestctl"):
        os.chmod(shutil.copy(servers.program(name), f"{folder}/programs/{name}"), 0o755)
    return f"{folder}/programs"


def lawful(slot):
    return APPENDED if slot == 1 else APPENDED[:5] + struct.pack("<Q", 2) + APPENDED[13:]


def odd_slots():
    """The rows of tests/rows/odd_slots.txt."""
    marks = {"root": as_root, "long": pytest.mark.by_hand}
    for name, words, *row in pieces_of(f"{servers.TOP}/tests/rows/odd_slots.txt"):
        words = words.decode().split()
        its = [marks[it] for it in words if it in marks]
        yield pytest.param(words, *map(bytes.decode, row), id=name.decode(), marks=its)


@pytest.mark.parametrize("slot", [0, 1])
@pytest.mark.parametrize("words, script, due", odd_slots())
def test_slots(folder, programs, words, script, due, slot):
    """The server and ingestctl name the slot, or have its lines, and leave every file as it was."""
    paths, above = servers.slots_of(f"{folder}/log"), f"{folder}/log"
    its = {"path": paths[slot], "other": paths[1 - slot], "lawful": f"{folder}/lawful"}
    servers.write(its["lawful"], lawful(slot))
    script = f"mkdir -m 777 {above}; touch $other; chmod 666 $other; {script}"
    subprocess.run(["bash", "-euc", script], env={**os.environ, **its}, check=True)
    wanted = [(None, b"ready", b""), (0, f"200\n{due}".encode(), b"")]
    if not due.startswith("{"):
        line = due[2:].format(**its, slot=slot, first=paths[0], second=paths[1])
        wanted = [(int(due[0]), b"", f"{line}\n".encode())] * 2
    user = {"user": NOBODY, "group": NOBODY, "extra_groups": []} if "nobody" in words else {}
    locks = {"locked": fcntl.LOCK_EX, "shared": fcntl.LOCK_SH}
    with contextlib.ExitStack() as ends:
        for it in locks.keys() & {*words}:
            fcntl.flock(ends.enter_context(open(its["path"], "r+b")), locks[it])
        before = files_of(above)
        for command, right in zip(("ingesterd {} 0 1 1", "ingestctl read {} 1 t 20"), wanted):
            name, *more = command.format(above).split()
            assert servers.run([f"{programs}/{name}", *more], READ, **user) == right
            assert files_of(above) == before


@pytest.mark.parametrize("name", ["file", "file/slots", "link", "n" * 256, "n/" * 2_100])
def test_folders(folder, name):
    """A file, a place in one, a link to nothing, a name that is too long, and a path that is."""
    servers.write(f"{folder}/file", b"x")
    os.symlink("nothing/at/all", f"{folder}/link")
    before = files_of(folder)
    for words in (["ingesterd", f"{folder}/{name}", "0", "1", "1"], ["ingestctl", "read", f"{folder}/{name}", "1", "t", "20"]):
        assert servers.run(words, READ) == (1, b"", f"cannot open {folder}/{name}\n".encode())
    assert files_of(folder) == before


# what slot 1 has; how long files have to be for a push of one entry behind it; and how long they may be
LENGTHS = [(None, 82, range(86)), (EXAMPLE_OF_1, 96, range(100)), (EXAMPLE, 120, [*range(81, 123), *range(0, 81, 2)])]


def try_length(folder, begun, least, length):
    words, body = [folder, "1", "t", "20"], b'{"streams":[{"stream":{"a":"1"},"values":[["11","y"]]}]}'
    before = [b'["10","x"]'] if begun else []
    states = [b'200\n{"values":[%b]}' % b",".join(it) for it in (before, [*before, b'["11","y"]'])]
    os.mkdir(folder)
    if begun:
        for slot, data in zip(servers.slots_of(folder), (b"", begun)):
            servers.write(slot, data)
    pushed = servers.run(["ingestctl", "push", *words], body, preexec_fn=servers.limit_length(length))
    assert pushed == ((0, b"204\n", b"") if length >= least else (1, b"503\nstream 0: unavailable\n", b"")), length
    read = servers.run(["ingestctl", "read", *words], READ)
    assert read[0] == 0 and read[1] in states[length >= least:], length
    assert servers.run(["ingestctl", "push", *words], body) == (0, b"204\n", b""), length
    assert servers.run(["ingestctl", "read", *words], READ)[1] == states[1], length


@pytest.mark.by_hand
@pytest.mark.parametrize("begun, least, lengths", LENGTHS)
def test_lengths_of_files(folder, begun, least, lengths):
    """What was answered is there with room again, and of what wasn't answered all or nothing."""
    with concurrent.futures.ThreadPoolExecutor(4) as pool:
        list(pool.map(lambda it: try_length(f"{folder}/{it}", begun, least, it), lengths))


def test_few_descriptors(folder):
    """With few descriptors a server is refused by name; from so many on it starts."""
    names = [f"cannot open {folder}/{{}}/shard-0{shard}-{slot}.wal\n" for shard in (0, 1) for slot in (0, 1)]
    limit = lambda count: lambda: resource.setrlimit(resource.RLIMIT_NOFILE, (count, count))
    for least in range(4, 24):
        status, output, errors = servers.run(["ingesterd", f"{folder}/{least}", "0", "2", "2"], preexec_fn=limit(least))
        assert not os.path.isdir(f"{folder}/{least}") or not files_of(f"{folder}/{least}")
        if status is None:
            break
        assert (status, output) == (1, b"") and errors.decode() in [it.format(least) for it in (*names, "cannot listen\n")]
    assert least < 23


STREAMS = [b'{"a":"%d"}' % it for it in range(1, 5)]


def reads_of(folder, shards):
    """What each stream of a folder has, or how a read of it ends."""
    body = b'{"stream":%s,"from":"0","to":"100"}'
    return [servers.run(["ingestctl", "read", folder, str(shards), "t", "20"], body % it) for it in STREAMS]


def try_call(preload, folder, old, count, at, how):
    """A split whose device call with this number fails, or is its last: the old slots stay byte for byte."""
    before, above = files_of(old), f"{folder}/{at}-{how}"
    # (a slot is locked while it is open)
    old = shutil.copytree(old, f"{above}/old")
    os.mkdir(f"{above}/new")
    settings = {"LD_PRELOAD": preload, "DEVICE_AT": str(at), "DEVICE_HOW": how}
    status, output, errors = servers.run(["walsplit", old, f"{above}/new", str(count)], env=settings)
    assert files_of(old) == before, (at, how)
    is_said = errors.endswith(b": device failed\n") and not output and status in (1, 3)
    if how == "fail":
        assert is_said and errors.startswith(b"new ") == (status == 1), (at, how)
    else:
        # (only a write is torn)
        assert status == -signal.SIGKILL or how == "torn" and is_said, (at, how)
    shutil.rmtree(above)


@pytest.mark.parametrize("shards, count", [(1, 2), (2, 1), (2, 3)])
def test_splits_whose_device_fails(folder, preload, shards, count):
    """Each device call of a split in place fails, is stopped, or is torn where it is a write."""
    old, new, counted = f"{folder}/old", f"{folder}/new", f"{folder}/count"
    os.mkdir(new)
    for number, stream in enumerate(STREAMS):
        body = b'{"streams":[{"stream":%s,"values":[["%d","x"]]}]}' % (stream, 10 + number)
        assert servers.run(["ingestctl", "push", old, str(shards), "t", "20"], body)[0] == 0
    reads, settings = reads_of(old, shards), {"LD_PRELOAD": preload, "DEVICE_COUNT_TO": counted}
    ended = servers.run(["walsplit", old, new, str(count)], env=settings)
    assert ended == (0, b"split %d to %d\n" % (shards, count), b"") and reads_of(new, count) == reads
    calls = int(servers.bytes_of(counted))
    assert calls >= 20
    cases = itertools.product(range(1, calls + 1), ("fail", "stop", "torn"))
    with concurrent.futures.ThreadPoolExecutor(4) as pool:
        list(pool.map(lambda it: try_call(preload, folder, old, count, *it), cases))
    assert reads_of(old, shards) == reads


def traced(old, new, count, *words):
    words = ["strace", "-qq", *words, servers.program("walsplit"), old, new, str(count)]
    ended = subprocess.run(words, capture_output=True, text=True, timeout=servers.SECONDS, check=False)
    return ended.returncode, ended.stderr


def try_disturbed(folder, old, whole, count, name, number, how):
    """A split that is stopped before this call of the system, or in which it fails: the new folder is there whole or not at
    all, the old slots stay as they were, and where it is not there the next run makes it."""
    which, before, above = (name, number, how), files_of(old), f"{folder}/{name}-{number}{how}"
    # (a slot is locked while it is open)
    old, new = shutil.copytree(old, f"{above}/old"), f"{above}/new"
    fault = f"inject={name}:error=EIO{how}:when={number}"
    ended = traced(old, new, count, "-o", f"{above}/log", "-e", "trace=all", "-e", fault)
    assert not os.path.isdir(new) or files_of(new) == whole, which
    assert os.path.isdir(new) or ended[0] != 0, which
    assert files_of(old) == before, which
    assert os.path.isdir(new) or traced(old, new, count, "-o", f"{above}/log")[0] == 0 and files_of(new) == whole, which
    shutil.rmtree(above)


@pytest.mark.by_hand
def test_splits_that_are_disturbed(folder):
    """Each call of the system of a split into a folder that isn't there yet is the last one, or fails (by strace)."""
    os.mkdir(f"{folder}/1")
    servers.write(f"{folder}/1/shard-00-0.wal", b"")
    servers.write(f"{folder}/1/shard-00-1.wal", APPENDED)
    for shards, count in ((1, 3), (3, 2)):
        old, new, log = f"{folder}/{shards}", f"{folder}/{count}", f"{folder}/log-{count}"
        assert traced(old, new, count, "-o", log)[0] == 0 and len(os.listdir(new)) == 2 * count
        names = re.findall(rb"^([a-z0-9_]+)\(", servers.bytes_of(log), re.M)
        calls = collections.Counter(it.decode() for it in names if it not in (b"execve", b"exit_group"))
        places = [(name, at) for name, many in calls.items() for at in range(1, many + 1)]
        cases = [(*it, how) for it in places for how in ("", ":signal=KILL")]
        with concurrent.futures.ThreadPoolExecutor(4) as pool:
            list(pool.map(lambda it: try_disturbed(folder, old, files_of(new), count, *it), cases))
