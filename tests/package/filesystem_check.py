"""filesystem_check: what deploy/check-filesystem says of a log on file systems of each kind, as
root: nothing of those that keep what was synced, and why others don't. Each is made on a loop
device, or mounted, in a namespace of its own; NFS is told by a findmnt in place of the real one,
and so are mirrors, by devices and a drbdsetup that are made up. (`make failover-check` has real
ones of DRBD.)"""
import contextlib
import copy
import os
import subprocess

import block_devices
from block_devices import FILE_SYSTEMS, run
from row_files import pieces_of
from servers import TOP, hold, write, write_program

GUARD, NOBODY = f"{TOP}/deploy/check-filesystem", "65534"
# of each kind what is made, how, and what has to be said
ROWS = [[it.decode() for it in row] for row in pieces_of(f"{TOP}/tests/rows/filesystems.txt")]


def said_of(folder, *before, **settings):
    ended = subprocess.run([*before, GUARD, folder], capture_output=True, text=True, timeout=60, check=False,
                           env={**os.environ, **settings})
    lines = ended.stderr.splitlines()
    hold(ended.stdout == "" and ended.returncode == int(bool(lines)), f"  status {ended.returncode}, and {len(lines)} lines")
    return lines


def judge(what, lines, folder, due, page="Which file system"):
    if not due:
        hold(lines == [], f"of {what} nothing is said")
    else:
        is_so = len(lines) == 1 and due in lines[0] and lines[0].startswith(f"check-filesystem: {folder} is on ")
        hold(is_so and page in lines[0], f"of {what} it is said: {lines}")


def on_devices(work):
    for what, name, options, due in (row for kind, *row in ROWS if kind == "device"):
        system = copy.copy(FILE_SYSTEMS[name])
        system.options = options or system.options
        block_devices.make(system, f"{work}/image")
        with block_devices.mounted(system, f"{work}/image", f"{work}/disk"):
            judge(what, said_of(f"{work}/disk/log"), f"{work}/disk/log", due)
            if "fast_commit" in what:
                # (it can't read the device, and the kernel tells of commits that were made)
                run("dd", "if=/dev/zero", f"of={work}/disk/file", "bs=4096", "count=4", "oflag=dsync", "status=none")
                lines = said_of(f"{work}/disk/log", "setpriv", f"--reuid={NOBODY}", f"--regid={NOBODY}", "--clear-groups")
                judge(f"{what}, by another user than root,", lines, f"{work}/disk/log", due)


@contextlib.contextmanager
def at(folder, *words):
    run("mount", *words, folder)
    try:
        yield
    finally:
        block_devices.unmount(folder)


def on_others(work):
    for what, words, due in (row for kind, *row in ROWS if kind == "mount"):
        with at(f"{work}/disk", "-t", "tmpfs", "none"):
            for it in ("lower", "upper", "between", "log"):
                os.mkdir(f"{work}/disk/{it}")
            with at(f"{work}/disk/log", *words.format(f"{work}/disk").split(), "none"):
                judge(what, said_of(f"{work}/disk/log"), f"{work}/disk/log", due)
    recorder = block_devices.build_recorder(work)
    block_devices.make(FILE_SYSTEMS["ext4"], f"{work}/image")
    with block_devices.Recorded(recorder, block_devices.Events(False), FILE_SYSTEMS["ext4"], f"{work}/image", work) as disk:
        judge("FUSE", said_of(disk.place), disk.place, "the program that serves it")


def by_others(work):
    """By a findmnt of our own."""
    tools = f"{work}/tools"
    for what, line, due in (row for kind, *row in ROWS if kind == "findmnt"):
        write_program(f"{tools}/findmnt", f'#!/bin/sh\necho "{line}"\n')
        judge(what, said_of(work, PATH=f"{tools}:{os.environ['PATH']}"), work, due)


def make_devices(folder, lacking):
    """A mirror of md that lacks so many disks, a volume on it, a part of it, and a device of DRBD."""
    texts = {"md0/dev": "9:0", "md0/md/degraded": lacking, "md0/md0p1/dev": "259:1", "md0/md0p1/partition": "1",
             "dm-0/slaves/md0/dev": "9:0", "drbd0/dev": "147:0"}
    for path, text in texts.items():
        os.makedirs(os.path.dirname(f"{folder}/{path}"), exist_ok=True)
        write(f"{folder}/{path}", f"{text}\n".encode())
    for number, path in {"9:0": "md0", "259:1": "md0/md0p1", "253:0": "dm-0", "147:0": "drbd0"}.items():
        os.symlink(path, f"{folder}/{number}")


def on_mirrors(work):
    tools = f"{work}/tools"
    for what, words, due in (row for kind, *row in ROWS if kind == "mirror"):
        number, own, *more = words.split()
        other, fencing = more or ("", "")
        write_program(f"{tools}/findmnt", f'#!/bin/sh\necho "ext4 {number} rw /mnt /dev/some"\n')
        write_program(f"{tools}/drbdsetup", f"""#!/bin/sh
[ "$1" = status ] || {{ printf ' disk {{\\n\\tfencing \\t{fencing};\\n' && exit; }}
printf 'another role:Primary\\n  volume:0 minor:7 disk:Diskless\\n\\n'
printf 'log role:Primary\\n  volume:0 minor:0 disk:{own}\\n  peer role:Secondary\\n    volume:0 peer-disk:{other}\\n'
""")
        with at("/sys/dev/block", "-t", "tmpfs", "none"):
            make_devices("/sys/dev/block", own)
            judge(what, said_of(work, PATH=f"{tools}:{os.environ['PATH']}"), work, due, "FAILOVER.md")


def through_links(work):
    """A slot that is a symbolic link is where it points to."""
    for it in ("disk", "other"):
        block_devices.make(FILE_SYSTEMS["xfs"], f"{work}/{it}.image")
    with block_devices.mounted(FILE_SYSTEMS["xfs"], f"{work}/disk.image", f"{work}/disk"):
        os.mkdir(f"{work}/disk/log")
        with at(f"{work}/other", "-t", "tmpfs", "none"):
            for slot in (0, 1):
                write(f"{work}/other/slot-{slot}", b"")
                os.symlink(f"{work}/other/slot-{slot}", f"{work}/disk/log/shard-00-{slot}.wal")
            judge("two slots in memory", said_of(f"{work}/disk/log"), f"{work}/other/slot-0", "in memory")


def check(work, _):
    block_devices.enter_namespace()
    with block_devices.without_mounts(work):
        # (the other user looks there too)
        os.chmod(work, 0o755)
        for it in ("disk", "other"):
            os.mkdir(f"{work}/{it}")
        on_devices(work)
        on_others(work)
        by_others(work)
        on_mirrors(work)
        through_links(work)
