"""File systems on loop devices, recorded (record_device.c) or of an image, in a namespace of mounts
of their own, with which the mounts end, however this process ends; a loop device is handed back
when its mount ends."""
import contextlib
import os
import signal
import subprocess
import sys
import threading
import time

from servers import SECONDS, TOP, bytes_of, wait_until, write

INSIDE = "NEEDLEAZURE_IN_NAMESPACE"
LOOP_MAJOR = 7
TRACING = "/sys/kernel/tracing"
FAILED = subprocess.CalledProcessError


class NotMounted(Exception):
    """A file system that can't be mounted, or mended."""


class InUse(Exception):
    """A loop device that stays in use after its file system was unmounted."""


class Unnoted(Exception):
    """A device has at the end what its notes do not give."""


class FileSystem:
    """How a file system is made and mounted, and what mends it. `size` is the least by which its mkfs has its usual
    features. Of `may_lose` what mends it may throw away what was synced; `in_place` is a log that is not copied on write;
    `at_once` is how many of its images may be mounted together."""

    def __init__(self, kind, size, make, mend, options="rw", may_lose=False, in_place=False, at_once=8):
        self.kind, self.size, self.make, self.mend, self.options = kind, size << 20, make, mend, options
        self.may_lose, self.in_place, self.turn = may_lose, in_place, threading.Semaphore(at_once)


EXT4_MEND = [["e2fsck", "-fy"]]
BTRFS = ["btrfs", 320, ["mkfs.btrfs", "-q", "-f"], [["btrfs", "rescue", "super-recover", "-y"]]]
FILE_SYSTEMS = {
    "ext4": FileSystem("ext4", 600, ["mkfs.ext4", "-q", "-F"], EXT4_MEND),
    "xfs": FileSystem("xfs", 320, ["mkfs.xfs", "-q", "-f"], [["xfs_repair", "-L"]], "nouuid", may_lose=True),
    # (images of one file system have one name, by which older kernels take the second for the first)
    "btrfs": FileSystem(*BTRFS, may_lose=True, at_once=1),
    "btrfs-in-place": FileSystem(*BTRFS, may_lose=True, at_once=1, in_place=True),
    "ext4-fast-commit": FileSystem("ext4", 600, ["mkfs.ext4", "-q", "-F", "-O", "fast_commit"], EXT4_MEND),
}


def enter_namespace(*more):
    """Starts this script again in a namespace of its own for mounts and processes, and for what `more` words of unshare
    name, and returns there alone."""
    if os.environ.get(INSIDE):
        signal.signal(signal.SIGTERM, lambda number, _: sys.exit(128 + number))
        return
    if os.geteuid() != 0:
        sys.exit("root alone may mount: run this as root")
    words = ["unshare", *more, "--mount", "--propagation", "slave", "--pid", "--fork", "--kill-child", "--mount-proc"]
    # (a signal of the terminal comes to the script inside too)
    signal.signal(signal.SIGINT, signal.SIG_IGN)
    with subprocess.Popen([*words, sys.executable, "-B", *sys.argv], env={**os.environ, INSIDE: "1"},
                          preexec_fn=lambda: signal.signal(signal.SIGINT, signal.SIG_DFL)) as outer:
        signal.signal(signal.SIGTERM, lambda *_: stop_inside(outer.pid))
        sys.exit(outer.wait())


def stop_inside(outer):
    """Hands a signal on, which unshare itself doesn't."""
    for it in bytes_of(f"/proc/{outer}/task/{outer}/children").split():
        os.kill(int(it), signal.SIGTERM)


@contextlib.contextmanager
def without_mounts(folder):
    """Leaves no mount below this folder, which may be removed then."""
    try:
        yield
    finally:
        places = [line.split()[1] for line in bytes_of("/proc/self/mounts").decode().splitlines()]
        for it in reversed([it for it in places if it.startswith(f"{folder}/")]):
            subprocess.run(["umount", "--lazy", it], check=False)


def run(*words, why=FAILED, well=(0,)):
    ended = subprocess.run(words, capture_output=True, text=True, timeout=SECONDS, check=False)
    if ended.returncode not in well:
        said = (ended.stderr or ended.stdout).strip()
        raise why(f"{' '.join(words)}: {said}") if why is not FAILED else why(ended.returncode, words, ended.stdout, said)
    return ended.stdout


def build_recorder(folder):
    flags = run("pkg-config", "--cflags", "--libs", "fuse3").split()
    run("cc", "-O1", "-o", f"{folder}/record_device", f"{TOP}/tests/server/record_device.c", *flags)
    return f"{folder}/record_device"


def make(system, path):
    """An empty file system in a file."""
    with open(path, "wb") as file:
        file.truncate(system.size)
    run(*system.make, path)
    run("fallocate", "--dig-holes", path)


def wait_for(is_so, what):
    if not wait_until(is_so, SECONDS / 3, 0.01):
        raise InUse(what)


def unmount(folder):
    """Unmounts what nobody has open: another thread's program may have, for a moment, between its fork and its exec."""
    how = {"stderr": subprocess.DEVNULL, "timeout": SECONDS}
    wait_for(lambda: subprocess.call(["umount", folder], **how) == 0, f"{folder} can't be unmounted")


@contextlib.contextmanager
def mounted(system, image, folder):
    """The file system of an image, at this folder."""
    os.makedirs(folder, exist_ok=True)
    with system.turn:
        run("mount", "-t", system.kind, "-o", f"loop,{system.options}", image, folder, why=NotMounted)
        device = next(f"/dev/{it}" for it in os.listdir("/sys/block") if is_of(it, image))
        try:
            yield
        finally:
            unmount(folder)
            wait_for(lambda: not is_of(device, image), f"{device} is in use after {folder} was unmounted")


def is_of(device, path):
    """Whether a loop device is over this file."""
    with contextlib.suppress(OSError):
        return bytes_of(f"/sys/block/{os.path.basename(device)}/loop/backing_file").decode().strip() == path
    return False


def mend(system, image):
    """Mends an image as its file system's own tool does, which returns 1 where it mended something."""
    for words in system.mend:
        run(*words, image, why=NotMounted, well=(0, 1, 2))


EVENTS = {"block_bio_queue": 'rwbs ~ "*F*"', "block_rq_issue": 'rwbs ~ "W*"',
          "block_rq_complete": 'nr_sector == 0 && rwbs ~ "W*"'}


class Events:
    """The kernel's block events of a device that has flushes or FUA, in a trace of its own."""

    def __init__(self, is_wanted=True):
        self.folder = None
        if not is_wanted:
            return
        with contextlib.suppress(OSError, subprocess.CalledProcessError):
            if not os.path.exists(f"{TRACING}/events"):
                run("mount", "-t", "tracefs", "none", TRACING)
            if os.path.exists(f"{TRACING}/events/block/block_rq_complete"):
                folder = f"{TRACING}/instances/needleazure-{time.monotonic_ns()}"
                os.mkdir(folder)
                self.folder = folder

    def put(self, name, text):
        write(f"{self.folder}/{name}", text.encode())

    def begin(self, device):
        """From here on all of this device is told, and nothing else."""
        if not self.folder:
            return
        number = LOOP_MAJOR << 20 | int(device.removeprefix("/dev/loop"))
        self.put("trace_clock", "mono")
        self.put("buffer_size_kb", "8192")
        for name, which in EVENTS.items():
            self.put(f"events/block/{name}/filter", f"dev == {number} && {which}")
            self.put(f"events/block/{name}/enable", "1")
        self.put("trace", "")

    def text(self):
        """The events; None where the kernel tells none, or has told more than there was room for."""
        if not self.folder:
            return None
        text = bytes_of(f"{self.folder}/trace").decode(errors="replace")
        for name in EVENTS:
            self.put(f"events/block/{name}/enable", "0")
        counts = text.partition("entries-in-buffer/entries-written: ")[2].partition(" ")[0].split("/")
        return text if len(counts) == 2 and counts[0] == counts[1] else None

    def end(self):
        if self.folder:
            os.rmdir(self.folder)


class Recorded:
    """A file system over the file `content`, at `self.folder`, of whose device all is noted in `self.notes`."""

    def __init__(self, recorder, events, system, content, work, waits=(0, 0)):
        self.system, self.content, self.events = system, content, events
        self.folder, self.place, self.notes = f"{work}/disk", f"{work}/served", f"{work}/notes"
        self.words = [recorder, self.place, content, self.notes, *map(str, waits)]

    def __enter__(self):
        for it in (self.folder, self.place):
            os.makedirs(it, exist_ok=True)
        self.running = subprocess.Popen(self.words, stderr=subprocess.DEVNULL)
        file = f"{self.place}/device"
        wait_for(lambda: os.path.exists(file) or self.running.poll() is not None, "the recorder does not begin")
        if self.running.poll() is not None:
            raise NotMounted("the recorder ended: has this machine /dev/fuse?")
        self.device = run("losetup", "--direct-io=on", "--find", "--show", file).strip()
        self.events.begin(self.device)
        run("mount", "-t", self.system.kind, "-o", self.system.options, self.device, self.folder)
        # (it ends with the mount)
        run("losetup", "--detach", self.device)
        if self.system.in_place and not os.path.exists(f"{self.folder}/log"):
            os.mkdir(f"{self.folder}/log")
            run("chattr", "+C", f"{self.folder}/log")
        return self

    def __exit__(self, *_):
        unmount(self.folder)
        wait_for(lambda: not is_of(self.device, f"{self.place}/device"), f"{self.device} is in use after it was unmounted")
        unmount(self.place)
        self.running.wait(SECONDS)
        self.told = self.events.text()
