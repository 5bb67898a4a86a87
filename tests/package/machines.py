"""Machines of Debian as processes of this one, by its user-mode-linux, as root: each with a root of
its own, disks, an address for all, 10.0.0.NUMBER, and one between the machines alone, 10.0.1.NUMBER.

A kill of the process is the loss of the machine. What is run in a machine comes to it over port 222,
where systemd starts a shell for each connection."""
import contextlib
import os
import shutil
import signal
import socket
import subprocess
import time

import servers
from servers import need, write

SHELL_PORT, OUTSIDE = 222, "10.0.0.1"
# what a fresh machine has beside Debian's smallest system, and what its apt has at hand, since no mirror is in reach
PACKAGES = ["systemd", "systemd-sysv", "dbus", "udev", "kmod", "iproute2", "sudo", "curl", "e2fsprogs", "openssl",
            "procps"]
AT_HAND = ["drbd-utils", "iputils-ping", "iputils-arping", "nginx-light", "adduser", "libjemalloc2", "python3", "mdadm",
           "prometheus-node-exporter", "pacemaker", "corosync", "resource-agents", "crmsh", "fence-agents"]
# (nothing that a machine without a console, a clock or a user at it needs)
MASKED = ["getty.target", "systemd-logind.service", "systemd-user-sessions.service", "systemd-timesyncd.service",
          "apt-daily.timer", "apt-daily-upgrade.timer", "dpkg-db-backup.timer", "e2scrub_all.timer",
          "e2scrub_reap.service", "fstrim.timer", "systemd-pstore.service", "systemd-journal-flush.service",
          "systemd-update-utmp.service"]
NETWORK = """[Unit]
DefaultDependencies=no
Before=network-pre.target sysinit.target
Wants=network-pre.target
[Service]
Type=oneshot
RemainAfterExit=yes
ExecStart=/bin/bash -ec 'number=$(sed "s/.* number=//; s/ .*//" /proc/cmdline); at=0; \\
    for it in eth0 eth1; do ip link set vec$at name $it; ip address add 10.0.$at.$number/24 dev $it; \\
    ip link set $it up; at=1; done; ip link set lo up'
[Install]
WantedBy=sysinit.target
"""
SHELL_SOCKET = f"[Socket]\nListenStream={SHELL_PORT}\nAccept=yes\n[Install]\nWantedBy=sockets.target\n"
SHELL = """[Service]
ExecStart=-/bin/bash
StandardInput=socket
StandardOutput=socket
StandardError=socket
"""
UNITS = {"network.service": NETWORK, "shell.socket": SHELL_SOCKET, "shell@.service": SHELL}
FSTAB = "/dev/ubda / ext4 rw 0 0\nnone /lib/modules hostfs {modules} 0 0\n"


def kernel(work):
    """The kernel that is a program, and the folder of its modules: installed, or unpacked from Debian's package."""
    found = shutil.which("linux.uml")
    above = "" if found else servers.unpacked(f"{work}/uml", "user-mode-linux")
    return found or f"{above}/usr/bin/linux.uml", f"{above}/usr/lib/uml/modules"


def debian(path):
    """A tar of a fresh Debian, with the packages at hand in its apt's cache. (It is kept for the next run.)"""
    if os.path.exists(path):
        return
    os.makedirs(os.path.dirname(path), exist_ok=True)
    # (Debian's suite of this machine and its mirror, as its own apt has them)
    suite = subprocess.run(". /etc/os-release; echo $VERSION_CODENAME", shell=True, check=True, capture_output=True,
                           text=True).stdout.strip()
    words = ["apt-get", "indextargets", "--format", "$(REPO_URI) $(CODENAME)", "Created-By: Packages", "Origin: Debian"]
    targets = subprocess.run(words, check=True, capture_output=True, text=True).stdout
    mirror = next(it.split()[0] for it in targets.splitlines() if it.split()[1] == suite)
    hook = f'chroot "$1" apt-get -qq -y --no-install-recommends --download-only install {" ".join(AT_HAND)}'
    words = ["mmdebstrap", "--quiet", "--variant=minbase", "--skip=cleanup/apt,cleanup/tmp",
             f"--include={','.join(PACKAGES)}", f"--customize-hook={hook}", suite, f"{path}.new.tar", mirror]
    subprocess.run(words, check=True, stdout=subprocess.DEVNULL)
    os.rename(f"{path}.new.tar", path)


def make_image(work, tar, modules, size="1400M"):
    """The image of a fresh machine's first disk."""
    root = f"{work}/root"
    os.mkdir(root)
    subprocess.run(["tar", "-xpf", tar, "-C", root], check=True)
    write(f"{root}/etc/fstab", FSTAB.format(modules=modules).encode())
    os.makedirs(f"{root}/lib/modules", exist_ok=True)
    os.remove(f"{root}/etc/hostname")
    units = f"{root}/etc/systemd/system"
    for name, text in UNITS.items():
        write(f"{units}/{name}", text.encode())
    for name, of in (("network.service", "sysinit"), ("shell.socket", "sockets")):
        os.makedirs(f"{units}/{of}.target.wants", exist_ok=True)
        os.symlink(f"../{name}", f"{units}/{of}.target.wants/{name}")
    for name in MASKED:
        os.symlink("/dev/null", f"{units}/{name}")
    # (a minute of work in a machine)
    subprocess.run(["chroot", root, "apt-get", "-qq", "check"], check=True)
    # (the name of a disk as most machines have it)
    write(f"{root}/etc/udev/rules.d/99-disks.rules", b'KERNEL=="ubdb", SYMLINK+="sdb"\n')
    subprocess.run(["mke2fs", "-q", "-t", "ext4", "-d", root, f"{work}/fresh.img", size], check=True)
    shutil.rmtree(root)
    return f"{work}/fresh.img"


def ip(*words):
    subprocess.run(["ip", *words], check=True)


class Network:
    """The two networks of the machines, in this process's namespace."""

    def __init__(self, numbers):
        ip("link", "set", "lo", "up")
        for name in ("outside", "between"):
            ip("link", "add", "name", name, "type", "bridge")
            ip("link", "set", "dev", name, "up")
        ip("address", "add", f"{OUTSIDE}/24", "dev", "outside")
        for number in numbers:
            for name in ("outside", "between"):
                tap = f"{name[:3]}{number}"
                ip("tuntap", "add", "mode", "tap", "name", tap)
                ip("link", "set", "dev", tap, "master", name, "up")

    def cut(self, name="between"):
        ip("link", "set", "dev", name, "down")

    def mend(self, name="between"):
        ip("link", "set", "dev", name, "up")


class Machine:
    def __init__(self, program, folder, number, name):
        self.program, self.folder, self.number, self.name = program, folder, number, name
        self.address, self.running = f"10.0.0.{number}", None
        os.mkdir(folder)

    def renew_disk(self, name, mib=0, image=None):
        """An empty disk in place of the one that was there, or a copy of an image."""
        if image:
            subprocess.run(["cp", "--sparse=always", image, f"{self.folder}/{name}.img"], check=True)
            return
        with open(f"{self.folder}/{name}.img", "wb") as file:
            file.truncate(mib << 20)

    def start(self):
        """Begins a start, and doesn't wait for its end."""
        disks = [f"ubd{at}={self.folder}/{it}.img" for at, it in enumerate(("root", "mirror", "alone"))
                 if os.path.exists(f"{self.folder}/{it}.img")]
        taps = [f"vec{at}:transport=tap,ifname={it}{self.number},depth=128,gro=1,mac=02:00:00:00:0{at}:{self.number}"
                for at, it in enumerate(("out", "bet"))]
        # (the number of this process may be another's too, in its own namespace)
        words = [self.program, "mem=512M", f"umid={'-'.join(self.folder.split('/')[-2:])}", *disks, *taps,
                 "root=/dev/ubda", "rw", f"number={self.number}", f"systemd.hostname={self.name}", "con=null",
                 "con0=null,fd:1", "quiet"]
        with open(f"{self.folder}/console", "ab") as console:
            self.running = subprocess.Popen(words, stdin=subprocess.DEVNULL, stdout=console, stderr=console,
                                            env={**os.environ, "TMPDIR": "/dev/shm"}, start_new_session=True)

    def kill(self):
        """The machine is lost, with all of its processes: one that is left would hold its disks."""
        if self.running.poll() is None:
            os.killpg(self.running.pid, signal.SIGKILL)
        self.running.wait()

    def wait_for(self):
        """Until it takes commands."""
        if not servers.wait_until(lambda: self.says("echo here", 30) == "here", 600, 0.5):
            servers.hold(False, f"{self.name} starts: {servers.bytes_of(f'{self.folder}/console')[-2000:].decode()}")

    def says(self, script, seconds=600):
        """What a script prints, and nothing where it fails or the machine isn't there."""
        with contextlib.suppress(OSError):
            status, text = self.run(script, seconds)
            return text.strip() if status == 0 else ""
        return ""

    def run(self, script, seconds=600):
        """Status and output of a script of bash."""
        with socket.create_connection((self.address, SHELL_PORT), min(seconds, 30)) as ends:
            ends.settimeout(seconds)
            ends.sendall(f"( {script}\n) < /dev/null 2>&1\necho \"status $?\"\n".encode())
            ends.shutdown(socket.SHUT_WR)
            text = b"".join(iter(lambda: ends.recv(1 << 16), b"")).decode(errors="replace")
        body, _, status = text.rpartition("status ")
        if not status.strip().isdigit():
            raise ConnectionError(f"{self.name} ended in the middle of {script!r}: {text}")
        return int(status), body

    def do(self, script, seconds=600):
        """What a script prints that has to go well."""
        begun = time.monotonic()
        status, text = self.run(script, seconds)
        need(status == 0, f"{self.name}: {script}: {text}")
        self.took = time.monotonic() - begun
        return text.strip()

    def put(self, source, path):
        """A file of this machine in that one."""
        with open(source, "rb") as file:
            data = file.read()
        with socket.create_connection((self.address, SHELL_PORT), 30) as ends:
            ends.settimeout(60)
            ends.sendall(f"head -c {len(data)} > {path}\n".encode() + data + b"\nexit\n")
            ends.shutdown(socket.SHUT_WR)
            while ends.recv(1 << 16):
                pass
