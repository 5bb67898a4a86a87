"""deploy/notify-ready, which the unit starts the server by: systemd is told once the server is ready, and not before."""
import os
import shutil
import socket
import subprocess

import pytest
import servers

pytestmark = pytest.mark.skipif(not shutil.which("systemd-notify"), reason="systemd-notify is not installed")
WRAPPED = [f"{servers.TOP}/deploy/notify-ready"]


@pytest.fixture
def told(folder):
    """What systemd would be told by, and the environment that names it."""
    with socket.socket(socket.AF_UNIX, socket.SOCK_DGRAM) as notices:
        notices.bind(f"{folder}/notices")
        notices.settimeout(60)
        yield notices, {**os.environ, "NOTIFY_SOCKET": f"{folder}/notices"}


def test_ready_is_told(folder, told):
    """It is told after the line, and whoever has the wrapper's process has the server."""
    notices, environment = told
    words = [*WRAPPED, servers.program("ingesterd"), f"{folder}/log", "0", "1", "1"]
    with subprocess.Popen(words, env=environment, stdout=subprocess.PIPE, text=True) as server:
        try:
            assert server.stdout.readline().startswith("ready ")
            assert "READY=1" in notices.recv(4096).decode().split("\n")
            assert os.readlink(f"/proc/{server.pid}/exe") == os.path.realpath(servers.program("ingesterd"))
        finally:
            server.kill()


def test_nothing_is_told_of_a_start_that_fails(folder, told):
    notices, environment = told
    words = [*WRAPPED, servers.program("ingesterd"), f"{folder}/log", "0", "65", "1"]
    done = subprocess.run(words, env=environment, stdin=subprocess.DEVNULL, capture_output=True, check=False)
    assert done.returncode == 2 and not done.stdout
    notices.setblocking(False)
    with pytest.raises(BlockingIOError):
        notices.recv(4096)
