"""What the tests here share: a folder, a server, a client, and the library that is preloaded."""
import contextlib
import os

import pytest
# (it knows where the models are)
import servers


@pytest.fixture
def folder():
    """A folder in memory, where syncs take no time."""
    with servers.room("test", servers.memory()) as it:
        yield os.path.realpath(it)


@pytest.fixture
def preload():
    return servers.library()


@pytest.fixture
def clock(folder):
    return servers.SetClock(f"{folder}/clock")


@pytest.fixture
def serve(folder):
    """Starts servers, which end with the test."""
    with contextlib.ExitStack() as ends:
        yield lambda name="log", *words, **how: ends.enter_context(servers.Server(f"{folder}/{name}", *words, **how))


@pytest.fixture
def server(serve):
    return serve()


@pytest.fixture
def client(server):
    with servers.Client(server.port) as it:
        yield it
