"""Dialogues: all that clients are told to the byte by a server that serves so many connections, and then ends well."""
import contextlib
import errno
import os
import socket

import pytest
import servers
from hostile_bytes import exchange
from servers import PUSH, READ, SECONDS, entry, labels_in, push_request, read_body, request, wait_until

LABELS = {"a": "1"}
NO_CONTENT = b"HTTP/1.1 204 No Content\r\n\r\n"
READ_ALL = request(READ, read_body(LABELS))


def answer_of(stamp):
    """The answer to a read that finds the line x of this time alone."""
    body = b'{"values":[["%d","x"]]}' % stamp
    return b"HTTP/1.1 200 OK\r\nContent-Type: application/json\r\nContent-Length: %d\r\n\r\n%b" % (len(body), body)


def ends_well(server):
    """Whether it ends by itself with status 0, and has said nothing but that it was ready."""
    with contextlib.closing(server.running.stdout) as more:
        return server.running.wait(SECONDS) == 0 and more.read() == b"" and server.errors() == ""


def test_sample_and_repeat(serve):
    """A push, the same once more, and a read that finds it once, each over a connection of its own."""
    server, sample = serve("log", 1, 2, more=["3"]), entry()
    asked = [push_request(LABELS, [sample])] * 2 + [READ_ALL]
    told = [exchange(server.port, it, SECONDS) for it in asked]
    assert told == [NO_CONTENT, NO_CONTENT, answer_of(sample[0])] and ends_well(server)


def test_client_leaves_inside_a_body(serve):
    """The last byte of its push does not come. The next client is answered, and finds its own line alone."""
    server, sample = serve("log", 1, 1, more=["2"]), entry()
    with servers.Client(server.port) as client:
        client.ends.sendall(push_request(LABELS, [(sample[0] + 1, "lost", ())])[:-1])
    told = exchange(server.port, push_request(LABELS, [sample]) + READ_ALL, SECONDS)
    assert told == NO_CONTENT + answer_of(sample[0]) and ends_well(server)


def test_failed_accepts(serve, folder, preload):
    """They are not counted: a server for one connection serves it after five accepts that fail, as one line says."""
    mark = f"{folder}/mark"
    server = serve("log", 1, 1, {"LD_PRELOAD": preload, "FAIL_ACCEPT": "5", "ACCEPT_MARK": mark}, ["1"])
    # (the socket is in the backlog from now on)
    told = exchange(server.port, push_request(LABELS, [entry()]), SECONDS)
    assert told == NO_CONTENT and server.running.wait(SECONDS) == 0 and servers.bytes_of(mark).count(b"\n") == 5
    said = server.errors()
    assert said.startswith("cannot accept a connection: Too many open files") and said.count("\n") == 1


class Held:
    """Syncs of files that have a name in their path wait until this is closed, from the first one on that `is_begun`."""

    def __init__(self, path):
        self.path, self.end = path, None
        os.mkfifo(path)

    def is_begun(self):
        """Whether a sync waits (a FIFO is opened for writing only where something has it open to be read)."""
        try:
            self.end = os.open(self.path, os.O_WRONLY | os.O_NONBLOCK)
        except OSError as error:
            if error.errno != errno.ENXIO:
                raise
        return self.end is not None

    def close(self):
        os.remove(self.path)
        os.close(self.end)


@pytest.mark.parametrize("held", [0, 1])
def test_two_shards_at_once(serve, folder, preload, held):
    """While a sync of one shard is held, a push to the other is answered over another connection, and the first is not."""
    fifo = f"{folder}/fifo"
    holds = {"LD_PRELOAD": preload, "HOLD_SYNC": fifo, "HOLD_NAME": f"shard-{held:02}-"}
    server, streams = serve("log", 2, 2, holds, ["2"]), [next(labels_in(it, 2)) for it in (held, 1 - held)]
    gate = Held(fifo)
    with servers.Client(server.port) as first:
        first.send(PUSH, servers.push_body([(streams[0], [entry()])]))
        first.ends.shutdown(socket.SHUT_WR)
        assert wait_until(gate.is_begun)
        assert exchange(server.port, push_request(streams[1], [entry()]), SECONDS) == NO_CONTENT
        first.ends.setblocking(False)
        with pytest.raises(BlockingIOError):
            first.ends.recv(1)
        gate.close()
        first.ends.settimeout(SECONDS)
        assert b"".join(iter(lambda: first.ends.recv(512), b"")) == NO_CONTENT
    assert ends_well(server)


def test_new_folder(folder):
    """Over a folder two levels below what is there, on a port that is given by its number, with two shards: the server
    says that port, is there and at 127.0.0.1 alone, stores a line of now, and makes the slots of these shards alone."""
    port, log, sample = servers.free_ports(1)[0], f"{folder}/two/levels", entry()
    words = [servers.program("ingesterd"), log, str(port), "2", "1", "2"]
    with servers.Program(words, servers.broken({})) as server:
        assert server.port == port
        with pytest.raises(OSError):
            socket.create_connection(("127.0.0.2", port), SECONDS).close()
        told = [exchange(port, it, SECONDS) for it in (push_request(LABELS, [sample]), READ_ALL)]
        assert told == [NO_CONTENT, answer_of(sample[0])] and ends_well(server)
    slots = [it for shard in (0, 1) for it in servers.slots_of(log, shard)]
    assert sorted(os.listdir(log)) == sorted(map(os.path.basename, slots))
