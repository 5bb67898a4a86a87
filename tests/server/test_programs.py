"""The rows of tests/rows/programs over built programs, each in a folder of its own.
tests/rows/words.txt has the words of a row; what a program must write, and how it must end, stands
after `= `. By hand each program in turn does nothing, which each of its rows has to find."""
import concurrent.futures
import contextlib
import fcntl
import itertools
import os
import pty
import re
import socket
import subprocess
import tempfile
import tty

import pytest
import servers
from row_draws import drawn_row
from row_files import plain, rows_of, run_shown
from row_slots import Bytes

FOLDER = f"{servers.TOP}/tests/rows/programs"
ROWS = {it.removesuffix(".txt"): list(rows_of(f"{FOLDER}/{it}"))
        for it in sorted(os.listdir(FOLDER)) if it.endswith(".txt")}
PROGRAMS = ["ingesterd", "walcat", "ingest1", "ingestctl", "walsplit", "cases"]
# words that run a program by another name
RUNS = {"walcat": "|verdict|cuts|sets|beginnings", "cases": "|drawn"}
# a line that a shard has while others are worked on, and how long all took
OF_SHARD = re.compile(rb"shard \d\d: ")
TOOK = re.compile(rb" in \d+\.\d{3} s")
LIMITS = {"fails": "INPUT_FAILS", "starves": "INPUT_STARVES", "room": "OUTPUT_ROOM", "error_room": "ERROR_ROOM"}


def all_said(reader):
    """What is said on a terminal until nobody has its other end."""
    said = b""
    with contextlib.suppress(OSError):
        while data := os.read(reader, 4096):
            said += data
    os.close(reader)
    return said


def in_order(said):
    """A time is N, and lines of shards that follow one another have the order of shards."""
    lines = TOOK.sub(b" in N s", said).splitlines(keepends=True)
    groups = itertools.groupby(lines, lambda it: bool(OF_SHARD.match(it)))
    return b"".join(it for of_shard, some in groups for it in (sorted(some) if of_shard else some))


class Programs:
    """The built programs, and the libraries that are preloaded where they are to fail."""

    def __init__(self, folder):
        self.paths = {it: servers.program(it) for it in PROGRAMS}
        self.folder = folder

    def run(self, name, words, folder, data, environment, errors=subprocess.PIPE):
        """Exit status, standard output and standard error. A program that does not end is killed."""
        if any(it in environment for it in LIMITS.values()):
            environment = {**environment, "LD_PRELOAD": servers.library()}
        return servers.run([self.paths[name], *words], data, cwd=folder, env=environment, stderr=errors)

    def run_on_terminal(self, *of_run):
        """The same where standard error is a terminal."""
        reader, writer = pty.openpty()
        tty.setraw(writer)
        with concurrent.futures.ThreadPoolExecutor(1) as pool:
            said = pool.submit(all_said, reader)
            try:
                status, output, _ = self.run(*of_run, writer)
            finally:
                os.close(writer)
            return status, output, in_order(said.result())


class Row:
    """What a row keeps from line to line."""

    def __init__(self, programs, folder):
        self.programs, self.folder = programs, folder
        # what the next program reads, where its streams fail, and what the environment says
        self.input, self.limits, self.setting = Bytes(self.walcat), {}, {}
        # what was last written to a file; a file and a port that are in use, and which port that is
        self.kept, self.in_use, self.port = b"", contextlib.ExitStack(), "0"
        # whether standard error is a terminal
        self.has_terminal = False

    def path(self, text):
        return os.path.join(self.folder, text)

    def close(self):
        self.in_use.close()
        self.port = "0"

    def take(self, line):
        word, _, rest = line.partition(" ")
        if word in PROGRAMS:
            return run_shown(*self.run(word, self.words(rest), self.limits))
        if word == "each":
            return self.each(*rest.split(" ", 4))
        if word in ("folder", "file", "alone", "from", "look", "lock", "free", "listen"):
            return self.take_file(word, rest)
        if word == "drawn":
            return self.drawn(*rest.split(" "))
        said = self.input.said(word, rest)
        if said is None and not self.input.take(word, rest):
            self.take_setting(word, rest)
        return said or []

    def take_setting(self, word, rest):
        if word == "next":
            self.input.data, self.limits = b"", {}
        elif word == "terminal":
            self.has_terminal = True
        elif word == "capacity":
            self.set("CAPACITY", rest)
        elif word == "setting":
            self.set(*rest.partition(" ")[::2])
        else:
            self.limits = {**self.limits, LIMITS[word]: str(int(rest))}

    def set(self, name, rest):
        """Sets the variable NEEDLEAZURE_`name`, or takes it out of the environment where there is no text."""
        self.setting.pop(f"NEEDLEAZURE_{name}", None)
        for text in self.words(rest):
            self.setting[f"NEEDLEAZURE_{name}"] = os.fsdecode(text)

    def walcat(self, slot, *owner):
        servers.write(self.path("slot"), slot)
        return self.programs.run("walcat", ["slot", *map(str, owner)], self.folder, b"", {})

    def drawn(self, order, *numbers):
        """Has a row of drawn calls run. Where it differs, the first lines that are said of it."""
        text, agreed = drawn_row(order, *map(int, numbers))
        servers.write(self.path("drawn.txt"), text.encode())
        done = self.programs.run("cases", ["drawn.txt"], self.folder, b"", {})
        return [agreed] if done == (0, b"1 rows, 0 differ\n", b"") else [it[:400] for it in run_shown(*done)[:20]]

    def take_file(self, word, text):
        path = self.path(text)
        if word == "folder":
            os.makedirs(path, exist_ok=True)
        elif word in ("file", "alone"):
            servers.write(path, self.input.data)
            self.kept = self.input.data
            if word == "file" and (other := servers.other_slot(path)) and not os.path.exists(other):
                servers.write(other, b"")
        elif word == "from":
            with open(f"{FOLDER}/{text}" if text.startswith("stored/") else path, "rb") as file:
                self.input.data = file.read()
        elif word == "look":
            return self.look(path)
        elif word == "listen":
            self.port = str(self.in_use.enter_context(socket.create_server(("127.0.0.1", 0))).getsockname()[1])
        else:
            self.close()
        if word == "lock":
            file = self.in_use.enter_context(open(path, "ab"))
            fcntl.flock(file, fcntl.LOCK_EX | fcntl.LOCK_NB)
            # (a process that another thread is about to start may have the descriptor for a moment)
            self.in_use.callback(fcntl.flock, file, fcntl.LOCK_UN)
        return []

    def look(self, path):
        if not os.path.exists(path):
            return ["none"]
        found = servers.bytes_of(path)
        return [f"{len(found)} bytes{', as they were written' if found and found == self.kept else ''}"]

    def words(self, text):
        """The words of a line, which blanks separate: `''` has no bytes, and PORT is the port that is in use."""
        return [b"" if it == "''" else plain(it.replace("PORT", self.port)) for it in text.split()]

    def run(self, name, words, limits):
        """Runs a program. The file that walcat reads has the input, which is what the others read."""
        if name == "walcat" and words and words[0]:
            servers.write(self.path(words[0].decode()), self.input.data)
        run = self.programs.run_on_terminal if self.has_terminal else self.programs.run
        return run(name, words, self.folder, self.input.data, {**self.setting, **limits})

    def each(self, stream, first, last, name, words=""):
        """Runs a program once for each place at which this stream fails, or the input is cut. Of an output that stands
        as far as there is room, only that is said; what is said of several places, one after another, is said once."""
        words, found, data = self.words(words), [], self.input.data
        whole = self.run(name, words, self.limits)[1]
        for place in range(int(first), int(last) + 1):
            limits = {} if stream == "cut" else {LIMITS[stream]: str(place)}
            self.input.data = data[:place] if stream == "cut" else data
            status, output, errors = self.run(name, words, {**self.limits, **limits})
            said = run_shown(status, output, errors)
            if stream == "room" and len(output) == place < len(whole) and whole.startswith(output):
                said = [said[0], "out as far as there is room", *run_shown(status, b"", errors)[1:]]
            if not found or found[-1][1] != said:
                found.append([0, said])
            found[-1][0] += 1
        self.input.data = data
        return [line for times, said in found for line in (f"times {times}", *said)]


def said_of(programs, steps):
    said = []
    with tempfile.TemporaryDirectory(dir=programs.folder) as folder, contextlib.closing(Row(programs, folder)) as row:
        for line, _ in steps:
            try:
                said += row.take(line)
            except Exception as fault:
                return [*said, f"{line}: {fault!r}"]
    return said


def differing(programs, rows):
    """The rows that differ: name, what was wanted, and what was said."""
    found = []
    with concurrent.futures.ThreadPoolExecutor(2 * os.cpu_count()) as pool:
        for (name, steps), said in zip(rows, pool.map(lambda it: said_of(programs, it[1]), rows)):
            wanted = [it for _, lines in steps for it in lines]
            if said != wanted:
                found.append((name, wanted, said))
    return found


@pytest.fixture
def programs(folder):
    servers.library()
    return Programs(folder)


def test_number_of_rows():
    assert sum(map(len, ROWS.values())) == 446


@pytest.mark.parametrize("name", ROWS)
def test_rows(programs, name):
    """What differs is shown with what was wanted and what was said."""
    found = differing(programs, ROWS[name])
    shown = ["\n".join([f"row {row}", "wanted", *wanted, "said", *said, "end"])
             for row, wanted, said in found]
    assert not found, "\n".join(shown)


@pytest.mark.by_hand
@pytest.mark.parametrize("name", PROGRAMS)
def test_that_does_nothing(programs, name):
    """Each row finds a program that does nothing."""
    programs.paths[name] = "/bin/true"
    runs = re.compile(rf"(each \w+ \d+ \d+ )?({name}{RUNS.get(name, '')})\b")
    rows = list(itertools.chain(*ROWS.values()))
    due = {row for row, steps in rows if any(runs.match(line) for line, _ in steps)}
    assert due and due <= {row for row, _, _ in differing(programs, rows)}
