"""syslog_check: deploy/syslog-ng.conf in syslog-ng. It follows a file with 10,000 lines of several
hosts and programs, while the server is killed, is away and is full, and syslog-ng itself is
restarted. At the end each line has to be in the stream of its host and program, with its text as it
was."""
import collections
import shutil
import signal
import subprocess
import time

import servers
from servers import hold, text_at

LINES = 10_000
STREAMS = [("web-1", "nginx"), ("web-1", "cron"), ("db-1", "postgres"), ("db-2", "postgres")]
TEXTS = ["plain", 'quoted "text" and \\ backslash', "ümlaut 漢字", "{braces} [brackets], comma: colon", "$dollar @at 'quote'", "tab\there"]


def text_of(number):
    """A line's text: of a hundred the last twenty say the same."""
    return "once more" if number % 100 >= 80 else f"line {number} {TEXTS[number % len(TEXTS)]}"


def due(count):
    """How often each of the first lines has to be there, by its stream."""
    return collections.Counter((*STREAMS[number % len(STREAMS)], text_of(number)) for number in range(count))


class Syslog:
    """syslog-ng over a folder, with the example and a source that follows a file."""

    def __init__(self, work, port):
        self.work, self.log = work, f"{work}/in.log"
        example = text_at("deploy/syslog-ng.conf")
        for old, new in [("127.0.0.1:3100", f"127.0.0.1:{port}"), ("/var/lib/syslog-ng", work)]:
            hold(old in example, f"the example names {old}")
            example = example.replace(old, new)
        text = ('@version: 3.38\n@include "scl.conf"\noptions { keep-hostname(yes); };\n'
                f'source s_src {{ file("{self.log}" follow-freq(0.1)); }};\n{example}\n'
                "log { source(s_src); destination(d_needleazure); flags(flow-control); };\n")
        servers.write(f"{work}/syslog-ng.conf", text.encode())
        servers.write(self.log, b"")
        self.start()

    def start(self):
        words = ["syslog-ng", "-F", "-f", f"{self.work}/syslog-ng.conf", "-R", f"{self.work}/persist",
                 "-c", f"{self.work}/control", "-p", f"{self.work}/pid", "--no-caps"]
        self.said = open(f"{self.work}/said", "ab")
        self.running = subprocess.Popen(words, stderr=self.said, stdout=self.said)

    def end(self):
        self.running.send_signal(signal.SIGTERM)
        try:
            self.running.wait(30)
        finally:
            self.running.kill()
            self.running.wait()
            self.said.close()

    def write(self, first, last):
        """Lines by number, a hundred at a time."""
        with open(self.log, "a", encoding="utf-8") as file:
            for number in range(first, last):
                host, program = STREAMS[number % len(STREAMS)]
                file.write(f"{time.strftime('%b %e %H:%M:%S')} {host} {program}: {text_of(number)}\n")
                if number % 100 == 99:
                    file.flush()
                    time.sleep(0.02)


def stored(port):
    """How often each line is there, by its stream."""
    found = collections.Counter()
    with servers.Client(port, "syslog") as client:
        for host, program in STREAMS:
            found.update((host, program, line) for _, line, _ in client.read({"host": host, "program": program}))
    return found


def wait_for_lines(port, count, what, seconds=60):
    """Waits until the first lines are there, each as often as it was written or more often."""
    servers.wait_until(lambda: not due(count) - stored(port), seconds, 0.2)
    missing = due(count) - stored(port)
    hold(not missing, f"{count} lines are there, {what}" + "".join(f"; not {it}" for it in sorted(missing)[:3]))


def check(work, _):
    hold(shutil.which("syslog-ng"), "syslog-ng is installed (syslog-ng-core, syslog-ng-mod-http)")
    server = servers.Server(f"{work}/log", 2, 8, servers.allocator())
    syslog, port, usual = Syslog(work, server.port), server.port, server.how["env"]
    try:
        syslog.write(0, 2000)
        wait_for_lines(port, 2000, "of a server that runs")
        syslog.write(2000, 3000)
        server.end()
        syslog.write(3000, 5000)
        server.start()
        wait_for_lines(port, 5000, "after it was killed and started")
        server.end()
        syslog.write(5000, 7000)
        time.sleep(3)
        syslog.end()
        syslog.start()
        syslog.write(7000, 8000)
        time.sleep(2)
        server.start()
        wait_for_lines(port, 8000, "after syslog-ng was restarted while no server was")
        server.end()
        server.how["env"] = {**usual, "NEEDLEAZURE_CAPACITY": "4096"}
        server.start()
        syslog.write(8000, LINES)
        time.sleep(8)
        hold(bool(due(LINES) - stored(port)), "a full server takes no more")
        server.end()
        server.how["env"] = usual
        server.start()
        wait_for_lines(port, LINES, "after it had room again")
        found = stored(port)
        hold(found.keys() == due(LINES).keys(), f"none is another than was written; {sum(found.values()) - LINES} are there twice")
    finally:
        syslog.end()
        server.end()
