"""An edge: its nginx and logins; clients of it, one that pushes line after line, and many that
send a byte a second."""
import base64
import concurrent.futures
import http.client
import json
import os
import shutil
import ssl
import subprocess

import servers
from servers import PUSH, Repeated, hold

TLS = ssl.SSLContext(ssl.PROTOCOL_TLS_CLIENT)
# (the certificate is made for one run)
TLS.check_hostname, TLS.verify_mode = False, ssl.CERT_NONE


def find_nginx(work):
    """The nginx that is installed, or that of Debian's package, unpacked and not installed."""
    found = shutil.which("nginx", path=f"{os.environ['PATH']}:/usr/sbin")
    return found or f"{servers.unpacked(f'{work}/nginx', 'nginx')}/usr/sbin/nginx"


def temporary(folder):
    kinds = ["client_body", "proxy", "fastcgi", "uwsgi", "scgi"]
    return "".join(f"    {it}_temp_path {folder}/{it};\n" for it in kinds)


def write_nginx(folder, name, changes):
    """A file of deploy/ with the ports of this run, and temporary folders of its own."""
    os.makedirs(folder, exist_ok=True)
    text = servers.text_at(name)
    for old, new in [("\nhttp {\n", f"\nhttp {{\n{temporary(folder)}"), *changes]:
        assert text.count(old) == 1, (name, old)
        text = text.replace(old, new)
    servers.write(f"{folder}/nginx.conf", text.encode())


def write_users(folder, users):
    rows = "".join(f"{it}:{{PLAIN}}secret-{it}\n" for it in users)
    servers.write(f"{folder}/edge.users", rows.encode())


class Nginx:
    def __init__(self, program, folder, port, ends):
        words = [program, "-p", folder, "-c", f"{folder}/nginx.conf", "-e", f"{folder}/error.log"]
        self.running = subprocess.Popen([*words, "-g", f"daemon off; pid {folder}/nginx.pid;"])
        ends.callback(self.end)
        if not servers.wait_until(lambda: servers.is_listening(port), 10):
            hold(False, f"nginx listens: {servers.bytes_of(f'{folder}/error.log').decode()}")

    def end(self):
        self.running.terminate()
        self.running.wait()


def login(user):
    return f"Basic {base64.b64encode(f'{user}:secret-{user}'.encode()).decode()}"


class Client(http.client.HTTPSConnection):
    """A connection to an edge or a server's machine, opened again where it was closed."""

    def __init__(self, port):
        super().__init__("127.0.0.1", port, timeout=10, context=TLS)

    def ask(self, path, user, body=b"", more=()):
        """The status of the answer, or 0 if none came. `more` are fields of the head."""
        body = json.dumps(body) if isinstance(body, dict) else body
        fields = {"Authorization": login(user), "Content-Type": "application/json", **dict(more)}
        try:
            self.request("POST", path, body, fields)
            answer = self.getresponse()
            answer.read()
            return answer.status
        except (OSError, http.client.HTTPException):
            self.close()
            return 0


class Pusher(servers.Pusher):
    """Pushes to a stream over one connection. `more` are fields of the head."""

    def __init__(self, port, tenant, labels, more=(), pause=0):
        client = Client(port)
        super().__init__(lambda body: client.ask(PUSH, tenant, body, more), [labels], pause)
        self.tenant, self.labels = tenant, labels

    def values(self):
        """The lines that were answered, as a read has them."""
        return [servers.value_of(it) for _, it in self.answered]


class Crowd(Repeated):
    """Connections that each send a byte a second. `ended` are those that the edge has ended."""

    def __init__(self, port, size):
        # (a turn takes some time too)
        super().__init__(self.creep, 0.5)
        self.port, self.sent, self.ended = port, 0, set()
        self.head = (f"POST {PUSH} HTTP/1.1\r\nHost: edge\r\nAuthorization: {login('slow')}\r\n"
                     "Content-Type: application/json\r\nContent-Length: 100000\r\n\r\n").encode()
        with concurrent.futures.ThreadPoolExecutor(64) as pool:
            self.kept = list(pool.map(self.open, range(size)))

    def open(self, at):
        it = TLS.wrap_socket(servers.connect(self.port))
        if at % 2:
            it.sendall(self.head)
        it.setblocking(False)
        return it

    def creep(self):
        byte = self.head[self.sent:self.sent + 1]
        for at, it in enumerate(self.kept):
            try:
                it.send(b" " if at % 2 else byte)
                it.recv(1)
            except ssl.SSLWantReadError:
                continue
            except OSError:
                pass
            self.ended.add(at)
        self.sent += 1

    def end(self):
        super().end()
        for it in self.kept:
            it.close()
