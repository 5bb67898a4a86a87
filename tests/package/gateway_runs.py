"""A gateway that runs, and connections for what is pushed to it."""
import contextlib
import http.client
import os

import servers

SECONDS = 120


class Gateway(servers.Program):
    def __init__(self, server, *more, program="needleazure-gateway"):
        at, to = f"127.0.0.1:{servers.free_ports(1)[0]}", f"http://127.0.0.1:{server.port}"
        # (as its unit has it; and the race detector ends it with that status where it has found something)
        settings = {"GOGC": "400", **os.environ, "GORACE": "exitcode=66 halt_on_error=1"}
        program = f"{servers.TOP}/deploy/out/{program}"
        super().__init__([program, "--listen", at, "--to", to, *more], settings)

    def stop(self):
        """Its exit status, and what it wrote to standard error."""
        self.running.terminate()
        _, errors = self.running.communicate(timeout=SECONDS)
        return self.running.returncode, errors.decode()

    def metric(self, name):
        text = servers.get(self.port, "/metrics").decode()
        return sum(float(line.split()[-1]) for line in text.splitlines() if line.startswith(name))


class Client(http.client.HTTPConnection, contextlib.AbstractContextManager):
    """A connection that is opened again where it was closed, for bodies of any kind."""

    def __init__(self, port, tenant="t"):
        super().__init__("127.0.0.1", port, timeout=SECONDS)
        self.tenant = tenant

    def __exit__(self, *_):
        self.close()

    def push(self, body, head, is_chunked=False, path=servers.PUSH):
        """Status and text of the answer."""
        head = {"X-Scope-OrgID": self.tenant, **head}
        self.request("POST", path, iter([body]) if is_chunked else body, head)
        answer = self.getresponse()
        return answer.status, answer.read()
