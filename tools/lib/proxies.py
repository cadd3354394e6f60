"""Real proxies as processes, for the tools that try them beside a collector.

The environment's HAPROXY names another HAProxy than the one on the path.
"""

import os
import pathlib
import signal
import socket
import subprocess
import urllib.error
import urllib.request

from lib.collector import REPOSITORY, answers, free_ports, rows_of, wait_for

PROXY = REPOSITORY / "examples/haproxy.cfg"
# A fleet whose proxies refuse whom the collector tells of.
ACTING = REPOSITORY / "examples/acting.conf"
ACTING_PROXY = REPOSITORY / "examples/acting.cfg"
HAPROXY = os.environ.get("HAPROXY") or "haproxy"
SETTLED = 8.0  # s in which a proxy calls a peer again (it waits 5 s) and pushes what changed


class Proxy:
    """A HAProxy of examples/haproxy.cfg that pushes to a collector."""

    def __init__(self, name, collector_port, folder, config=PROXY, threads=1, master=False, program=HAPROXY, **more):
        """Starts one; `more` are further variables of its environment."""
        self.name, self.folder = name, pathlib.Path(folder)
        self.own, self.http = free_ports(2)
        self.words = [program, "-L", name, "-f", str(config)]
        self.words += ["-W", "-S", str(self.folder / f"{name}-master.sock")] if master else ["-db"]
        self.environment = dict(os.environ, DIR=str(folder), OWN_PORT=str(self.own))
        self.environment.update(COLLECTOR_PORT=str(collector_port), HTTP_PORT=str(self.http))
        self.environment.update(THREADS=str(threads), **more)
        self.start()

    def start(self):
        """Starts it, or starts it again."""
        self.process = subprocess.Popen(self.words, env=self.environment, stderr=subprocess.DEVNULL)
        wait_for(f"{self.name}'s frontend", 5, lambda: answers(self.http))

    def socket_command(self, command):
        """The answer to a command on its stats socket."""
        with socket.socket(socket.AF_UNIX) as stats:
            stats.connect(str(self.folder / f"{self.name}.sock"))
            stats.sendall(command.encode() + b"\n")
            answer = b""
            while more := stats.recv(1 << 20):
                answer += more
        return answer.decode("latin-1")

    def rows(self, table="clients"):
        """The rows that it shows itself, by key."""
        return rows_of(self.socket_command(f"show table {table}"))

    def requests(self, client, count):
        """Sends requests of a client through it."""
        for _ in range(count):
            headers = {"x-forwarded-for": client}
            request = urllib.request.Request(f"http://127.0.0.1:{self.http}/", headers=headers)
            urllib.request.urlopen(request, timeout=5).read()

    def kill(self):
        """Ends it at once, as a crash does."""
        self.process.kill()
        self.process.wait()

    def reload(self):
        """Has its master start a new worker, which takes the rows over from the old one."""
        self.process.send_signal(signal.SIGUSR2)

    def stop(self):
        """Ends it."""
        self.process.terminate()
        try:
            self.process.wait(timeout=5)
        except subprocess.TimeoutExpired:
            self.kill()


def kill_all(proxies, collector):
    """Ends the proxies and the collector."""
    for proxy in proxies:
        proxy.stop()
    collector.process.kill()
    collector.process.wait()


def status(proxy, client):
    """The status that a proxy answers a request of a client with."""
    request = urllib.request.Request(f"http://127.0.0.1:{proxy.http}/", headers={"x-forwarded-for": client})
    try:
        with urllib.request.urlopen(request, timeout=5) as answer:
            answer.read()
            return answer.status
    except urllib.error.HTTPError as refusal:
        refusal.read()
        return refusal.code
