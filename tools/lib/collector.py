"""A collector as a process that is always ended, for the tools that try one.

The environment's FLEET_CONF names another configuration than examples/fleet.conf, as one with a `push` line.
"""

import atexit
import contextlib
import os
import pathlib
import re
import signal
import socket
import subprocess
import tempfile
import time

from lib.asking import ask

REPOSITORY = pathlib.Path(__file__).resolve().parents[2]
COLLECTOR = REPOSITORY / "crates/aggregator/out/aggregator"
CONFIG = pathlib.Path(os.environ.get("FLEET_CONF") or REPOSITORY / "examples/fleet.conf")


def free_ports(count):
    """Ports of this machine that nobody listens on."""
    probes = [socket.create_server(("127.0.0.1", 0)) for _ in range(count)]
    ports = [probe.getsockname()[1] for probe in probes]
    for probe in probes:
        probe.close()
    return ports


def wait_for(what, seconds, test):
    """The first answer of a test that isn't false or none, asked over and over."""
    end = time.monotonic() + seconds
    while time.monotonic() < end:
        found = test()
        if found:
            return found
        time.sleep(0.02)
    raise TimeoutError(f"{what}: not within {seconds} s")


def answers(port):
    """Whether somebody listens on a port."""
    try:
        socket.create_connection(("127.0.0.1", port), timeout=1).close()
    except OSError:
        return False
    return True


def rows_of(text):
    """The rows of a table's answer, by key: each a record from field to text."""
    rows = {}
    for line in text.splitlines():
        fields = dict(re.findall(r"(\S+?)=(\S*)", line))
        if "key" in fields:
            rows[fields.pop("key")] = fields
    return rows


def status_of(pid, field):
    """A number of /proc/<pid>/status, as VmRSS or VmSize, in bytes; 0 where the process is gone."""
    try:
        status = pathlib.Path(f"/proc/{pid}/status").read_text()
    except OSError:
        return 0
    found = re.search(rf"^{field}:\s+(\d+)", status, re.MULTILINE)
    return int(found.group(1)) * 1024 if found else 0


def resident(pid):
    """The resident memory of a process, in bytes."""
    return status_of(pid, "VmRSS")


def end(process):
    """Ends a process at once, if it hasn't ended."""
    with contextlib.suppress(OSError):
        process.kill()
    process.wait()


class Collector:
    """`aggregator listen` over a configuration, on these ports. It ends with this program at the latest."""

    def __init__(self, program, peers, admin, config=CONFIG, log=subprocess.DEVNULL, options=(), **how):
        self.peers, self.admin, self.http = peers, admin, None
        words = [str(program), "listen", "--peers", f"127.0.0.1:{peers}", "--admin", f"127.0.0.1:{admin}", *options]
        with open(config, "rb") as text:
            self.process = subprocess.Popen(words, stdin=text, stdout=subprocess.PIPE, stderr=log, **how)
        atexit.register(end, self.process)
        told = self.process.stdout.readline()
        if told != b"listening\n":
            raise RuntimeError(f"the collector said {told!r} and ended with {self.process.wait()}")

    @classmethod
    def of(cls, program, text, options=(), **how):
        """One with this configuration, on free ports, with HTTP."""
        peers, admin, http = free_ports(3)
        with tempfile.NamedTemporaryFile("w", suffix=".conf") as config:
            config.write(text)
            config.flush()
            found = cls(program, peers, admin, config.name, options=["--http", f"127.0.0.1:{http}", *options], **how)
        found.http = http
        return found

    def __enter__(self):
        return self

    def __exit__(self, *_):
        end(self.process)

    def ask(self, command, timeout=60):
        """The answer to a command."""
        return ask(("127.0.0.1", self.admin), command, timeout=timeout)

    def info(self, timeout=60):
        """What `show info` tells, by name."""
        return dict(line.split(": ", 1) for line in self.ask("show info", timeout).splitlines() if ": " in line)

    def rows(self, table="clients", selector=""):
        """The summed rows of a table, by key."""
        return rows_of(self.ask(f"show table {table} {selector}".strip()))

    def keys(self, name):
        """The keys that a standing filter holds."""
        return set(rows_of(self.ask(f"show filter {name}")))

    def rank(self, name):
        """The keys of a ranked list, the first first."""
        return list(rows_of(self.ask(f"show rank {name}")))

    def resident(self):
        """Its resident memory, in bytes."""
        return resident(self.process.pid)

    def descriptors(self):
        """How many descriptors it has open."""
        return len(os.listdir(f"/proc/{self.process.pid}/fd"))

    def threads(self):
        """How many threads it has."""
        return len(os.listdir(f"/proc/{self.process.pid}/task"))

    def stop(self):
        """Ends it as an operator does; its exit status."""
        self.process.send_signal(signal.SIGTERM)
        return self.process.wait(timeout=5)
