"""Receivers of the peers protocol as processes, for the tools that measure: the collector, and HAProxy itself."""

import pathlib
import socket
import subprocess
import sys
import time

from lib.asking import ask, ask_proxy

COLLECTOR_CONFIG = """name agg
{peers}
table t type ip size 1000000 store gpc0,conn_cnt,http_req_rate(10000)
{more}"""

FILTERS = {
    "few": "filter few t data.http_req_rate gt 100000\n",
    "all": "filter all t data.http_req_rate gt 0\n",
}
RANK = "rank ten t gpc0 10\n"

CONFIG = """global
    nbthread {threads}
    stats socket {folder}/stats level admin
defaults
    timeout client 1m
    timeout server 1m
    timeout connect 1s
peers fleet
    peer agg 127.0.0.1:{port}
{peers}
backend t
    stick-table type ip size 2m expire 10m store gpc0,conn_cnt,http_req_rate(10s) peers fleet
"""


def start_haproxy(program, threads, folder, senders=("lb1",)):
    """Starts HAProxy as the receiver; its process, its address and what asks it."""
    with socket.socket() as probe:
        probe.bind(("127.0.0.1", 0))
        port = probe.getsockname()[1]
    config = pathlib.Path(folder) / "receiver.cfg"
    peers = "\n".join(f"    peer {name} 127.0.0.1:1" for name in senders)
    config.write_text(CONFIG.format(threads=threads, folder=folder, port=port, peers=peers))
    process = subprocess.Popen([program, "-L", "agg", "-f", str(config), "-db"], stderr=subprocess.DEVNULL)
    for _ in range(50):
        try:
            socket.create_connection(("127.0.0.1", port), timeout=1).close()
            break
        except OSError:
            time.sleep(0.1)
    # In its first second it still tries to call its peers, and may close a connection of theirs for it.
    time.sleep(1)
    return process, ("127.0.0.1", port), lambda question: ask_proxy(f"{folder}/stats", question, timeout=60)


def start_collector(program, senders, folder, more=""):
    """Starts the collector as the receiver of these senders; its process, its peers' address and what asks it."""
    peers = "\n".join(f"peer {name}" for name in senders)
    return listen(program, folder, COLLECTOR_CONFIG.format(peers=peers, more=more))


def listen(program, folder, text):
    """Starts the collector with a configuration; its process, its peers' address and what asks it."""
    probes = [socket.create_server(("127.0.0.1", 0)) for _ in range(2)]
    peers, admin = [probe.getsockname() for probe in probes]
    for probe in probes:
        probe.close()
    config = pathlib.Path(folder) / "collector.conf"
    config.write_text(text)
    with open(config, "rb") as lines:
        words = [program, "listen", "--peers", "%s:%d" % peers, "--admin", "%s:%d" % admin]
        process = subprocess.Popen(words, stdin=lines, stdout=subprocess.PIPE, stderr=subprocess.DEVNULL)
    if process.stdout.readline() != b"listening\n":
        sys.exit("the collector doesn't listen")
    return process, peers, lambda question: ask(admin, question, timeout=60)
