#!/usr/bin/env python3
"""Records what a HAProxy pushes to a peer, as a script for `aggregator replay`.

It listens as a peer of a `peers` section, answers as the collector does (200, a resync request,
acknowledgements, partial and confirm, heartbeats) and writes each read as a `moment` and a `bytes` line.
At the end it asks the proxy itself for its tables, and writes what the proxy said as comments in front of
the same question to the collector:

    tools/dev/record_peer.py --listen 127.0.0.1:10001 --config head.txt --seconds 5 \\
        --stats /tmp/haproxy.sock --table clients --table users > script

`head.txt` has the configuration lines of the script (`name`, `peer`, `table`). A line of a
`--plan` file is `<ms> <command of the proxy's stats socket>`: it is sent that many ms after the hello, so
that a run can be made again. Moments are ms since the hello came. Only the first connection is recorded.

    tools/dev/record_peer.py --explain < script

prints the messages of a script's `bytes` lines instead, one a line. It needs no collector. The status is 1 where it
can't listen or read a file.
"""

import argparse
import pathlib
import re
import select
import socket
import sys
import time

sys.path.insert(0, str(pathlib.Path(__file__).resolve().parents[1]))

from lib.peers_protocol import ACK, DEFINE, SWITCH, TIMED, UPDATE, UPDATES, get_int, messages, put_int

HEARTBEAT_SECONDS = 2.5


def hello_length(data):
    """How many bytes the three lines of the hello have, or None while they aren't whole."""
    at = -1
    for _ in range(3):
        at = data.find(b"\n", at + 1)
        if at < 0:
            return None
    return at + 1


class Answers:
    """What a collector answers to the messages of one peer."""

    def __init__(self):
        self.table = None
        self.last = {}

    def to(self, found):
        """The bytes to be sent for these messages: answers in their order, then acknowledgements."""
        out, touched = b"", set()
        for klass, kind, payload in found:
            if klass == 0 and kind == 0:
                out += b"\x00\x02"
            elif klass == 0 and kind in (1, 2):
                out += b"\x00\x03"
            elif klass == 10 and kind in (DEFINE, SWITCH):
                self.table = get_int(payload, 0)[0]
            elif klass == 10 and kind in UPDATES:
                if kind in (UPDATE, TIMED):
                    last = int.from_bytes(payload[:4], "big")
                else:
                    last = (self.last.get(self.table, 0) + 1) % 2**32
                self.last[self.table] = last
                touched.add(self.table)
        for table in sorted(touched):
            payload = put_int(table) + self.last[table].to_bytes(4, "big")
            out += bytes([10, ACK]) + put_int(len(payload)) + payload
        return out


def ask(path, command):
    """What the proxy's stats socket answers to a command."""
    with socket.socket(socket.AF_UNIX, socket.SOCK_STREAM) as stats:
        stats.connect(path)
        stats.sendall(command.encode() + b"\n")
        answer = b""
        while piece := stats.recv(65536):
            answer += piece
    return answer.decode()


def read_plan(path):
    """The lines of a plan, as (ms, command), by moment."""
    if path is None:
        return []
    with open(path, encoding="ascii") as lines:
        words = [line.split(None, 1) for line in lines if line.strip() and line[0] != "#"]
    return sorted((int(ms), command.strip()) for ms, command in words)


def greet(address):
    """Waits for the proxy to connect and answers its hello. The connection, and the hello."""
    host, port = address.rsplit(":", 1)
    with socket.create_server((host, int(port))) as listener:
        print(f"waits at {address} for a proxy that names it as a peer", file=sys.stderr)
        peer, _ = listener.accept()
    hello = b""
    while hello_length(hello) is None:
        hello += peer.recv(65536)
    peer.sendall(b"200\n\x00\x00")
    return peer, hello


def pieces(peer, begun, seconds, stats, plan):
    """What each read gives, until the time is over or the proxy closes. Between reads it carries out the
    plan and sends heartbeats."""
    beat = HEARTBEAT_SECONDS
    while (now := time.monotonic() - begun) < seconds:
        while plan and now >= plan[0][0] / 1000:
            ask(stats, plan.pop(0)[1])
        if now >= beat:
            peer.sendall(b"\x00\x04")
            beat = now + HEARTBEAT_SECONDS
        if select.select([peer], [], [], 0.001)[0]:
            piece = peer.recv(16384)
            if not piece:
                return
            yield piece


def show(table, stats):
    """Prints what the proxy says of a table, as comments, and the question to the collector."""
    for line in ask(stats, f"show table {table}").splitlines():
        if line:
            print("# " + re.sub("^(# |0x[0-9a-f]+: )", "", line))
    print(f"show table {table}")


def record(arguments):
    """Records one connection and prints the script."""
    plan = read_plan(arguments.plan)
    peer, stream = greet(arguments.listen)
    begun = time.monotonic()

    def print_moment():
        print(f"moment {int((time.monotonic() - begun) * 1000)}")

    with open(arguments.config, encoding="ascii") as lines:
        print(lines.read().rstrip("\n"))
    print(f"start 0\nconnect\nbytes 1 {stream.hex()}", flush=True)
    read_to, answers = len(stream), Answers()
    for piece in pieces(peer, begun, arguments.seconds, arguments.stats, plan):
        print_moment()
        print(f"bytes 1 {piece.hex()}")
        stream += piece
        found, read_to = messages(stream, read_to)
        if out := answers.to(found):
            peer.sendall(out)
    for table in arguments.table:
        print_moment()
        show(table, arguments.stats)


def explain(lines):
    """Prints the messages of a script's `bytes` lines."""
    stream, read_to = b"", None
    for line in lines:
        words = line.split()
        if words[:1] == ["moment"]:
            print(line.rstrip())
        if words[:1] != ["bytes"]:
            continue
        stream += bytes.fromhex(words[2])
        if read_to is None:
            read_to = hello_length(stream)
            if read_to is None:
                continue
            print("hello", stream[:read_to])
        found, read_to = messages(stream, read_to)
        for klass, kind, payload in found:
            print(f"  {klass} {kind} {payload.hex()}")


def main():
    """Reads the command line."""
    parser = argparse.ArgumentParser(
        description=__doc__, formatter_class=argparse.RawDescriptionHelpFormatter
    )
    parser.add_argument("--listen", default="127.0.0.1:10001", help="address of the remote peer")
    parser.add_argument("--config", default="/dev/null", help="file with the script's configuration lines")
    parser.add_argument("--seconds", type=float, default=5, help="how long it records")
    parser.add_argument("--stats", help="the proxy's stats socket")
    parser.add_argument("--table", action="append", default=[], help="a table to be shown at the end")
    parser.add_argument("--plan", help="file with moments and commands for the stats socket")
    parser.add_argument("--explain", action="store_true", help="prints a script's messages")
    arguments = parser.parse_args()
    if arguments.explain:
        explain(sys.stdin)
        return
    try:
        record(arguments)
    except OSError as fault:
        sys.exit(f"{fault.filename or arguments.listen}: {fault.strerror or fault}")


if __name__ == "__main__":
    main()
