#!/usr/bin/env python3
"""Measures what pushing a filter's keys to the proxies costs the collector, and how soon they are told.

    tools/time/acting.py [--collector crates/aggregator/out/aggregator] [--sessions 20] [--keys 10000] [--flips 100]
                         [--hold 60000] [--seconds 10] [--crossings 100] [--proxies 2]

It starts `aggregator listen` with one pushed filter. One peer pushes the keys that make its set; the sessions of
other peers read what they are told, as fast as it comes. Three things are measured: the collector's processor time a
second while the set stands still, the same while so many keys a second leave the set and come back, and the time
from the acknowledgement of an update that brings a key into the set until every session has been told it, each so
many times. With `--hold` the push line has that hold, in ms. All sessions live in this one process, which takes a
processor of its own: with many keys it is what is measured. With `--proxies` so many real HAProxies are told too:
what they take of a processor stands beside the collector's, and a crossing lasts until each of them refuses the
client with 429. It wants a built program, and haproxy with `--proxies`; it compares nothing and ends with 0.
"""

import argparse
import http.client
import os
import pathlib
import re
import selectors
import socket
import statistics
import subprocess
import sys
import tempfile
import threading
import time

sys.path.insert(0, str(pathlib.Path(__file__).resolve().parents[1]))

from lib.collector import COLLECTOR, Collector, free_ports, wait_for
from lib.needs import ends_cleanly, wants
from lib.peers_protocol import Feeder
from lib.proxies import HAPROXY, Proxy

HEARTBEAT = bytes([0, 4])
SCATTER = 2147483647
TICK = os.sysconf("SC_CLK_TCK")

CONFIG = """name agg
{peers}
table t type ip size 1000000 store gpc0
filter hot t data.gpc0 ge 1
push hot{hold}
"""

PROXY_CONFIG = """global
    stats socket "$DIR/${{HAPROXY_LOCALPEER}}.sock" level admin
defaults
    mode http
    timeout client 10s
    timeout server 10s
    timeout connect 1s
peers fleet
    peer "${{HAPROXY_LOCALPEER}}" "127.0.0.1:${{OWN_PORT}}"
    peer agg "127.0.0.1:${{COLLECTOR_PORT}}"
backend hot
    stick-table type ip size {size} expire {life} store gpc0 peers fleet
frontend www
    bind "127.0.0.1:${{HTTP_PORT}}"
    http-request deny deny_status 429 if {{ hdr_ip(x-forwarded-for),table_gpc0(hot) gt 0 }}
    http-request return status 200
"""


def config(options):
    """The collector's configuration: a peer that feeds, and those that are told."""
    names = [f"p{number}" for number in range(options.sessions)] + [f"lb{number}" for number in range(options.proxies)]
    peers = "\n".join(["peer feeder", *(f"peer {name}" for name in names)])
    return CONFIG.format(peers=peers, hold=f" hold {options.hold}" if options.hold else "")


def call(port, name):
    """A connection of a peer whose hello was accepted."""
    peer = socket.create_connection(("127.0.0.1", port), timeout=20)
    peer.sendall(f"HAProxyS 2.1\nagg\n{name} 1 1\n".encode())
    said = b""
    while not said.endswith(b"\n"):
        said += peer.recv(1)
    if said != b"200\n":
        raise RuntimeError(f"{name} was told {said!r}")
    return peer


def address(number):
    return (number * SCATTER % 2**32).to_bytes(4, "big")


class Told:
    """Sessions that read what they are told, in a thread."""

    def __init__(self, port, count):
        self.selector = selectors.DefaultSelector()
        self.tails = {}
        for number in range(count):
            peer = call(port, f"p{number}")
            peer.setblocking(False)
            self.selector.register(peer, selectors.EVENT_READ)
            self.tails[peer] = b""
        self.bytes = 0
        self.key, self.missing, self.when = None, set(), None
        self.is_over = False
        self.thread = threading.Thread(target=self.run)
        self.thread.start()

    def await_key(self, number):
        """From now on looks out for a key; `when` is the moment at which all sessions were told it."""
        self.when = None
        self.missing = set(self.tails)
        self.key = address(number)

    def take(self, peer):
        try:
            data = peer.recv(1 << 20)
        except BlockingIOError:
            return
        self.bytes += len(data)
        if not data:
            self.selector.unregister(peer)
            return
        if self.key is not None and peer in self.missing:
            if self.key in self.tails[peer] + data:
                self.missing.discard(peer)
                if not self.missing:
                    self.when, self.key = time.monotonic(), None
        self.tails[peer] = data[-16:]

    def run(self):
        beaten = time.monotonic()
        while not self.is_over:
            for ready, _ in self.selector.select(0.05):
                self.take(ready.fileobj)
            if time.monotonic() - beaten > 2:
                beaten = time.monotonic()
                for peer in self.tails:
                    try:
                        peer.send(HEARTBEAT)
                    except OSError:
                        pass

    def end(self):
        self.is_over = True
        self.thread.join()


def processor(pid):
    """The processor time of a process so far, in s."""
    with open(f"/proc/{pid}/stat", "rb") as stat:
        words = stat.read().rsplit(b")", 1)[1].split()
    return (int(words[11]) + int(words[12])) / TICK


class Taught:
    """A real HAProxy that is told the set."""

    def __init__(self, name, port, options, folder):
        config = f"{folder}/{name}.cfg"
        with open(config, "w", encoding="ascii") as text:
            text.write(PROXY_CONFIG.format(size=options.keys * 5 // 4 + 1000, life=options.hold or 10000))
        began = time.monotonic()
        self.proxy = Proxy(name, port, folder, config=config)
        wait_for("the set in the proxy", 120, lambda: self.used() >= options.keys)
        print(f"{name} has {self.used()} keys after {time.monotonic() - began:.1f} s, for which it took "
              f"{self.processor():.2f} s of a processor", flush=True)
        self.web = http.client.HTTPConnection("127.0.0.1", self.proxy.http, timeout=5)

    def used(self):
        """How many keys its table has."""
        return int(re.search(r"table: hot.* used:(\d+)", self.proxy.socket_command("show table")).group(1))

    def processor(self):
        return processor(self.proxy.process.pid)

    def refuses(self, number):
        """Whether it refuses a client."""
        client = ".".join(map(str, address(number)))
        self.web.request("GET", "/", headers={"x-forwarded-for": client})
        answer = self.web.getresponse()
        answer.read()
        return answer.status == 429


def over(what, options, collector, told, work, taught):
    """Prints what the collector took while some work went on for the asked seconds."""
    time_before, bytes_before, began = processor(collector.process.pid), told.bytes, time.monotonic()
    of_proxies = [one.processor() for one in taught]
    work(began + options.seconds)
    took = time.monotonic() - began
    for one, before in zip(taught, of_proxies):
        share = 100 * (one.processor() - before) / took
        print(f"{what}: {one.proxy.name} takes {share:.1f} % of a processor, and has {one.used()} keys", flush=True)
    share = 100 * (processor(collector.process.pid) - time_before) / took
    rate = (told.bytes - bytes_before) / took / 1000
    print(f"{what}: {share:.1f} % of a processor, {share / max(options.sessions, 1):.2f} % a session, "
          f"{rate:.0f} KB/s told", flush=True)


def stand_still(end):
    time.sleep(max(0, end - time.monotonic()))


def flip(feeder, options, end):
    """Lets keys leave the set and come back, so many a second."""
    at, count = 0, max(options.flips // 10, 1)
    while time.monotonic() < end:
        began = time.monotonic()
        numbers = [(at + step) % options.keys for step in range(count)]
        feeder.push(map(address, numbers), 0 if (at // options.keys) % 2 == 0 else 1)
        at += count
        time.sleep(max(0, 0.1 - (time.monotonic() - began)))


def cross(feeder, options, told, taught):
    """How long it takes until all are told a key that came into the set, and the proxies refuse its client."""
    took = []
    for turn in range(options.crossings):
        number = 10_000_000 + turn
        told.await_key(number)
        feeder.push([address(number)], 1)
        began = time.monotonic()
        left = list(taught)
        while (told.when is None or left) and time.monotonic() - began < 10:
            left = [one for one in left if not one.refuses(number)]
            last = time.monotonic()
            time.sleep(0.001)
        took.append(1000 * (max(told.when or time.monotonic(), last if taught else 0) - began))
        time.sleep(0.02)
    took.sort()
    last = took[min(len(took) - 1, len(took) * 99 // 100)]
    print(f"all told after: median {statistics.median(took):.0f} ms, 99 of 100 {last:.0f} ms, longest {took[-1]:.0f} ms")


def main():
    words = argparse.ArgumentParser(description=__doc__, formatter_class=argparse.RawDescriptionHelpFormatter)
    words.add_argument("--collector", default=COLLECTOR)
    words.add_argument("--sessions", type=int, default=20)
    words.add_argument("--keys", type=int, default=10000)
    words.add_argument("--flips", type=int, default=100)
    words.add_argument("--hold", type=int)
    words.add_argument("--seconds", type=float, default=10)
    words.add_argument("--crossings", type=int, default=100)
    words.add_argument("--proxies", type=int, default=0)
    options = words.parse_args()
    wants(*[HAPROXY] if options.proxies else [], program=options.collector)
    ends_cleanly()
    peers, admin = free_ports(2)
    with tempfile.NamedTemporaryFile("w", suffix=".conf") as text:
        text.write(config(options))
        text.flush()
        collector = Collector(options.collector, peers, admin, config=text.name, log=subprocess.DEVNULL)
    told, taught = None, []
    folder = tempfile.TemporaryDirectory()
    try:
        feeder = Feeder(peers)
        feeder.push(map(address, range(options.keys)), 1)
        before = collector.resident()
        told = Told(peers, options.sessions)
        time.sleep(3)
        each = (collector.resident() - before) / max(options.sessions, 1) / max(options.keys, 1)
        print(f"{options.sessions} sessions, {options.keys} keys: {collector.resident() / 1e6:.0f} MB resident, "
              f"of that {(collector.resident() - before) / 1e6:.0f} MB for them, "
              f"{each:.0f} bytes a session and key", flush=True)
        for number in range(options.proxies):
            taught.append(Taught(f"lb{number}", peers, options, folder.name))
        over("a set that stands still", options, collector, told, stand_still, taught)
        over(f"{options.flips} keys a second change", options, collector, told,
             lambda end: flip(feeder, options, end), taught)
        print(f"{collector.resident() / 1e6:.0f} MB resident")
        if options.crossings:
            cross(feeder, options, told, taught)
    finally:
        if told:
            told.end()
        for one in taught:
            one.proxy.kill()
        folder.cleanup()
        collector.process.kill()
        collector.process.wait()
    return 0


if __name__ == "__main__":
    sys.exit(main())
