#!/usr/bin/env python3
"""Checks what the collector answers over HTTP, to sound requests and to hostile ones.

    tools/check/http_answers.py [--collector crates/aggregator/out/aggregator] [--quick]

It starts `aggregator listen --http` over a configuration of its own, with names that need escapes. A peer pushes
rows, which are then asked for in parts, with conditions and in order; figures go through `promtool` where it is
installed. Hostile clients drip a head, send heads and targets that are too long, bad methods, two lengths, two hosts
and bytes that are no request; they ask for other hosts, pipeline, never read, stay silent, hold half requests beside
`/healthz`, or come a thousand at once. The door's budget, its four answers at once and the health of a clock that
stands still are tried too, and that `--version` names the commit of a stamp. It wants a built program. The last line
counts passed and failed; the status is 1 where one failed. It takes about a minute and a half; `--quick` leaves out
what waits.
"""

import argparse
import json
import pathlib
import re
import resource
import shutil
import signal
import socket
import struct
import subprocess
import sys
import tempfile
import threading
import time
import urllib.parse

sys.path.insert(0, str(pathlib.Path(__file__).resolve().parents[1]))

from lib.collector import COLLECTOR, Collector, free_ports
from lib.needs import ends_cleanly, wants
from lib.peers_protocol import DEFINE, UPDATE, beat, message, put_int
from lib.report import Report

KEYS = 3000
ODD_PEER = 'l<b>&"1'
ODD_FILTER = 'a<&">b\\'
CONFIG = f"""name agg
peer {ODD_PEER}
peer lb2
table /t type ip size 200000 store gpc0,conn_cnt
table empty type string len 31 size 1000 store gpc0
filter {ODD_FILTER} /t data.gpc0 ge 100
filter none empty data.gpc0 gt 0
rank top /t gpc0 10
push none
"""
HELLO = f"HAProxyS 2.1\nagg\n{ODD_PEER} 1 1\n".encode()


class Client:
    """A connection to the HTTP door."""

    def __init__(self, port, timeout=15):
        self.socket = socket.create_connection(("127.0.0.1", port), timeout=timeout)
        self.unread = b""

    def __enter__(self):
        return self

    def __exit__(self, *_):
        self.socket.close()

    def send(self, data):
        self.socket.sendall(data)

    def more(self):
        """Whether more came."""
        try:
            data = self.socket.recv(1 << 16)
        except ConnectionResetError:
            data = b""
        self.unread += data
        return bool(data)

    def answer(self, head_only=False):
        """The next answer's status, fields and body; none where the connection ended."""
        while b"\r\n\r\n" not in self.unread:
            if not self.more():
                return None
        head, self.unread = self.unread.split(b"\r\n\r\n", 1)
        lines = head.decode("latin-1").split("\r\n")
        fields = {name.lower(): value for name, _, value in (line.partition(": ") for line in lines[1:])}
        length = 0 if head_only else int(fields.get("content-length", 0))
        while len(self.unread) < length:
            if not self.more():
                return None
        body, self.unread = self.unread[:length], self.unread[length:]
        return int(lines[0].split()[1]), fields, body

    def ask(self, path, method="GET", fields=""):
        self.send(f"{method} {path} HTTP/1.1\r\nHost: localhost\r\n{fields}\r\n".encode())
        return self.answer(head_only=method == "HEAD")

    def is_closed(self):
        """Whether the other side closes, and says nothing more."""
        while self.more():
            pass
        return not self.unread


def get(port, path, method="GET"):
    """The status, the fields and the body of one answer; it is asked again where the door is busy."""
    for _ in range(30):
        with Client(port) as client:
            found = client.ask(path, method)
        if found and found[0] != 503:
            return found
        time.sleep(0.2)
    return found


def told(port, path):
    """A list, which has to be told."""
    status, _, body = get(port, path)
    if status != 200:
        raise ValueError(f"{path}: {status} {body!r}")
    return json.loads(body)


def name_of(text):
    return urllib.parse.quote(text, safe="")


def push(port):
    """A peer that has pushed `KEYS` rows, each with its number as gpc0, and stays."""
    peer = socket.create_connection(("127.0.0.1", port), timeout=10)
    peer.sendall(HELLO)
    assert peer.recv(4) == b"200\n"
    bits = 1 << 2 | 1 << 4
    text = b"/t"
    out = message(DEFINE, put_int(1) + put_int(len(text)) + text + put_int(4) + put_int(4) + put_int(bits) + put_int(0))
    for number in range(KEYS):
        row = struct.pack(">II", number + 1, 0x0A000000 + number) + put_int(number) + put_int(1)
        out += message(UPDATE, row)
    peer.sendall(out)
    threading.Thread(target=beat, args=(peer,), daemon=True).start()
    return peer


def differs(found, wanted):
    return "" if found == wanted else f"{str(found)[:300]} for {str(wanted)[:300]}"


def sound(report, port):
    """Each path, and each mistake in one."""
    for path, wanted, kind in (
        ("/", 200, "text/html; charset=utf-8"), ("/healthz", 200, "text/plain; charset=utf-8"),
        ("/metrics", 200, "text/plain; version=0.0.4; charset=utf-8"), ("/metrics?x=y", 200, None),
        ("/api/v1/overview", 200, "application/json"), ("/api/v1/peers", 200, "application/json"),
        ("/api/v1/tables/%2Ft", 200, "application/json"), ("/api/v1/tables//t", 200, "application/json"),
        ("/api/v1/filters/none", 200, "application/json"), ("/api/v1/ranks/top", 200, "application/json"),
        ("/nothing", 404, None), ("/api/v1/tables/no", 404, None), ("/api/v1/filters/no", 404, None),
        ("/api/v1/filters/none/changes", 200, "application/json"), ("/api/v1/filters/none/changes?since=0", 200, None),
        ("/api/v1/filters/no/changes", 404, None), ("/api/v1/filters/none/changes?since=x", 400, None),
        ("/api/v1/filters/none/changes?since=1&since=1", 400, None), ("/api/v1/filters/none?since=1", 400, None),
        ("/api/v1/filters/none/changes?since=1&limit=1", 400, None), ("/api/v1/tables/%2Ft?since=1", 400, None),
        ("/api/v1/ranks/no", 404, None), ("/api/v1/", 404, None), ("/api/v1/ranks/", 404, None),
        ("/api/v1/peers?limit=0", 400, None), ("/api/v1/peers?limit=10001", 400, None),
        ("/api/v1/peers?limit=10000", 200, None), ("/api/v1/peers?limit=x", 400, None),
        ("/api/v1/peers?limit=1&limit=1", 400, None), ("/api/v1/peers?where=x", 400, None),
        ("/api/v1/peers?after=no", 400, None), ("/api/v1/peers?colour=red", 400, None),
        ("/api/v1/tables/%2Ft?after=x", 400, None), ("/api/v1/tables/%2Ft?where=data.gpc0", 400, None),
        ("/api/v1/tables/%2Ft?where=data.http_req_cnt+gt+1", 400, None),
        ("/api/v1/tables/%2Ft?&&limit=5&", 200, None), ("/api/v1/ranks/top?after=10.0.0", 400, None),
    ):
        report.check(f"GET {path}", 3, lambda: differs(get(port, path)[0], wanted)
                     or (kind and differs(get(port, path)[1]["content-type"], kind)))
    for method in ("POST", "PUT", "DELETE", "PATCH", "OPTIONS", "TRACE", "FOO"):
        report.check(f"{method} is refused", 3, lambda: differs(get(port, "/metrics", method)[0], 405)
                     or differs(get(port, "/", method)[1]["allow"], "GET, HEAD"))
    report.check("HEAD has the length and no body", 3, head(port))
    report.check("what is told isn't kept by browsers", 3, lambda: differs(get(port, "/")[1]["cache-control"], "no-store"))


def head(port):
    def test():
        with Client(port) as client:
            status, fields, body = client.ask("/", "HEAD")
            wanted = get(port, "/")[1]["content-length"]
            return differs((status, fields["content-length"], body, client.ask("/healthz")[2]), (200, wanted, b"", b"ok\n"))
    return test


def parts(report, port):
    """Lists in parts, with conditions and in order."""
    address = [f"10.0.{number >> 8}.{number & 255}" for number in range(KEYS)]
    table = "/api/v1/tables/%2Ft"
    report.check("all rows are there", 10, lambda: differs(told(port, table + "?limit=1")["keys"], KEYS))
    found = told(port, table + "?limit=7")
    report.check("a part of a table", 1, lambda: differs(
        ([row["key"] for row in found["entries"]], found["more"]), (address[:7], True)))
    report.check("a row", 1, lambda: differs(found["entries"][3], {
        "key": "10.0.0.3", "peers": 1, "expires_in_ms": None, "values": {"gpc0": 3, "conn_cnt": 1}}))
    report.check("1,000 entries come where no limit is given", 1, lambda: differs(len(told(port, table)["entries"]), 1000))
    seen, after, more = [], "", True
    while more:
        part = told(port, f"{table}?limit=997{after}")
        seen += [row["key"] for row in part["entries"]]
        after, more = "&after=" + seen[-1], part["more"]
    report.check("parts one after the other are the whole table", 1, lambda: differs(seen, address))
    last = told(port, f"{table}?after={address[-1]}")
    report.check("nothing is behind the last key", 1, lambda: differs((last["entries"], last["more"]), ([], False)))
    exact = told(port, f"{table}?limit={KEYS}")
    report.check("no more follow where all fit", 1, lambda: differs((len(exact["entries"]), exact["more"]), (KEYS, False)))
    for where, wanted in (("data.gpc0 lt 3", address[:3]), ("data.gpc0%20ge%205%20data.gpc0+le+6", address[5:7]),
                          ("key 10.0.1.1", ["10.0.1.1"]), ("key 11.0.0.1", [])):
        path = f"{table}?where={where.replace(' ', '+')}"
        report.check(f"where {where}", 1, lambda: differs([row["key"] for row in told(port, path)["entries"]], wanted))
    rank = told(port, "/api/v1/ranks/top")
    report.check("a ranked list", 1, lambda: differs(
        [(e["key"], e["value"]) for e in rank["entries"]], [(address[n], n) for n in range(KEYS - 1, KEYS - 11, -1)]))
    rest = told(port, f"/api/v1/ranks/top?limit=2&after={address[KEYS - 3]}")
    report.check("a part of a ranked list", 1, lambda: differs(
        ([e["key"] for e in rest["entries"]], rest["more"]), ([address[KEYS - 4], address[KEYS - 5]], True)))
    held = told(port, f"/api/v1/filters/{name_of(ODD_FILTER)}?limit=10000")
    report.check("a filter of an odd name", 1, lambda: differs(
        (held["filter"], held["keys"], sorted(held["entries"])), (ODD_FILTER, KEYS - 100, sorted(address[100:]))))
    path = f"/api/v1/filters/{name_of(ODD_FILTER)}/changes"
    whole = told(port, path)
    report.check("the set of a filter, to follow it from", 1, lambda: differs(
        (whole["since"], whole["known"], whole["entered"], whole["left"], whole["more"]),
        (None, False, address[100:], [], False)))
    from_start = told(port, f"{path}?since=0")
    report.check("what moved since the start", 1, lambda: differs(
        (from_start["since"], from_start["known"], from_start["entered"], from_start["left"], from_start["more"]),
        (0, True, address[100:], [], False)))
    since = told(port, f"{path}?since={whole['to']}")
    report.check("nothing moved since", 1, lambda: differs(
        (since["since"], since["known"], since["entered"], since["left"], since["to"] >= whole["to"]),
        (whole["to"], True, [], [], True)))
    above = told(port, f"{path}?since={2 ** 64 - 1}")
    report.check("what moved since a number to come isn't known", 1, lambda: differs(
        (above["known"], above["entered"]), (False, address[100:])))
    peers = told(port, "/api/v1/peers")["entries"]
    report.check("peers", 1, lambda: differs([(p["name"], p["state"], p["updates"]) for p in peers],
                                             [(ODD_PEER, "connected", KEYS), ("lb2", "never", 0)]))
    behind = told(port, f"/api/v1/peers?after={name_of(ODD_PEER)}")
    report.check("peers behind one", 1, lambda: differs([p["name"] for p in behind["entries"]], ["lb2"]))


def figures(report, collector, port):
    """Figures, as Prometheus reads them."""
    odd = ODD_FILTER.replace("\\", "\\\\").replace('"', '\\"')
    wanted = f'sesamejoist_filter_keys{{filter="{odd}",table="/t"}} {KEYS - 100}\n'
    # The look that is shared may be from before the rows came: it stays for a second, or ten times what it took.
    last, text = time.monotonic() + 5, get(port, "/metrics")[2].decode()
    while wanted not in text and time.monotonic() < last:
        time.sleep(0.2)
        text = get(port, "/metrics")[2].decode()
    report.check("a label with a quote and a backslash", 1, lambda: "" if wanted in text else text)
    report.check("the updates of a peer", 1, lambda: "" if f' {KEYS}\n' in text else text)
    for name, told_by in (("the figure", text), ("show info", collector.ask("show info"))):
        found = re.search(r"^(?:process_resident_memory_bytes|memory:) (\d+)$", told_by, re.M)
        report.check(f"the memory by {name}", 1, lambda: "" if found and
                     abs(int(found[1]) - collector.resident()) < 10_000_000 else told_by)
    if shutil.which("promtool"):
        done = subprocess.run(["promtool", "check", "metrics"], input=text, text=True, capture_output=True)
        report.check("promtool check metrics", 1, lambda: differs((done.returncode, done.stderr), (0, "")))
    rules = COLLECTOR.parents[3] / "examples/alerts.yml"
    if shutil.which("promtool"):
        done = subprocess.run(["promtool", "check", "rules", str(rules)], text=True, capture_output=True)
        report.check("promtool check rules", 1, lambda: differs(done.returncode, 0))


def never_shrinks(report, port):
    """On one connection the events of answers rise, whatever they are of."""
    def test():
        paths = ["/api/v1/overview", "/api/v1/ranks/top", "/api/v1/tables/empty", "/api/v1/peers"]
        with Client(port) as client:
            looks = []
            for turn in range(40):
                status, _, body = client.ask(paths[turn % 4])
                if status == 200:
                    looks.append((json.loads(body)["events"], json.loads(body)["moment"]))
                time.sleep(0.05)
        rises = all(a[0] <= b[0] and a[1] <= b[1] for a, b in zip(looks, looks[1:]))
        return "" if rises and len(looks) > 10 else str(looks)
    report.check("events rise on one connection", 1, test)


def raw(port, data, timeout=15):
    """The statuses that these bytes are answered, up to the end of the connection."""
    with Client(port, timeout) as client:
        try:
            client.send(data)
            client.socket.shutdown(socket.SHUT_WR)
        except OSError:
            pass
        statuses = []
        while found := client.answer():
            statuses.append(found[0])
        return statuses


def hostile(report, port):
    """Bytes that are no sound request."""
    host = b"Host: localhost\r\n"
    for name, data, wanted in (
        ("a head of 9 KB", b"GET / HTTP/1.1\r\n" + host + b"A: " + b"a" * 9000 + b"\r\n\r\n", [431]),
        ("a head of 8 KB less a little", b"GET /healthz HTTP/1.1\r\n" + host + b"Connection: close\r\nA: " + b"a" * 8000 + b"\r\n\r\n", [200]),
        ("a target of 9 KB", b"GET /" + b"a" * 9000 + b" HTTP/1.1\r\n" + host + b"\r\n", [414]),
        ("65 fields", b"GET / HTTP/1.1\r\n" + host + b"A: b\r\n" * 64 + b"\r\n", [431]),
        ("no host", b"GET /healthz HTTP/1.1\r\n\r\n", [400]),
        ("two hosts", b"GET /healthz HTTP/1.1\r\n" + host + host + b"\r\n", [400]),
        ("a bad host", b"GET /healthz HTTP/1.1\r\nHost: a b\r\n\r\n", [400]),
        ("a NUL", b"GET /\0 HTTP/1.1\r\n" + host + b"\r\n", [400]),
        ("TLS", bytes.fromhex("16030100c8010000c40303") + bytes(100), [400]),
        ("the peers protocol", HELLO, [400]),
        ("HTTP/3", b"GET / HTTP/3.0\r\n" + host + b"\r\n", [400]),
        ("a bare LF", b"GET /healthz HTTP/1.1\n" + host + b"\n", [400]),
        ("two lengths", b"GET /healthz HTTP/1.1\r\n" + host + b"Content-Length: 1\r\nContent-Length: 2\r\n\r\nxx", [400]),
        ("a length and chunks", b"POST / HTTP/1.1\r\n" + host + b"Content-Length: 5\r\nTransfer-Encoding: chunked\r\n\r\n0\r\n\r\n", [400]),
        ("a huge body", b"POST / HTTP/1.1\r\n" + host + b"Content-Length: 99999999999\r\n\r\n", [413]),
        ("a coding", b"POST / HTTP/1.1\r\n" + host + b"Transfer-Encoding: gzip, chunked\r\n\r\n", [501]),
        ("a GET with a body", b"GET /healthz HTTP/1.1\r\n" + host + b"Content-Length: 5\r\nConnection: close\r\n\r\nhello", [200]),
        ("CONNECT", b"CONNECT localhost:1 HTTP/1.1\r\n" + host + b"Connection: close\r\n\r\n", [405]),
        ("half a head", b"GET / HT", [400]),
        ("nothing", b"", []),
    ):
        report.check(name, 3, lambda: differs(raw(port, data), wanted))
    one = b"GET /healthz HTTP/1.1\r\n" + host + b"\r\n"
    last = b"GET /nothing HTTP/1.1\r\n" + host + b"Connection: close\r\n\r\n"
    report.check("500 requests at once are answered in order", 5, lambda: differs(raw(port, one * 499 + last), [200] * 499 + [404]))
    report.check("HTTP/1.0 is answered and closed", 3, lambda: differs(raw(port, b"GET /healthz HTTP/1.0\r\n\r\n"), [200]))


def waits(report, port):
    """Clients that take their time."""
    def drip():
        start = time.monotonic()
        with Client(port, timeout=20) as client:
            client.socket.settimeout(0.4)
            for byte in b"GET /healthz HTTP/1.1\r\nHost: localhost\r\nA: " + b"x" * 200:
                try:
                    client.send(bytes([byte]))
                    if not client.more():
                        break
                except TimeoutError:
                    continue
                except OSError:
                    break
        took = time.monotonic() - start
        return "" if 1.9 < took < 4 else f"{took} s"

    def silent():
        start = time.monotonic()
        with Client(port, timeout=20) as client:
            closed = client.is_closed()
        took = time.monotonic() - start
        return "" if closed and 1.9 < took < 4 else f"{took} s"

    def deaf():
        """Asks for much and reads nothing: the connection is over within the time that an answer has."""
        with socket.socket() as client:
            client.setsockopt(socket.SOL_SOCKET, socket.SO_RCVBUF, 4096)
            client.settimeout(20)
            client.connect(("127.0.0.1", port))
            client.sendall(b"GET / HTTP/1.1\r\nHost: localhost\r\n\r\n" * 2000)
            time.sleep(14)
            try:
                client.sendall(b"x" * 100000)
                time.sleep(0.5)
                client.sendall(b"x" * 100000)
            except (ConnectionError, TimeoutError):
                return ""
        return "it is still served"

    def slow():
        """A request in two halves, a second apart: it is answered."""
        with Client(port, timeout=20) as client:
            client.send(b"GET /healthz HTTP/1.1\r\n")
            time.sleep(1)
            client.send(b"Host: localhost\r\n\r\n")
            return differs((client.answer() or [0])[0], 200)

    at_once(report, {"a head a byte at a time ends in 2 s": drip, "silence ends in 2 s": silent,
                     "a request in two halves is answered": slow, "a client that reads nothing ends": deaf})


def at_once(report, tests):
    """Runs tests that wait side by side."""
    found = {}
    threads = [threading.Thread(target=lambda n=name: found.update({n: tests[n]()})) for name in tests]
    for thread in threads:
        thread.start()
    for thread in threads:
        thread.join()
    for name in tests:
        report.check(name, 1, lambda: found.get(name, "it failed"))


def crowd(report, collector, port):
    """A thousand connections at once that say nothing: twelve are served, and all end soon."""
    threads = collector.threads()
    held = [socket.create_connection(("127.0.0.1", port), timeout=10) for _ in range(1000)]
    report.check("no more threads for 1,000 connections", 1, lambda: "" if collector.threads() <= threads else "more")
    report.check("an admin is answered meanwhile", 3, lambda: "" if "uptime_ms" in collector.ask("show info") else "not")
    report.check("and /healthz", 5, lambda: differs(get(port, "/healthz")[0], 200))
    start = time.monotonic()
    for client in held:
        client.settimeout(max(0.1, start + 30 - time.monotonic()))
        try:
            client.recv(100)
        except ConnectionError:
            pass
        client.close()
    took = time.monotonic() - start
    report.check("all 1,000 are closed", 1, lambda: "" if took < 20 else f"after {took} s")
    report.check("and the next is served again", 5, lambda: differs(get(port, "/metrics")[0], 200))


def half_requests(report, port):
    """64 clients that say half a request, and come again once they are closed, beside /healthz and another path."""
    held, done = [None] * 64, threading.Event()

    def hold(place):
        while not done.is_set():
            try:
                with Client(port) as client:
                    held[place] = client
                    client.send(b"GET /healthz HTTP/1.1\r\n")
                    client.is_closed()
            except OSError:
                time.sleep(0.01)

    threads = [threading.Thread(target=hold, args=(place,), daemon=True) for place in range(len(held))]
    for thread in threads:
        thread.start()
    time.sleep(1)
    slow, seen = [], set()
    for number in range(40):
        start = time.monotonic()
        try:
            with Client(port) as client:
                found = client.ask("/healthz" if number % 2 else "/metrics")
        except OSError as fault:
            found = (str(fault), {})
        took = time.monotonic() - start
        if number % 2 == 0:
            seen.add(found and found[0])
        elif not found or found[0] != 200 or took > 1:
            slow.append(f"{found and found[0]} in {took:.2f} s")
        time.sleep(0.1)
    done.set()
    report.check("/healthz is answered within 1 s beside 64 half requests", 1, lambda: ", ".join(slow))
    report.check("and anything else is answered, or 503", 1, lambda: "" if seen <= {200, 503} else str(seen))
    for thread in threads:
        thread.join(5)


def hosts(report, port):
    """Requests for the collector, and for somebody else."""
    end = b"Connection: close\r\n\r\n"
    for name, head, wanted in (
        ("an address", b"GET /healthz HTTP/1.1\r\nHost: 127.0.0.1\r\n", [200]),
        ("an address and a port", b"GET /healthz HTTP/1.1\r\nHost: 10.1.2.3:80\r\n", [200]),
        ("an IPv6 address", b"GET /healthz HTTP/1.1\r\nHost: [::1]\r\n", [200]),
        ("an IPv6 address and a port", b"GET /healthz HTTP/1.1\r\nHost: [2001:db8::7]:9998\r\n", [200]),
        ("localhost and a port", b"GET /healthz HTTP/1.1\r\nHost: LocalHost:9998\r\n", [200]),
        ("a name of --http-host", b"GET /healthz HTTP/1.1\r\nHost: Collector.Example\r\n", [200]),
        ("another of --http-host, and a port", b"GET /healthz HTTP/1.1\r\nHost: dash:80\r\n", [200]),
        ("another name", b"GET /healthz HTTP/1.1\r\nHost: evil.example\r\n", [421]),
        ("another name and a port", b"GET /metrics HTTP/1.1\r\nHost: evil.example:9998\r\n", [421]),
        ("a name that begins like an address", b"GET / HTTP/1.1\r\nHost: 127.0.0.1.evil.example\r\n", [421]),
        ("a name that ends like one of ours", b"GET / HTTP/1.1\r\nHost: evil-collector.example\r\n", [421]),
        ("no name", b"GET /healthz HTTP/1.1\r\nHost:\r\n", [421]),
        ("a POST for another name", b"POST / HTTP/1.1\r\nHost: evil.example\r\n", [421]),
        ("the target's host counts", b"GET http://evil.example/healthz HTTP/1.1\r\nHost: localhost\r\n", [421]),
        ("and not the field's", b"GET http://localhost:9998/healthz HTTP/1.1\r\nHost: evil.example\r\n", [200]),
        ("HTTP/1.0 without one", b"GET /healthz HTTP/1.0\r\n", [200]),
        ("HTTP/1.0 for another name", b"GET /healthz HTTP/1.0\r\nHost: evil.example\r\n", [421]),
    ):
        report.check(f"a host: {name}", 3, lambda: differs(raw(port, head + end), wanted))


def budget(report, port):
    """Looks may take a tenth of the time, and some share one."""
    def fourteen():
        time.sleep(1.1)
        with Client(port) as client:
            found = [client.ask("/api/v1/tables/%2Ft?limit=1")[0] for _ in range(14)]
        return differs(found, [200] * 14)

    def large():
        """Lists of all rows, asked for without a pause: what is refused says when to come again."""
        time.sleep(1.1)
        with Client(port) as client:
            found = [client.ask("/api/v1/tables/%2Ft?limit=10000") for _ in range(300)]
        good = [answer for answer in found if answer[0] == 200]
        late = [answer for answer in found if answer[0] == 503 and answer[1].get("retry-after") == "1"]
        sound = good and len(good) + len(late) == 300
        return "" if sound else f"{len(good)} and {len(late)} of 300"

    def shared():
        time.sleep(1.1)
        with Client(port) as client:
            found = [client.ask("/metrics")[0] for _ in range(100)]
        return differs(found, [200] * 100)

    report.check("fourteen small requests in a row", 3, fourteen)
    report.check("large ones are answered or told to wait", 1, large)
    report.check("figures share a look", 1, shared)


def many(report, port):
    """Many that ask for much at once: each is answered, or told to come again."""
    def test():
        found = []

        def work():
            for _ in range(5):
                with Client(port, 30) as client:
                    answer = client.ask("/api/v1/tables/%2Ft?limit=10000")
                    found.append(answer and answer[0])
        threads = [threading.Thread(target=work) for _ in range(40)]
        for thread in threads:
            thread.start()
        for thread in threads:
            thread.join()
        return "" if len(found) == 200 and set(found) <= {200, 503} and 200 in found else str(found)
    report.check("40 clients that ask for much", 1, test)


def standstill(report, collector, port):
    """A collector that is stopped for a while answers that its clock stands still, and gets well."""
    report.check("it is well", 3, lambda: differs(get(port, "/healthz")[2], b"ok\n"))
    collector.process.send_signal(signal.SIGSTOP)
    time.sleep(6)
    collector.process.send_signal(signal.SIGCONT)
    report.check("it is well again", 3, lambda: differs(get(port, "/healthz")[2], b"ok\n"))


def stamped(report, program):
    """A program says from which commit it was proved, where a stamp beside it does."""
    commit = "3a4082a6" * 5
    with tempfile.TemporaryDirectory() as folder:
        copy = shutil.copy(program, folder)
        pathlib.Path(f"{copy}.stamp").write_text(f"program: 0\ncommit: {commit}\n")
        said = subprocess.run([copy, "--version"], stdout=subprocess.PIPE, text=True, check=False).stdout
    report.tell("--version names the commit of a stamp beside it",
                "" if re.fullmatch(rf"aggregator \S+\ncommit {commit}\n", said) else repr(said))


def main():
    words = argparse.ArgumentParser(description=__doc__, formatter_class=argparse.RawDescriptionHelpFormatter)
    words.add_argument("--collector", default=COLLECTOR, help="the program that is checked")
    words.add_argument("--quick", action="store_true", help="leave out what waits for ten seconds and more")
    options = words.parse_args()
    wants(program=options.collector)
    ends_cleanly()
    resource.setrlimit(resource.RLIMIT_NOFILE, (4096, resource.getrlimit(resource.RLIMIT_NOFILE)[1]))
    report = Report()
    peers, admin, port = free_ports(3)
    with tempfile.NamedTemporaryFile("w", suffix=".conf") as config:
        config.write(CONFIG)
        config.flush()
        web = ["--http", f"127.0.0.1:{port}", "--http-host", "collector.example", "--http-host=dash"]
        collector = Collector(options.collector, peers, admin, config.name, options=web)
    stamped(report, options.collector)
    sound(report, port)
    peer = push(peers)
    parts(report, port)
    figures(report, collector, port)
    never_shrinks(report, port)
    hostile(report, port)
    hosts(report, port)
    budget(report, port)
    many(report, port)
    if not options.quick:
        waits(report, port)
        half_requests(report, port)
        crowd(report, collector, port)
        standstill(report, collector, port)
    report.check("it is still there", 3, lambda: differs(get(port, "/healthz")[0], 200))
    peer.close()
    collector.stop()
    report.end()


if __name__ == "__main__":
    main()
