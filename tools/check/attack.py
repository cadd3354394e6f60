#!/usr/bin/env python3
"""Attacks a collector in the ways that brought one down, stalled it or filled it, and says whether it stands.

    tools/check/attack.py [PROGRAM] [--quick] [--only NAME].. [--list]

PROGRAM is crates/aggregator/out/aggregator unless another is named. Each attack starts collectors of its own, on free
ports of this machine, and ends them. For each it prints a line with what it saw: `held` where that stands within the
bound that the line names, else `DIDN'T`. "Worst ack" is the longest that a sane peer beside the attack waited for an
acknowledgement, "silence" the longest in which it was sent nothing: a HAProxy leaves at 5 s. The last line is
`N held, M didn't`, and the status is 1 where one didn't.

`--quick` takes smaller numbers and about two minutes, where all hold. Two attacks want root: threads are refused to a
user of its own there, and else to all of this user's programs.
"""

import argparse
import contextlib
import os
import pathlib
import queue
import re
import resource
import signal
import socket
import subprocess
import sys
import tempfile
import threading
import time

sys.path.insert(0, str(pathlib.Path(__file__).resolve().parents[1]))

from lib.beside import FORK, HOUR, TURN, Beside, Pushed, Stranger, definition, get, last_of, rows, seated
from lib.collector import COLLECTOR, Collector
from lib.needs import ends_cleanly, wants
from lib.peers_protocol import HEARTBEAT
from lib.surviving import MEGA, cleared, closed_of, config, few_threads, flooded, look_at, of_unit, scattered
from lib.surviving import unserved, until_closed, without

ACK = 1.0  # s that a sane peer may wait for an acknowledgement
SILENCE = 4.0  # s of silence towards a peer: the collector sends something every 3.5 s
STUCK = 16.0  # s after which a collector that is stuck has ended: it looks for 10, and stops its workers for 6
DIDNT = "DIDN'T"

ATTACKS = {}


def attack(function):
    """Takes an attack up under its function's name."""
    ATTACKS[function.__name__.replace("_", "-")] = function
    return function


def mega(number):
    """A number of bytes in MB."""
    return f"{number / MEGA:.0f} MB"


def seen_by(beside):
    """What a sane peer saw, as text and as figures."""
    worst, silence, lost = beside.seen()
    left = f", {lost} connections lost" if lost else ""
    return f"worst ack {worst:.2f} s, silence {silence:.1f} s{left}", worst, silence, lost


# Out of memory


def starved(o, what, more, flooders, arenas, room):
    """One run out of memory."""
    names = [f"f{number}" for number in range(flooders)]
    environment = without("MALLOC_ARENA_MAX")
    environment.update({"MALLOC_ARENA_MAX": arenas} if arenas else {})
    with Collector.of(o.program, config(["sane", "later", *names], more), env=environment) as collector:
        beside = Beside(collector.peers)
        time.sleep(0.3)
        held, cut = flooded(collector, names, room, 2 if o.quick else 4)
        took = cleared(collector, STUCK)
        wrong = "no clear is answered"
        for _ in range(3 if took is not None else 0):
            wrong = unserved(collector, "later")
            if not wrong or collector.process.poll() is not None:
                break
        ended, since = collector.process.poll(), time.monotonic() - cut
        text, _, _, _ = seen_by(beside)
        beside.stop()
        after = collector.resident()
    name = f"{what}, {flooders} flooding, arenas {arenas or 'unset'}, {room} MB more"
    if ended is not None:
        return ended == 5 and since < STUCK + 6, f"{name}: ended with {ended} after {since:.0f} s, {mega(held)}"
    told = f"{wrong}" if wrong else f"all served, clear answered after {took:.1f} s"
    return not wrong, f"{name}: cut at {mega(held)}, {mega(after)} after; {told}; {text}"


@attack
def out_of_memory(o):
    """Peers push new keys into a limit of addresses: all is served afterwards, or it ended with status 5."""
    every, rank = "filter f t data.gpc0 ge 1\n", "rank top t gpc0 10\n"
    runs = [("a filter", every, 1, "2"), ("a filter", every, 6, "2"), ("a ranked list", rank, 1, "2"),
            ("a filter", every, 1, ""), ("a ranked list", rank, 6, ""), ("a filter none meets",
            "filter f t data.gpc0 gt 220\n", 1, "2"), ("neither", "", 6, "2")]
    for place, (what, more, flooders, arenas) in enumerate(runs[:4] if o.quick else runs):
        # A flooder's thread has a stack of 8 MB, and an arena of its own has 64 MB of addresses.
        beside = flooders * 9 if arenas else 130 * flooders + 130
        for room in ((60, 50, 70, 60)[place:place + 1] if o.quick else (50, 80, 110, 140)):
            yield starved(o, what, more, flooders, arenas, room + beside)


# Questions


@attack
def ranked_ties(o):
    """Keys that all tie in a ranked list, which a page and Prometheus ask for."""
    count, names = (100_000 if o.quick else 1_000_000), [f"p{number}" for number in range(4)]
    more = "rank top t gpc0 10\nrank more t gpc0 100\n"
    with (Collector.of(o.program, config(["sane", *names], more)) as collector,
          Pushed(collector.peers, names, rows(1, scattered(count), 7), count)):
        beside, took = Beside(collector.peers), {"/metrics": [], "/api/v1/overview": []}
        time.sleep(0.5)
        beside.forget()
        done = threading.Event()
        askers = [threading.Thread(target=poll, args=(collector.http, path, it, done)) for path, it in took.items()]
        for asker in askers:
            asker.start()
        time.sleep(8 if o.quick else 30)
        done.set()
        for asker in askers:
            asker.join()
        text, worst, silence, lost = seen_by(beside)
        beside.stop()
    asked = ", ".join(f"{path} {max(it):.2f} s at most of {len(it)}" for path, it in took.items())
    good = worst < ACK and silence < SILENCE and not lost
    yield good, f"{count} keys of 4 peers: {asked}; {text} (bound {ACK} s)"


def poll(port, path, took, done):
    """Asks once a second, or as often as it is answered."""
    while not done.is_set():
        took.append(get(port, path, timeout=60)[2])
        done.wait(max(0, 1 - took[-1]))


@attack
def http_lists(o):
    """70 requests of ten rows of a large table: memory stays."""
    count, answered = 200_000, 0
    with (Collector.of(o.program, config(["sane", "p0"]), env=without("MALLOC_ARENA_MAX")) as collector,
          Pushed(collector.peers, ["p0"], rows(1, scattered(count), 7), count)):
        before = collector.resident()
        for _ in range(70):
            status = 503
            while status == 503:
                status = get(collector.http, "/api/v1/tables/t?limit=10")[0]
                time.sleep(0.1 if status == 503 else 0)
            answered += status == 200
        after = collector.resident()
        time.sleep(1 if o.quick else 5)
        collector.ask("clear table t")
        last = collector.resident()
    yield answered == 70 and after - before < 40 * MEGA, (
        f"{count} keys: {mega(before)} before, {mega(after)} after {answered} of 70 answers, {mega(last)} after a "
        "clear (bound 40 MB more)")


@attack
def half_requests(o):
    """66 clients that say half a request, and come again when they are closed, beside /healthz."""
    with Collector.of(o.program, config(["sane"])) as collector:
        done, held, found = threading.Event(), [None] * 66, []
        holder = threading.Thread(target=hold_half, args=(collector.http, held, done))
        holder.start()
        time.sleep(0.5)
        start = time.monotonic()
        while time.monotonic() - start < (6 if o.quick else 30):
            found.append(get(collector.http, "/healthz"))
            time.sleep(0.25)
        done.set()
        holder.join()
    bad, worst = [it for it in found if it[0] != 200], max(it[2] for it in found)
    yield not bad and worst < 1, (f"/healthz 200 for {len(found) - len(bad)} of {len(found)}, in {worst:.2f} s at most "
                                  "(bound all, 1 s)")


def hold_half(port, held, done):
    """Holds connections with half a request each."""
    while not done.wait(0.02):
        for place, client in enumerate(held):
            try:
                if client is None:
                    client = held[place] = Stranger(port, b"GET /healthz HTTP/1.1\r\n").socket
                    client.setblocking(False)
                if client.recv(100) is not None:
                    client.close()
                    held[place] = None
            except BlockingIOError:
                continue
            except OSError:
                held[place] = None
    for client in held:
        if client:
            client.close()


@attack
def small_requests(o):
    """Fourteen small requests one behind the other: each is answered."""
    with (Collector.of(o.program, config(["sane", "p0"])) as collector,
          Pushed(collector.peers, ["p0"], rows(1, scattered(1000), 7), 1000)):
        time.sleep(1.2)
        found = [get(collector.http, "/api/v1/tables/t?limit=1")[0] for _ in range(14)]
    yield found == [200] * 14, f"200 for {found.count(200)} of 14, 503 for {found.count(503)}"


@attack
def foreign_hosts(o):
    """Requests with another Host, none or two: no page of elsewhere reads what it has."""
    wrong = []
    with Collector.of(o.program, config(["sane"])) as collector:
        port, tail = collector.http, b"Connection: close\r\n\r\n"
        for what, data, wanted in (
            ("a foreign host", b"GET /healthz HTTP/1.1\r\nHost: evil.example\r\n", 421),
            ("its table", b"GET /api/v1/tables/t HTTP/1.1\r\nHost: evil.example:%d\r\n" % port, 421),
            ("a foreign authority", b"GET http://evil.example/healthz HTTP/1.1\r\nHost: 127.0.0.1\r\n", 421),
            ("localhost", b"GET /healthz HTTP/1.1\r\nHost: LocalHost:%d\r\n" % port, 200),
            ("an address", b"GET /healthz HTTP/1.1\r\nHost: 127.0.0.1:%d\r\n" % port, 200),
            ("an IPv6 address", b"GET /healthz HTTP/1.1\r\nHost: [::1]:%d\r\n" % port, 200),
            ("no host", b"GET /healthz HTTP/1.1\r\n", 400),
            ("two hosts", b"GET /healthz HTTP/1.1\r\nHost: 127.0.0.1\r\nHost: 127.0.0.1\r\n", 400),
            ("HTTP/1.0 without one", b"GET /healthz HTTP/1.0\r\n", 200),
        ):
            found = Stranger(port, data + tail).answer()[0]
            wrong += [f"{what} {found} for {wanted}"] if found != wanted else []
    yield not wrong, ", ".join(wrong) or "421 for foreign ones, 400 for none and two, 200 for addresses and localhost"


@attack
def admin_http(o):
    """Lines of HTTP at the admin address, with a command in the body: nothing is done, nothing is answered."""
    wrong = []
    with (Collector.of(o.program, config(["sane", "p0"])) as collector,
          Pushed(collector.peers, ["p0"], rows(1, scattered(100), 7), 100)):
        body = b"\r\nclear table t\nshow info\n"
        heads = [f"{word} / HTTP/1.1\r\n".encode() for word in
                 ("GET", "HEAD", "POST", "PUT", "DELETE", "OPTIONS", "PATCH", "CONNECT", "TRACE")]
        for head in [*heads, b"host: x\r\n", b"Origin: http://evil.example\r\n"]:
            with socket.create_connection(("127.0.0.1", collector.admin), timeout=2) as browser:
                browser.sendall(head + b"Host: x\r\nOrigin: http://evil.example\r\n" + body)
                said, is_closed = until_closed(browser)
            used = re.search(r"used:(\d+)", collector.ask("show table t"))
            if said or not is_closed or not used or used.group(1) != "100":
                told = f"said {said[:60]!r}, {'closed' if is_closed else 'left open'}"
                wrong.append(f"{head[:8]!r}: {told}, used {used and used.group(1)} of 100")
                break
    yield not wrong, ", ".join(wrong) or "eleven first lines: closed without an answer, all 100 rows still there"


# Long acts


@attack
def long_acts(o):
    """An added filter that all keys meet, its end, and a clear with a condition that all meet, beside a sane peer."""
    count, names = (100_000 if o.quick else 1_000_000), [f"p{number}" for number in range(4)]
    more = "rank top t gpc0 100\nfilter f t data.gpc0 gt 200\n"
    with (Collector.of(o.program, config(["sane", *names], more)) as collector,
          Pushed(collector.peers, names, rows(1, scattered(count), 7), count)):
        beside = Beside(collector.peers)
        for command in ("add filter every t data.gpc0 ge 1", "del filter every", "clear table t data.gpc0 ge 1"):
            beside.calm()
            beside.forget()
            start = time.monotonic()
            try:
                said = collector.ask(command, timeout=120).strip()
            except OSError as fault:
                said = str(fault)
            took = time.monotonic() - start
            beside.calm()
            text, worst, silence, lost = seen_by(beside)
            good = said == "ok" and worst < ACK and silence < SILENCE and not lost
            yield good, f"{command}, {count} keys of 4 peers: {said} in {took:.2f} s; {text} (bound {ACK} s)"
        beside.stop()


@attack
def logged_keys(o):
    """Keys that come into a logged filter's set and leave it all together: the log's rounds look at what moved."""
    count = 100_000 if o.quick else 1_000_000
    with Collector.of(o.program, config(["sane", "p0"], "filter f t data.gpc0 ge 1\nlog f\n")) as collector:
        beside = Beside(collector.peers)
        time.sleep(0.5)
        beside.forget()
        with Pushed(collector.peers, ["p0"], rows(1, scattered(count), 7), count):
            beside.calm()
            text, worst, silence, lost = seen_by(beside)
            yield worst < ACK and silence < SILENCE and not lost, f"{count} keys come: {text} (bound {ACK} s)"
            beside.forget()
            said = collector.ask("clear table t", timeout=60).strip()
            beside.calm()
            text, worst, silence, lost = seen_by(beside)
            good = said == "ok" and worst < ACK and silence < SILENCE and not lost
            yield good, f"{count} keys leave: {said}; {text} (bound {ACK} s)"
        beside.stop()


def ending(port, name, count, ends, spread, told):
    """One peer in a process: rows that end at a moment, or spread over some seconds behind it. Each part waits until it
    is acknowledged, so that its lives begin as it is sent."""
    signal.signal(signal.SIGINT, signal.SIG_IGN)
    peer, part, unread = seated(port, name, timeout=30), 5000, b""
    keys = scattered(count)
    for at in range(0, count, part):
        life = ends + spread * at / count - time.monotonic()
        if life < 0.5:
            told.put(at)
            return
        some = keys[at:at + part]
        peer.sendall(rows(at + 1, some, 7, round(life * 1000)))
        found = 0
        while found != at + len(some):
            # (else the collector's next small answer waits for ours, 40 ms)
            peer.setsockopt(socket.IPPROTO_TCP, socket.TCP_QUICKACK, 1)
            more = peer.recv(TURN)
            if not more:
                told.put(at)
                return
            last, unread = last_of(unread + more)
            found = last or found
    told.put(count)
    peer.settimeout(0.8)
    with contextlib.suppress(OSError):
        while True:
            peer.sendall(HEARTBEAT)
            with contextlib.suppress(TimeoutError):
                while peer.recv(TURN):
                    pass


def end_of_rows(o, what, spread, bound):
    """Many rows that end together, under a filter that all meet and a ranked list."""
    count = 100_000 if o.quick else 1_000_000
    more = "rank top t gpc0 10\nfilter f t data.gpc0 ge 1\n"
    with Collector.of(o.program, config(["sane", "p0"], more)) as collector:
        beside, told = Beside(collector.peers), FORK.Queue()
        ends = time.monotonic() + (12 if o.quick else 90)
        sender = FORK.Process(target=ending, daemon=True, args=(collector.peers, "p0", count, ends, spread, told))
        sender.start()
        pushed = told.get(timeout=120)
        beside.calm(max(0, ends - 1 - time.monotonic()))
        time.sleep(max(0, ends - 0.3 - time.monotonic()))
        held = collector.resident()
        beside.forget()
        start = time.monotonic()
        left, unwell = count, 0
        while left > 1 and time.monotonic() - start < 90:
            time.sleep(0.25)
            unwell += get(collector.http, "/healthz")[0] != 200
            with contextlib.suppress(OSError):
                left = int(collector.info(timeout=30)["rows"])
        took = time.monotonic() - start - 0.3
        beside.calm()
        text, worst, silence, lost = seen_by(beside)
        beside.stop()
        sender.kill()
    good = pushed == count and left <= 1 and worst < bound and silence < SILENCE and not lost
    return good, (f"{pushed} rows end {what}: all gone after {took:.1f} s, /healthz failed {unwell} times; {text}, "
                  f"{mega(held)} (bounds {bound} s, {SILENCE} s)")


@attack
def ends_in_a_second(o):
    """A million rows that end within a second."""
    yield end_of_rows(o, "within a second", 1.0, ACK)


@attack
def ends_at_once(o):
    """A million rows that end within some milliseconds: they can't be parted, but no peer may be left in silence."""
    yield end_of_rows(o, "at one moment", 0.0, 15.0)


# What the system refuses


@attack
def threads_refused(o):
    """The system starts no more threads: a caller is closed within a second, and its descriptor comes back."""
    with (tempfile.TemporaryDirectory() as folder,
          few_threads(o.program, config(["later"]), folder) as collector):
        before, callers = collector.descriptors(), []
        for _ in range(100 if o.quick else 300):
            callers.append(socket.create_connection(("127.0.0.1", collector.peers), timeout=5))
        time.sleep(1)
        closed = closed_of(callers)
        for caller in callers:
            caller.close()
        time.sleep(6)  # (those that have a thread wait 5 s for a hello)
        after, wrong = collector.descriptors(), unserved(collector, "later")
        waiting = collector.info()["waiting"]
    # (a few of them have a thread, and may stay)
    good = closed >= len(callers) - 4 and after <= before + 2 and not wrong and waiting == "0"
    yield good, (f"{closed} of {len(callers)} callers closed within a second, descriptors {before} before and {after} "
                 f"after, waiting {waiting}; {wrong or 'all served again'} (bound all but those with a thread)")


class Beating(threading.Thread):
    """Peers that send a heartbeat each half a second and read what comes."""

    def __init__(self, port, names):
        super().__init__(daemon=True)
        self.peers, self.done = [seated(port, name) for name in names], threading.Event()
        for peer in self.peers:
            peer.setblocking(False)
        self.start()

    def run(self):
        while not self.done.wait(0.5):
            for peer in list(self.peers):
                try:
                    peer.sendall(HEARTBEAT)
                    if not peer.recv(TURN):
                        self.peers.remove(peer)
                except BlockingIOError:
                    continue
                except OSError:
                    self.peers.remove(peer)


@attack
def stopped(o):
    """The process is stopped for 8 s beside peers that beat: it goes on, and leaves none of them."""
    names = [f"p{number}" for number in range(5)]
    with Collector.of(o.program, config(["sane", "later", *names])) as collector:
        beating = Beating(collector.peers, names)
        time.sleep(1)
        collector.process.send_signal(signal.SIGSTOP)
        time.sleep(8)
        collector.process.send_signal(signal.SIGCONT)
        time.sleep(3)
        left, status = len(beating.peers), collector.process.poll()
        wrong = unserved(collector, "later") if status is None else f"it ended with {status}"
        beating.done.set()
    yield left == 5 and not wrong, f"{left} of 5 peers stayed; {wrong or 'all served'}"


@attack
def socket_mode(o):
    """The Unix socket's mode from the moment that it is there, over many starts with umask 0."""
    starts = 60 if o.quick else 200
    with tempfile.TemporaryDirectory() as folder:
        path, done, found = f"{folder}/admin", FORK.Event(), FORK.Queue()
        looking = FORK.Process(target=look_at, args=(path, done, found), daemon=True)
        looking.start()
        for _ in range(starts):
            with Collector.of(o.program, config(["sane"]), options=["--admin-socket", path], umask=0):
                time.sleep(0.01)
            os.unlink(path)
        done.set()
        seen = found.get(timeout=10)
        looking.join()
    wide = {mode: count for mode, count in seen.items() if mode & 0o007}
    told = ", ".join(f"{mode:o} {count} times" for mode, count in sorted(seen.items()))
    yield bool(seen) and not wide, f"{starts} starts: {told} (bound: nothing for others)"


@attack
def no_standard_error(o):
    """Standard error is closed when it starts: no socket takes its place, and it serves."""
    with tempfile.TemporaryDirectory() as folder:
        script = pathlib.Path(folder) / "closed"
        script.write_text(f'#!/bin/sh\nexec "{o.program}" "$@" 2>&-\n')
        script.chmod(0o755)
        with Collector.of(script, config(["sane", "later"])) as collector:
            try:
                second = os.readlink(f"/proc/{collector.process.pid}/fd/2")
            except OSError:
                second = "closed"
            wrong = unserved(collector, "later")
    yield not wrong and not second.startswith("socket:"), f"descriptor 2 is {second}; {wrong or 'all served'}"


# Floods of lines


def lines_of(o, names, seconds, bound, act):
    """The lines that a collector writes while something is done over and over."""
    with tempfile.TemporaryFile() as log:
        with Collector.of(o.program, config(names), log=log) as collector:
            start, times = time.monotonic(), 0
            while time.monotonic() - start < seconds:
                times += act(collector, times)
            took = time.monotonic() - start
            time.sleep(1.5)
        log.seek(0)
        lines = log.read().splitlines()
    lost = sum(int(it) for line in lines for it in re.findall(rb"log lines lost count=(\d+)", line))
    return len(lines) <= bound, (f"{times} times in {took:.0f} s: {len(lines)} lines, {len(lines) * 60 / took:.0f} a "
                                 f"minute{f', {lost} lost' if lost else ''} (bound {bound})")


@attack
def log_flaps(o):
    """A session that defines its table as another kind of keys, over and over."""
    held = {}

    def act(collector, _):
        if "peer" not in held:
            held["peer"] = seated(collector.peers, "p0")
            held["peer"].setblocking(False)
        both = definition(kind=5, length=16) + rows(1, [1], 1) + definition() + rows(2, [1], 1)
        with contextlib.suppress(BlockingIOError):
            held["peer"].send(both * 50)
        with contextlib.suppress(BlockingIOError):
            held["peer"].recv(TURN)
        time.sleep(0.002)
        return 50
    yield lines_of(o, ["p0"], 4 if o.quick else 20, 140, act)


@attack
def log_duplicates(o):
    """Two connections of one name, one ending the other."""
    held = []

    def act(collector, _):
        held.append(seated(collector.peers, "p0"))
        if len(held) > 1:
            it = held.pop(0)
            if it:
                it.close()
        return 1
    yield lines_of(o, ["p0"], 4 if o.quick else 20, 260, act)


@attack
def log_strangers(o):
    """Connections of nobody, of one address and of many."""
    def call(collector, source):
        with contextlib.suppress(OSError):
            with socket.create_connection(("127.0.0.1", collector.peers), timeout=2, source_address=source) as peer:
                peer.sendall(b"GET / HTTP/1.1\r\n")
        return 1
    seconds = 4 if o.quick else 20
    good, text = lines_of(o, ["p0"], seconds, 140, lambda collector, _: call(collector, None))
    yield good, f"one address: {text}"
    good, text = lines_of(o, ["p0"], seconds, 680, lambda collector, times: call(
        collector, (f"127.0.{times % 7}.{1 + times % 250}", 0)))
    yield good, f"many addresses: {text}"


@attack
def check_faults(o):
    """`check` of a file with many faulty lines."""
    count, most = (20_000 if o.quick else 100_000), (20 if o.quick else 120)
    text = "name agg\n" + "peer\n" * (count // 2) + "".join(f"peer p{number}\n" for number in range(count // 2))
    start = time.monotonic()
    try:
        done = subprocess.run([o.program, "check"], input=text.encode(), capture_output=True, timeout=most)
        status, lines = done.returncode, done.stdout.count(b"\n")
    except subprocess.TimeoutExpired:
        status, lines = "not ended", 0
    took = time.monotonic() - start
    yield status == 3 and took < 5, f"{count} lines: status {status}, {lines} faults told, {took:.1f} s (bound 5 s)"


# Memory that is given back


@attack
def memory_back(o):
    """What memory is left after a clear, after filters are dropped, and after half of the rows ended, in the unit's
    environment; and that the same rows again take no more."""
    count = 200_000 if o.quick else 1_000_000
    data = rows(1, scattered(count), 7)
    with Collector.of(o.program, config(["sane", "p0", "p1", "p2"]), env=of_unit()) as collector:
        empty, peaks, after = collector.resident(), [], []
        for name in ("p0", "p1", "p2"):
            with Pushed(collector.peers, [name], data, count):
                peaks.append(collector.resident())
                collector.ask("clear table t")
                time.sleep(1.5)
                after.append(collector.resident())
    good = peaks[2] < peaks[0] * 1.1 and after[0] < empty + (peaks[0] - empty) / 4
    yield good, (f"{count} rows, cleared three times: {mega(empty)} empty, {', '.join(map(mega, peaks))} full, "
                 f"{mega(after[0])} after the first clear (bounds a tenth more, a quarter of it kept)")
    yield dropped_filters(o, count, data)
    yield half_ended(o, count)


def dropped_filters(o, count, data):
    """Nine filters, or three, that all keys meet come and go twice."""
    filters = 3 if o.quick else 9
    with (Collector.of(o.program, config(["sane", "p0"]), env=of_unit()) as collector,
          Pushed(collector.peers, ["p0"], data, count)):
        before, found = collector.resident(), []
        for _ in range(2):
            for number in range(filters):
                collector.ask(f"add filter f{number} t data.gpc0 ge 1", timeout=120)
            found.append(collector.resident())
            for number in range(filters):
                collector.ask(f"del filter f{number}", timeout=120)
            time.sleep(1.5)
            found.append(collector.resident())
    good = found[2] < found[0] * 1.1 and found[1] < before + (found[0] - before) / 2
    return good, (f"{filters} filters that {count} keys meet: {mega(before)} before, {mega(found[0])} with them, "
                  f"{mega(found[1])} without, {mega(found[2])} with them again (bounds a tenth more, half of it kept)")


def half_ended(o, count):
    """Half of the rows end."""
    keys = scattered(count)
    data = b"".join(rows(at + 1, keys[at:at + 1000], 7, 6000 if at // 1000 % 2 else HOUR)
                    for at in range(0, count, 1000))
    with (Collector.of(o.program, config(["sane", "p0"]), env=of_unit()) as collector,
          Pushed(collector.peers, ["p0"], data, count)):
        full = collector.resident()
        time.sleep(9)
        left, after = int(collector.info()["rows"]), collector.resident()
    return left == count // 2 and after < full * 1.1, (
        f"half of {count} rows ended: {mega(full)} full, {mega(after)} with {left} left (bound a tenth more)")


def run(names, o):
    """Runs attacks one behind the other; how many held and how many didn't."""
    held, failed = 0, 0
    for name in names:
        found = iter(ATTACKS[name](o))
        while True:
            signal.alarm(240 if o.quick else 1200)
            try:
                good, text = next(found)
            except StopIteration:
                break
            except (OSError, RuntimeError, KeyError, ValueError, AttributeError, queue.Empty) as fault:
                good, text = False, f"it broke off: {type(fault).__name__}: {fault}"
            held, failed = held + bool(good), failed + (not good)
            print(f"{'held  ' if good else DIDNT}  {name}: {text}", flush=True)
    signal.alarm(0)
    return held, failed


def too_long(*_):
    """Breaks off an attack that takes much longer than it may."""
    raise TimeoutError("it takes too long")


def main():
    words = argparse.ArgumentParser(description=__doc__, formatter_class=argparse.RawDescriptionHelpFormatter)
    words.add_argument("program", nargs="?", default=COLLECTOR, type=pathlib.Path)
    words.add_argument("--quick", action="store_true", help="smaller numbers, two minutes in all")
    words.add_argument("--only", action="append", metavar="NAME", help="this attack; may be repeated")
    words.add_argument("--list", action="store_true", help="print the attacks' names and end")
    o = words.parse_args()
    if o.list:
        for name, function in ATTACKS.items():
            print(f"{name:18} {' '.join(function.__doc__.split())}")
        return
    unknown = [name for name in o.only or [] if name not in ATTACKS]
    if unknown:
        words.error(f"no attack {unknown[0]}: they are {', '.join(ATTACKS)}")
    wants(program=o.program)
    o.program = o.program.resolve()
    ends_cleanly()
    signal.signal(signal.SIGALRM, too_long)
    resource.setrlimit(resource.RLIMIT_NOFILE, (4096, resource.getrlimit(resource.RLIMIT_NOFILE)[1]))
    held, failed = run(o.only or list(ATTACKS), o)
    print(f"{held} held, {failed} didn't")
    sys.exit(1 if failed else 0)


if __name__ == "__main__":
    main()
