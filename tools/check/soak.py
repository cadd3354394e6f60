#!/usr/bin/env python3
"""Keeps a collector busy for a long time, and compares its answers with what they have to be.

    tools/check/soak.py [--collector crates/aggregator/out/aggregator] [--minutes 60] [--pause 0]

Eight peers push random updates, are lost and come back; others send garbage; an admin clears keys, one by one and by a
condition; filters come and go, and one is pushed to a proxy. One admin and one client over HTTP look without a pause.
Twice, after a twelfth of the time and after half of it, a limit of addresses is set and a flood of new keys hits it. A
collector that then ends itself with status 5 is started again, as its unit does, whose environment it has.

Every half a minute all acknowledgements are awaited, and the collector's whole table, the sets of all filters, what the
proxy was told, and the ranked list, from the admin address and over HTTP, are compared with those of the updates that
were sent. The status is 1 where an answer was wrong, where a peer, an admin, /healthz or the clock wasn't served for a
minute, where nobody looked meanwhile, where the flood didn't hit its limit, or where resident memory at the end is more
than a tenth above what it was after ten minutes (a sixth of a shorter time). The last line says that all was right, or
what wasn't. With a pause, in seconds, between one peer's push and the next one's it leaves the machine to others, too.
It wants a built program, and no haproxy.
"""

import argparse
import collections
import contextlib
import json
import pathlib
import random
import signal
import socket
import struct
import sys
import tempfile
import time

sys.path.insert(0, str(pathlib.Path(__file__).resolve().parents[1]))

from lib.asking import ask
from lib.beside import FORK, TURN, get, last_of, seated
from lib.collector import COLLECTOR, Collector, free_ports
from lib.needs import ends_cleanly, wants
from lib.peers_protocol import UPDATE, message, put_int
from lib.surviving import PATIENCE, cleared, flooded, of_unit, unlimited, unserved
from lib.told import Proxied

CONFIG = """name agg
{peers}
table t type ip size 100000 store gpc0
table u type ip size 1000000 store gpc0
filter every u data.gpc0 ge 1
filter high t data.gpc0 ge 1000
rank most t gpc0 20
push high
"""
PEERS = [f"lb{number}" for number in range(1, 9)]
OTHERS = ["garbage", "flood", "told", "later"]
KEYS = 20000
LONG = 4  # s; a peer is ended that was silent for 5
LATE = 60  # s in which an update has to be acknowledged
FILTERS = 6


def text_of(number):
    """A key's text."""
    return socket.inet_ntoa(struct.pack(">I", 0x0A000000 + number))


class Sender:
    """A peer, and the rows that the collector has to hold of it."""

    def __init__(self, name, port):
        self.name, self.port, self.rows, self.peer, self.worst = name, port, {}, None, 0.0
        self.connect()

    def connect(self):
        """Dials until it is accepted, for a minute at most."""
        ends = time.monotonic() + LATE
        self.peer, self.sent, self.unread = None, 0, b""
        while not self.peer:
            with contextlib.suppress(OSError):
                self.peer = seated(self.port, self.name)
            if not self.peer and time.monotonic() > ends:
                raise TimeoutError(f"{self.name} isn't accepted")
            time.sleep(0 if self.peer else 0.2)
        self.spoke = time.monotonic()

    def push(self, updates):
        """Sends updates, as pairs of a key and its count, and waits for their acknowledgement."""
        out = bytearray()
        for key, value in updates:
            self.sent += 1
            out += message(UPDATE, struct.pack(">II", self.sent, 0x0A000000 + key) + put_int(value))
        start, done, view = time.monotonic(), 0, memoryview(out)
        self.peer.settimeout(0.05)
        while done != self.sent:
            with contextlib.suppress(TimeoutError):
                view = view[self.peer.send(view[:TURN]):] if view else view
            with contextlib.suppress(TimeoutError):
                more = self.peer.recv(TURN)
                if not more:
                    raise ConnectionError("it was closed")
                found, self.unread = last_of(self.unread + more)
                done = found or done
            if time.monotonic() - start > LATE:
                raise TimeoutError(f"{self.name} isn't acknowledged in {LATE} s")
        self.spoke = time.monotonic()
        self.worst = max(self.worst, self.spoke - start)

    def push_some(self, draw):
        """Pushes some random updates; how many. One that was put aside for so long that the collector may have ended it
        for its silence calls again first, as a proxy does."""
        if time.monotonic() - self.spoke > LONG:
            self.lose()
        some = [(draw.randrange(KEYS), draw.randrange(600)) for _ in range(draw.randrange(1, 3000))]
        self.rows.update(some)
        try:
            self.push(some)
        except ConnectionError:
            self.teach()
        return len(some)

    def teach(self):
        """Calls again until all that it holds is acknowledged, as a proxy teaches what it holds."""
        for _ in range(20):
            self.lose()
            with contextlib.suppress(ConnectionError):
                self.push(list(self.rows.items()))
                return
            time.sleep(0.5)
        raise TimeoutError(f"{self.name} can't teach what it holds")

    def lose(self):
        """Is lost and comes back."""
        self.peer.close()
        self.connect()


def garbage(port, draw):
    """A connection that sends what is no stream, with or without a hello."""
    with contextlib.suppress(OSError), socket.create_connection(("127.0.0.1", port)) as peer:
        if draw.random() < 0.5:
            peer.sendall(b"HAProxyS 2.1\nagg\ngarbage 1 1\n")
        peer.sendall(draw.randbytes(draw.randrange(1, 5000)))


def look_on(admin, http, done, looks):
    """Asks without a pause, an admin and over HTTP, and counts what was answered."""
    signal.signal(signal.SIGINT, signal.SIG_IGN)
    paths = ("/metrics", "/api/v1/overview", "/api/v1/tables/t?limit=10", "/api/v1/ranks/most")
    turn = 0
    while not done.is_set():
        with contextlib.suppress(OSError):
            ask(("127.0.0.1", admin), "show table t data.gpc0 gt 4000", timeout=30)
            looks[0] += 1
        looks[1] += get(http, paths[turn % 4], timeout=30)[0] == 200
        turn += 1


def soon(test):
    """Whether a test holds within a minute: proxies are told a moment later, and a busy machine takes its time."""
    ends = time.monotonic() + LATE
    while not (held := test()) and time.monotonic() < ends:
        time.sleep(0.1)
    return held


class Soak:
    """A collector, who pushes to it, and what was sent."""

    def __init__(self, program, folder, draw):
        self.program, self.draw, self.total = program, draw, 0
        self.ports, self.config = free_ports(3), pathlib.Path(folder) / "soak.conf"
        self.config.write_text(CONFIG.format(peers="\n".join(f"peer {name}" for name in [*PEERS, *OTHERS])))
        self.filters, self.made, self.restarts = {}, 0, 0
        self.looks, self.looked = FORK.Array("Q", 2), [0, 0]
        self.start()
        self.senders = [Sender(name, self.ports[0]) for name in PEERS]

    def start(self):
        """Starts the collector, and what looks at it."""
        peers, admin, http = self.ports
        options = ["--http", f"127.0.0.1:{http}"]
        self.collector = Collector(self.program, peers, admin, self.config, options=options, env=of_unit())
        self.collector.http = http
        self.told, self.done = Proxied(peers, "told"), FORK.Event()
        self.looking = FORK.Process(target=look_on, args=(admin, http, self.done, self.looks), daemon=True)
        self.looking.start()

    def stop(self):
        """Ends what looks at it."""
        self.done.set()
        self.looking.join(5)
        self.looking.kill()

    def clear(self):
        """Clears one key, or those that a condition selects."""
        if self.draw.random() < 0.9:
            keys = [self.draw.randrange(KEYS)]
            self.collector.ask(f"clear table t key {text_of(keys[0])}")
        else:
            bound = self.draw.randrange(2500, 4000)
            keys = [key for key, value in self.sums().items() if value >= bound]
            self.collector.ask(f"clear table t data.gpc0 ge {bound}")
        for sender in self.senders:
            for key in keys:
                sender.rows.pop(key, None)

    def turn_filters(self):
        """Adds a filter, and deletes the oldest where there are many."""
        self.made += 1
        name, bound = f"f{self.made}", self.draw.randrange(1, 3000)
        self.filters[name] = bound
        self.collector.ask(f"add filter {name} t data.gpc0 ge {bound}")
        if len(self.filters) > FILTERS:
            oldest = next(iter(self.filters))
            del self.filters[oldest]
            self.collector.ask(f"del filter {oldest}")

    def sums(self):
        """Each key's sum of all that was sent."""
        total = collections.Counter()
        for sender in self.senders:
            total.update(sender.rows)
        return total

    def round(self, seconds, pause):
        """Half a minute of everything."""
        ends = time.monotonic() + seconds
        while time.monotonic() < ends:
            time.sleep(pause)
            sender = self.draw.choice(self.senders)
            self.total += sender.push_some(self.draw)
            if self.draw.random() < 0.02:
                sender.lose()
            if self.draw.random() < 0.05:
                garbage(self.ports[0], self.draw)
            if self.draw.random() < 0.1:
                self.clear()
            if self.draw.random() < 0.02:
                self.turn_filters()

    def starve(self, patience):
        """A flood hits a limit of addresses within so many seconds, and it is taken away again; what was seen."""
        held, _ = flooded(self.collector, ["flood"], 70, 3, "u", patience)
        took = cleared(self.collector, 16, "u")
        status = self.collector.process.poll()
        if took is not None:
            unlimited(self.collector)
        elif status == 5:
            self.restarts += 1
            self.stop()
            self.filters = {}
            self.start()
        else:
            raise RuntimeError(f"no clear is answered after a flood, status {status}")
        for sender in self.senders:
            sender.teach()
        then = "it was started again" if status == 5 else f"a clear was answered after {took:.1f} s"
        return f"a limit was hit at {held >> 20} MB, and {then}"

    def wrong(self):
        """What is answered otherwise than the updates say, or isn't served, or nothing."""
        total = self.sums()
        rows = {key: int(row["gpc0"]) for key, row in self.collector.rows("t").items()}
        if rows != {text_of(key): value for key, value in total.items()}:
            return f"show table: {len(rows)} keys for {len(total)}"
        for name, bound in {"high": 1000, **self.filters}.items():
            if self.collector.keys(name) != {text_of(key) for key, value in total.items() if value >= bound}:
                return f"show filter {name}"
        first = [text_of(key) for key in sorted(total, key=lambda key: (-total[key], key))[:20]]
        if self.collector.rank("most") != first:
            return "show rank"
        if self.told.is_over:
            self.told = Proxied(self.ports[0], "told")
        high = {0x0A000000 + key for key, value in total.items() if value >= 1000}
        if not soon(lambda: self.told.keys == high):
            return f"what a proxy was told: {len(self.told.keys)} keys for {len(high)}"
        answers = []
        if not soon(lambda: answers.append(self.ranked()) or answers[-1] == first) and any(answers):
            return "the ranked list over HTTP"
        return self.unseen() or self.unserved()

    def unserved(self):
        """Who isn't served for a minute, or nothing: on a busy machine one try may come too late."""
        ends = time.monotonic() + LATE
        while (missing := unserved(self.collector, "later", LATE / 3)) and time.monotonic() < ends:
            time.sleep(1)
        return missing

    def ranked(self):
        """The ranked list's keys over HTTP; None where there were too many looks, as others look without a pause."""
        status, body, _ = get(self.ports[2], "/api/v1/ranks/most")
        return [entry["key"] for entry in json.loads(body)["entries"]] if status == 200 else None

    def unseen(self):
        """Who of those that look without a pause was answered nothing since the last time, or nothing."""
        before, self.looked = self.looked, list(self.looks)
        looked = zip(("an admin", "a client over HTTP"), self.looked, before)
        missing = [who for who, now, then in looked if now == then]
        return f"{' and '.join(missing)} wasn't answered any look" if missing else ""

    def line(self, wrong):
        """A line of how it stands."""
        worst = max(sender.worst for sender in self.senders)
        for sender in self.senders:
            sender.worst = 0.0
        return (f"{self.total} updates, {self.collector.resident() >> 20} MB, "
                f"{self.collector.descriptors()} descriptors, {self.collector.threads()} threads, longest push "
                f"{worst:.1f} s, {sum(self.looked)} looks answered: {wrong or 'right'}")


def soak(options, folder):
    """Rounds until the time is over; what was wrong, or nothing."""
    run = Soak(options.collector, folder, random.Random(options.seed))
    start, whole, early = time.monotonic(), 60 * options.minutes, None
    starving = [whole / 12, whole / 2]
    try:
        while time.monotonic() - start < whole:
            run.round(min(30, whole / 12), options.pause)
            if starving and time.monotonic() - start > starving[0]:
                starving.pop(0)
                print(run.starve(max(PATIENCE, whole / 4)), flush=True)
            wrong = run.wrong()
            print(run.line(wrong), flush=True)
            if wrong:
                return wrong
            if early is None and time.monotonic() - start > min(600, whole / 6) and len(starving) < 2:
                early = run.collector.resident()
        late = run.collector.resident()
        if late > early * 1.1:
            return f"{late >> 20} MB at the end, and {early >> 20} MB at first"
        print(f"all right: {late >> 20} MB at the end, {early >> 20} MB at first; started again {run.restarts} times")
    except (OSError, RuntimeError) as fault:
        return f"{type(fault).__name__}: {fault}"
    finally:
        run.stop()
        run.collector.process.kill()
    return ""


def main():
    words = argparse.ArgumentParser(description=__doc__, formatter_class=argparse.RawDescriptionHelpFormatter)
    words.add_argument("--collector", default=COLLECTOR)
    words.add_argument("--minutes", type=float, default=60)
    words.add_argument("--pause", type=float, default=0)
    words.add_argument("--seed", type=int, default=1)
    options = words.parse_args()
    wants(program=options.collector)
    ends_cleanly()
    with tempfile.TemporaryDirectory() as folder:
        wrong = soak(options, folder)
    if wrong:
        print(f"wrong: {wrong}")
        sys.exit(1)


if __name__ == "__main__":
    main()
