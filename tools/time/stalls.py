#!/usr/bin/env python3
"""Measures how long the collector lets a proxy wait, at rest and while it has much to do.

    tools/time/stalls.py --collector crates/aggregator/out/aggregator
    tools/time/stalls.py --collector crates/aggregator/out/aggregator --only looks --senders 20 --table 100000

A peer with a key of its own sends an update every 5 ms and waits for its acknowledgement. The mean, the 99th of 100
and the longest of these waits are printed for each of:

    rest    a table of `--keys` rows, and nothing to do
    count   `add filter` on a count that few of these keys meet
    rate    the same on a rate
    clear   `clear table` of them all
    ends    as many rows that end at one moment
    looks   `--senders` peers that push the same `--table` keys over and over, beside no admin, one, and four that ask
            a conditional `show table`, or what `--ask` says, without a pause; and what the peers bring then, as a
            share of what they bring beside none

With `--filter all` a filter on a rate stands that all keys meet, and with `few` one that few meet. It wants a built
program, compares nothing and ends with 0.
"""

import argparse
import multiprocessing
import pathlib
import statistics
import struct
import sys
import tempfile
import threading
import time

sys.path.insert(0, str(pathlib.Path(__file__).resolve().parents[1]))

from lib.needs import ends_cleanly, wants
from lib.peers_protocol import TIMED_INCREMENTAL, message, put_int
from lib.pushing import SCATTER, Peer, definition, updates
from lib.receivers import FILTERS as STANDING, start_collector

PHASES = ("rest", "count", "rate", "clear", "ends", "looks")
LIFE = 600000
PIECE = 500
FILTERS = {
    "count": "add filter few_by_count t data.conn_cnt gt 100",
    "rate": "add filter few_by_rate t data.http_req_rate gt 100000",
}
LOOK = "show table t data.gpc0 gt 1000"


class Probe(threading.Thread):
    """A peer that sends an update every 5 ms, and keeps how long each acknowledgement took."""

    def __init__(self, address):
        super().__init__(daemon=True)
        self.peer = Peer(address, "probe", "agg")
        self.peer.push(definition(LIFE) + updates(1, [0xF00000]), 1)
        self.waits, self.done = [], threading.Event()

    def run(self):
        last = 1
        while not self.done.is_set():
            last += 1
            self.waits.append(self.peer.push(updates(last, [0xF00000]), last) * 1e3)
            time.sleep(0.005)

    def end(self, name, more=""):
        self.done.set()
        self.join()
        self.peer.socket.close()
        waits = sorted(self.waits)
        late = waits[min(len(waits) * 99 // 100, len(waits) - 1)]
        print(f"{name}: mean {statistics.mean(waits):.1f} ms, 99th of 100 {late:.1f} ms, longest {waits[-1]:.1f} ms, "
              f"{len(waits)} updates{more}", flush=True)


def begin(address):
    probe = Probe(address)
    probe.start()
    time.sleep(0.5)
    return probe


def fill(address, keys):
    """One peer's rows, which live ten minutes."""
    # (first what takes long: a peer that says nothing for 5 s is ended)
    rows = definition(LIFE) + updates(1, [(place * SCATTER) % keys for place in range(keys)])
    peer = Peer(address, "lb1", "agg")
    peer.push(rows, keys)
    return peer


def at_rest(address, seconds):
    probe = begin(address)
    time.sleep(seconds)
    probe.end("rest")


def asked_once(address, ask, name, question):
    """An admin's one command."""
    probe = begin(address)
    start = time.perf_counter()
    answer = ask(question)
    took = time.perf_counter() - start
    time.sleep(1)
    probe.end(name, f"; answered in {took * 1e3:.0f} ms")
    if answer.startswith("refused"):
        sys.exit(f"{question}: {answer}")


def row_behind_life(number):
    return struct.pack(">I", 0x0A000000 + number) + put_int(7) + put_int(9) + put_int(0) + put_int(40) + put_int(30)


def at_one_moment(address, keys):
    """Rows that all end ten seconds after the first was sent."""
    rows = [row_behind_life((place * SCATTER) % keys) for place in range(keys)]
    peer = Peer(address, "lb1", "agg")
    head = message(TIMED_INCREMENTAL, bytes(4) + rows[0])[:-4 - len(rows[0])]
    peer.push(definition(LIFE) + updates(1, [0]), 1)
    peer.socket.setblocking(True)
    end = time.monotonic() + 10
    for at in range(0, keys, PIECE):
        life = struct.pack(">I", int((end - time.monotonic()) * 1000))
        peer.socket.sendall(b"".join(head + life + row for row in rows[at:at + PIECE]))
    peer.push(updates(2, [0]), 2)
    probe = begin(address)
    time.sleep(max(end - time.monotonic(), 0) + 3)
    probe.end("ends")


def push_on(address, name, keys, count, done):
    """Pushes the same rows over and over, and counts what was acknowledged."""
    scattered = [(place * SCATTER) % keys for place in range(keys)]
    rows = definition(LIFE) + updates(1, scattered)
    pieces = [updates(keys + 1 + at, scattered[at:at + 5000]) for at in range(0, keys, 5000)]
    ends = [keys + min(at + 5000, keys) for at in range(0, keys, 5000)]
    peer = Peer(address, name, "agg")
    peer.push(rows, keys)
    while not done.is_set():
        for piece, end in zip(pieces, ends):
            peer.push(piece, end)
            with count.get_lock():
                count.value += 5000


def look_on(ask, question, done, took):
    """Asks without a pause."""
    waits = []
    while not done.is_set():
        start = time.perf_counter()
        ask(question)
        waits.append((time.perf_counter() - start) * 1e3)
    took.put(waits)


def beside_admins(address, ask, question, admins, count, seconds):
    """What the peers bring beside so many admins, in updates a second."""
    done, took = multiprocessing.Event(), multiprocessing.Queue()
    askers = [multiprocessing.Process(target=look_on, args=(ask, question, done, took)) for _ in range(admins)]
    for asker in askers:
        asker.start()
    probe = begin(address)
    before, start = count.value, time.perf_counter()
    time.sleep(seconds)
    brought = (count.value - before) / (time.perf_counter() - start)
    done.set()
    waits = [wait for _ in askers for wait in took.get()]
    for asker in askers:
        asker.join()
    looks = f", looks {statistics.mean(waits):.0f} ms, longest {max(waits):.0f} ms" if waits else ""
    probe.end(f"looks, {admins} admins", f"; {brought / 1e6:.2f} million updates/s{looks}")
    return brought


def looks(address, ask, question, senders, keys, seconds):
    count, done = multiprocessing.Value("Q", 0), multiprocessing.Event()
    pushers = [multiprocessing.Process(target=push_on, args=(address, name, keys, count, done)) for name in senders]
    for pusher in pushers:
        pusher.start()
    while count.value < len(senders) * 5000:
        time.sleep(0.5)
    alone = beside_admins(address, ask, question, 0, count, seconds)
    for admins in (1, 4):
        beside = beside_admins(address, ask, question, admins, count, seconds)
        print(f"beside {admins} admins the peers bring {beside / alone:.2f} of what they bring alone", flush=True)
    done.set()
    for pusher in pushers:
        pusher.join()


def over_a_table(address, ask, options, phases):
    """The measurements over one table of many rows, in this order: a clear comes last."""
    keeps = fill(address, options.keys)
    for phase in phases:
        if phase == "rest":
            at_rest(address, options.seconds)
        else:
            asked_once(address, ask, phase, FILTERS.get(phase, "clear table t"))
    keeps.socket.close()


def measure(options, senders, work):
    """Does the work beside a collector of its own."""
    standing = STANDING[options.filter] if options.filter else ""
    with tempfile.TemporaryDirectory() as folder:
        process, address, ask = start_collector(options.collector, ["probe", *senders], folder, standing)
        try:
            work(address, ask)
        finally:
            process.terminate()
            process.wait()


def main():
    words = argparse.ArgumentParser(description=__doc__, formatter_class=argparse.RawDescriptionHelpFormatter)
    words.add_argument("--collector", required=True, help="the aggregator program")
    words.add_argument("--keys", type=int, default=1000000)
    words.add_argument("--table", type=int, default=100000, help="the keys that all senders have")
    words.add_argument("--senders", type=int, default=20)
    words.add_argument("--seconds", type=float, default=5)
    words.add_argument("--ask", default=LOOK, help="what the admins of looks ask")
    words.add_argument("--filter", choices=STANDING, help="which keys a filter of the collector holds")
    words.add_argument("--only", choices=PHASES, action="append", help="one of the measurements; may be repeated")
    options = words.parse_args()
    wants(program=options.collector)
    ends_cleanly()
    phases = [it for it in PHASES if it in (options.only or PHASES)]
    senders = [f"lb{number + 1}" for number in range(max(options.senders, 1))]
    tabled = [it for it in phases if it not in ("ends", "looks")]
    if tabled:
        measure(options, senders, lambda address, ask: over_a_table(address, ask, options, tabled))
    if "ends" in phases:
        measure(options, senders, lambda address, ask: at_one_moment(address, options.keys))
    if "looks" in phases:
        measure(options, senders,
                lambda address, ask: looks(address, ask, options.ask, senders, options.table, options.seconds))


if __name__ == "__main__":
    main()
