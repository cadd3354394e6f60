#!/usr/bin/env python3
"""Times what keys and lives cost that a hostile client chooses, each beside harmless ones in the same run.

    tools/time/hostile_keys.py [--collector crates/aggregator/out/aggregator] [--keys 1000000] [--only NAME]

It starts the collector anew for each line that it prints, and pushes each key once and then once more:

    colliding   keys of five bytes whose hashes agree in the twelve bits by which they are looked for first
    lives       lives of 1 ms and of 49 days in turn
    strangers   a table that holds a tenth of the keys, so that most new ones find no room
    peers       one key that 256 peers hold, each of which pushes it over and over
    long        keys of 256 bytes

A line says what an update of the first push and of the second took, in µs, and the resident memory that a key took. It
wants a built program, compares nothing and ends with 0.
"""

import argparse
import bisect
import itertools
import pathlib
import struct
import sys
import tempfile

sys.path.insert(0, str(pathlib.Path(__file__).resolve().parents[1]))

from lib.collector import COLLECTOR, resident
from lib.needs import ends_cleanly, wants
from lib.peers_protocol import DEFINE, TIMED, UPDATE, message, put_int
from lib.pushing import InTurn, Peer
from lib.receivers import listen

ADDRESS, STRING, BINARY = 4, 6, 7  # kinds of keys, as a definition tells them
DAYS = 49 * 86400 * 1000  # ms
STEP, BEGIN = 11400714819323198485, 14695981039346656037  # of the index's hash, a byte after the other
BITS = 12
SCATTER = 2147483647


def stepped(state, byte):
    """The hash's state behind one byte more."""
    return (state ^ byte) * STEP % (1 << 64)


def colliding(count):
    """Keys of five bytes whose hashes have their lowest bits 0: what two last bytes add to a state is looked up."""
    size = 1 << 32 + BITS
    added = sorted(((first * STEP * STEP + last * STEP) % size, first, last)
                   for first in range(-255, 256) for last in range(-255, 256))
    sums = [entry[0] for entry in added]
    keys = []
    for head in itertools.product(range(256), repeat=3):
        state = BEGIN
        for byte in head:
            state = stepped(state, byte)
        begin = -state * STEP * STEP % size
        at = bisect.bisect_left(sums, begin)
        while at < len(sums) and sums[at] < begin + (1 << 32):
            key = ended(state, added[at][1], added[at][2])
            if key:
                keys.append(bytes(head) + key)
                if len(keys) == count:
                    return keys
            at += 1
    return keys


def ended(state, first, last):
    """The two last bytes that add so much to the state, if there are any."""
    low = state & 255
    if not 0 <= low + first < 256:
        return None
    one = (low + first) ^ low
    low = stepped(state, one) & 255
    if not 0 <= low + last < 256:
        return None
    return bytes([one, (low + last) ^ low])


def scattered(count, form):
    """So many keys, in an order that has nothing to do with their bytes."""
    return [form((place * SCATTER) % count) for place in range(count)]


def definition(kind, length):
    """A table `t` of such keys with gpc0 and an expiry of ten minutes."""
    return message(DEFINE, b"\x01\x01t" + put_int(kind) + put_int(length) + put_int(4) + put_int(600000))


def updates(first, keys, kind, lives=None):
    """The bytes of an update of each key, with ids from `first` on; with lives in turn, where there are any."""
    out = bytearray()
    for place, key in enumerate(keys):
        head = struct.pack(">I", first + place)
        own = put_int(len(key)) + key if kind == STRING else key
        if lives:
            life = struct.pack(">I", lives[place % len(lives)])
            out += message(TIMED, head + life + own + b"\x07")
        else:
            out += message(UPDATE, head + own + b"\x07")
    return bytes(out)


def measure(program, name, what, table, kind, length, keys, lives=None, peers=1):
    """Pushes each key twice into a collector of this table, and prints what that took."""
    names = [f"lb{number + 1}" for number in range(peers)]
    text = "name agg\n" + "".join(f"peer {name}\n" for name in names) + f"table t {table} store gpc0\n"
    with tempfile.TemporaryDirectory() as folder:
        process, address, _ = listen(program, folder, text)
        try:
            before = resident(process.pid)
            pusher = InTurn(address, names, "agg") if peers > 1 else Peer(address, names[0], "agg")
            count = len(keys)
            new = pusher.push(definition(kind, length) + updates(1, keys, kind, lives), count)
            took = resident(process.pid) - before
            held = pusher.push(updates(count + 1, keys, kind, lives), 2 * count)
        finally:
            process.terminate()
            process.wait()
    pushed, known = count * peers, len(set(keys))
    size = f"{took / known:.0f} bytes a key" if known > 1 else f"{took / 1e6:.1f} MB for the key"
    print(f"{name}, {what}: new {new / pushed * 1e6:.2f} us, held {held / pushed * 1e6:.2f} us, {size}", flush=True)


def main():
    words = argparse.ArgumentParser(description=__doc__, formatter_class=argparse.RawDescriptionHelpFormatter)
    words.add_argument("--collector", default=COLLECTOR)
    words.add_argument("--keys", type=int, default=1000000)
    words.add_argument("--only")
    options = words.parse_args()
    wants(program=options.collector)
    ends_cleanly()
    count = options.keys
    five = lambda number: struct.pack(">Q", number)[3:]
    address = lambda number: struct.pack(">I", number)
    long = lambda number: b"%0256d" % number
    few = min(count, 100000)
    plain, one = scattered(count, address), [address(1)] * 20000
    ip, binary, string = f"type ip size {count}", f"type binary len 5 size {count}", f"type string len 256 size {few}"
    cases = [
        ("colliding", "harmless", binary, BINARY, 5, lambda: scattered(count, five), {}),
        ("colliding", "hostile", binary, BINARY, 5, lambda: colliding(count), {}),
        ("lives", "harmless", ip, ADDRESS, 4, lambda: plain, {}),
        ("lives", "hostile", ip, ADDRESS, 4, lambda: plain, {"lives": (1, DAYS)}),
        ("strangers", "hostile", f"type ip size {count // 10}", ADDRESS, 4, lambda: plain, {}),
        ("peers", "one", ip, ADDRESS, 4, lambda: one, {}),
        ("peers", "256", ip, ADDRESS, 4, lambda: one, {"peers": 256}),
        ("long", "harmless", f"type ip size {few}", ADDRESS, 4, lambda: scattered(few, address), {}),
        ("long", "hostile", string, STRING, 256, lambda: scattered(few, long), {}),
    ]
    for name, what, table, kind, length, keys, more in cases:
        if options.only in (None, name):
            measure(options.collector, name, what, table, kind, length, keys(), **more)


if __name__ == "__main__":
    main()
