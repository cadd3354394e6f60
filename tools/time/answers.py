#!/usr/bin/env python3
"""Times the answers of the collector, or of HAProxy itself, over the same keys.

    tools/time/answers.py --haproxy /usr/sbin/haproxy --keys 100000
    tools/time/answers.py --collector crates/aggregator/out/aggregator --keys 100000
    tools/time/answers.py --collector crates/aggregator/out/aggregator --keys 100000 --peers 20

It speaks as the peer `lb1` to the receiver `agg`, as receiver.py does, and with `--peers` as so many peers that
hold the same keys, which HAProxy isn't asked for. It defines a table `t` of addresses
with gpc0, conn_cnt and http_req_rate(10s). The key of each number n has gpc0 n modulo 200. Then it asks for the
whole table, for the rows of one key in 200, and for one key, each the least of five times, and clears the table.
A time is from the question's first byte to the answer's last; the bytes of each answer are printed too. It wants
the program that is named, compares nothing and ends with 0.
"""

import argparse
import pathlib
import struct
import sys
import tempfile
import time

sys.path.insert(0, str(pathlib.Path(__file__).resolve().parents[1]))

from lib.collector import Collector, free_ports
from lib.needs import ends_cleanly, wants
from lib.peers_protocol import UPDATE, message, put_int
from lib.pushing import Peer, definition
from lib.receivers import COLLECTOR_CONFIG, start_haproxy

EXPIRY = 600000


def questions(peers):
    """The whole table, the rows of one key in 200, and one key, where so many peers hold each key."""
    return ["show table t", f"show table t data.gpc0 gt {199 * peers - 1}", "show table t key 10.0.0.7"]


def stream(keys):
    """The bytes that make each key known."""
    out = bytearray(definition(EXPIRY))
    for number in range(keys):
        key = struct.pack(">I", 0x0A000000 + number)
        values = put_int(number % 200) + put_int(number) + put_int(100) + put_int(30) + put_int(100)
        out += message(UPDATE, struct.pack(">I", number + 1) + key + values)
    return bytes(out)


def timed(question, asked, times):
    """Prints how long an answer takes, the least of some times, and how long it is."""
    took = []
    for _ in range(times):
        start = time.perf_counter()
        answer = asked(question)
        took.append(time.perf_counter() - start)
    print(f"{question}: {min(took) * 1e3:.1f} ms, {len(answer)} bytes")


def measure(address, keys, asked, names):
    data = stream(keys)
    for name in names:
        Peer(address, name, "agg").push(data, keys)
    for question in questions(len(names)):
        timed(question, asked, 5)
    timed("clear table t", asked, 1)


def main():
    words = argparse.ArgumentParser(description=__doc__, formatter_class=argparse.RawDescriptionHelpFormatter)
    words.add_argument("--collector", help="the aggregator program to ask")
    words.add_argument("--haproxy", help="the haproxy program to ask")
    words.add_argument("--keys", type=int, default=100000)
    words.add_argument("--peers", type=int, default=1, help="how many peers hold the keys, for --collector")
    options = words.parse_args()
    wants(*filter(None, [options.haproxy]), program=options.collector)
    ends_cleanly()
    names = [f"lb{number + 1}" for number in range(1 if options.haproxy else options.peers)]
    with tempfile.TemporaryDirectory() as folder:
        if options.haproxy:
            process, address, asked = start_haproxy(options.haproxy, 1, folder)
        elif options.collector:
            config = pathlib.Path(folder) / "collector.conf"
            config.write_text(COLLECTOR_CONFIG.format(peers="\n".join(f"peer {name}" for name in names), more=""))
            peers, admin = free_ports(2)
            collector = Collector(options.collector, peers, admin, config)
            process, address, asked = collector.process, ("127.0.0.1", peers), collector.ask
        else:
            words.error("--collector or --haproxy is needed")
        try:
            measure(address, options.keys, asked, names)
        finally:
            process.terminate()
            process.wait()


if __name__ == "__main__":
    main()
