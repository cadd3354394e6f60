#!/usr/bin/env python3
"""Times how fast a receiver of the peers protocol takes updates: the collector, or HAProxy itself.

    tools/time/receiver.py --collector crates/aggregator/out/aggregator --keys 100000 --updates 1000000
    tools/time/receiver.py --haproxy /usr/sbin/haproxy --keys 100000 --updates 1000000
    tools/time/receiver.py --to 127.0.0.1:10000 --keys 100000 --updates 1000000
    tools/time/receiver.py --collector crates/aggregator/out/aggregator --ask "show table t key 10.0.0.7"
    tools/time/receiver.py --collector crates/aggregator/out/aggregator --senders 2 --ask "show table t" --pause 0
    tools/time/receiver.py --collector crates/aggregator/out/aggregator --peers 64 --keys 10000 --filter all --rank

It speaks as the peer `lb1` to the receiver `agg`, defines a table `t` of addresses with gpc0, conn_cnt and
http_req_rate(10s), and sends one update of each key, in a scattered order, and then the asked number of
updates over the keys in that order again. Each is timed from its first byte to the acknowledgement of the
last update. With `--collector` or `--haproxy` it starts that program as the receiver, on free ports, and says
how much resident memory a key took; `--threads` is HAProxy's `nbthread`. `--random` draws the keys of the
updates instead, the same in every run. `--senders 4` pushes as four peers at once, each with the same keys, and
prints what all of them bring. `--peers 64` pushes as 64 peers with the same keys that one sender feeds in turn, 16 KB
at a time, so that the sender takes one processor however many they are. The bytes are prepared before the clock starts,
and how fast the sender brings them to a socket that only reads them is printed first.

`--filter few` lets the collector keep a filter on a rate that one key in a thousand meets, `--filter all` one that
every key meets and whose change moves with each update; `--rank` lets it keep a ranked list of ten. With `--push` the
filter's keys are pushed to the peers.

With `--ask`, each of some rounds behind those pushes as many updates, without ids, twice: alone, and beside an
admin. The admin asks this over and over, with a pause of 0.1 s or `--pause` between an answer and the next
question. The medians of both are printed, how they differ, and how long the answers took at rest and meanwhile. It
wants the program that is named, compares nothing and ends with 0.
"""

import argparse
import multiprocessing
import pathlib
import random
import socket
import statistics
import sys
import tempfile
import time

sys.path.insert(0, str(pathlib.Path(__file__).resolve().parents[1]))

from lib.collector import resident
from lib.needs import ends_cleanly, wants
from lib.pushing import SCATTER, TURN, InTurn, Peer, definition, updates
from lib.receivers import FILTERS, RANK, start_collector, start_haproxy


def drain(listener):
    """Takes one connection, and reads and throws away all that comes by it."""
    connection = listener.accept()[0]
    while connection.recv(TURN):
        pass
    connection.sendall(b".")


def limit(data):
    """The seconds that the bytes take into a connection that only reads them: what a sender here can bring at most."""
    with socket.create_server(("127.0.0.1", 0)) as listener:
        reader = multiprocessing.Process(target=drain, args=(listener,))
        reader.start()
        with socket.create_connection(listener.getsockname()) as connection:
            start = time.perf_counter()
            connection.sendall(data)
            connection.shutdown(socket.SHUT_WR)
            connection.recv(1)
            took = time.perf_counter() - start
        reader.join()
    return took


def streams(options):
    """The bytes of each push: they make each key known, update the keys, and again in each round."""
    scattered = [(place * SCATTER) % options.keys for place in range(options.keys)]
    busy = options.filter == "few"
    first = definition(options.expiry) + updates(1, scattered, busy)
    if options.random:
        draw = random.Random(1)
        again = [draw.randrange(options.keys) for _ in range(options.updates)]
    else:
        again = [scattered[place % options.keys] for place in range(options.updates)]
    rounds = [updates(None, again, busy)] * (2 * options.rounds) if options.ask else []
    return [first, updates(options.keys + 1, again, busy)] + rounds


def push_as(address, options, sender, data, turns, told):
    """One peer's pushes, each once all peers are ready."""
    peer = InTurn(address, sender, options.receiver) if options.peers else Peer(address, sender, options.receiver)
    for turn, bytes_of in enumerate(data):
        turns.wait()
        took = peer.push(bytes_of, options.keys + turn * options.updates)
        told.put(took)
        turns.wait()


def timed(asked, question):
    """How long an answer takes, in ms, and how many bytes it has."""
    start = time.perf_counter()
    answer = asked(question)
    return (time.perf_counter() - start) * 1e3, len(answer)


def ask_on(asked, options, done, answers):
    """Asks until the push is done, and tells how long each answer took."""
    took = []
    while not done.is_set():
        took.append(timed(asked, options.ask)[0])
        time.sleep(options.pause)
    answers.put(took)


def tell_answers(when, took):
    """Prints how long answers took."""
    print(f"{when}: {len(took)} answers, in {statistics.median(took):.1f} ms (median), "
          f"{min(took):.1f} to {max(took):.1f}")


def tell_push(what, total, took):
    """Prints how long an update took, in µs."""
    print(f"{total} {what}: {took:.2f} us each, {1 / took:.2f} million a second")


def push_all(count, peers, turns, told):
    """Lets all peers push; the µs that an update took."""
    turns.wait()
    took = max(told.get() for _ in range(turns.parties - 1))
    turns.wait()
    return took / (count * peers) * 1e6


def push_asked(options, asked, turns, told):
    """Lets all peers push beside an admin; the µs that an update took, and the ms of each answer."""
    done, answers = multiprocessing.Event(), multiprocessing.Queue()
    admin = multiprocessing.Process(target=ask_on, args=(asked, options, done, answers))
    admin.start()
    took = push_all(options.updates, len(names(options)), turns, told)
    done.set()
    waited = answers.get()
    admin.join()
    return took, waited


def measure_asked(options, asked, turns, told):
    """Rounds of pushes, alone and beside an admin."""
    total = options.updates * len(names(options))
    at_rest = [timed(asked, options.ask) for _ in range(5)]
    tell_answers(f"at rest, {at_rest[-1][1]} bytes", [took for took, _ in at_rest])
    alone, beside, waited = [], [], []
    for _ in range(options.rounds):
        alone.append(push_all(options.updates, len(names(options)), turns, told))
        took, answers = push_asked(options, asked, turns, told)
        beside.append(took)
        waited += answers
    tell_push("updates without ids, alone", total, statistics.median(alone))
    tell_push("the same beside an admin", total, statistics.median(beside))
    tell_answers("meanwhile", waited)
    both = sorted(after / before for before, after in zip(alone, beside))
    print(f"beside an admin an update took {statistics.median(both):.2f} of the time (median of {options.rounds}), "
          f"{both[0]:.2f} to {both[-1]:.2f}")


def measure(address, options, pid, asked=None):
    data = streams(options)
    took = limit(data[1])
    print(f"the sender alone, into a sink: {options.updates / took / 1e6:.1f} million updates a second, "
          f"{len(data[1]) / took / 1e6:.0f} MB a second")
    before = resident(pid) if pid else 0
    senders = names(options)
    pushers = [senders] if options.peers else senders
    turns, told = multiprocessing.Barrier(len(pushers) + 1), multiprocessing.Queue()
    peers = [multiprocessing.Process(target=push_as, args=(address, options, name, data, turns, told))
             for name in pushers]
    for peer in peers:
        peer.start()
    tell_push("new rows", options.keys * len(senders), push_all(options.keys, len(senders), turns, told))
    if pid:
        print(f"resident: {(resident(pid) - before) / options.keys:.0f} bytes a key")
    held = options.updates * len(senders)
    tell_push("updates of held rows", held, push_all(options.updates, len(names(options)), turns, told))
    if options.ask:
        measure_asked(options, asked, turns, told)
    for peer in peers:
        peer.join()


def names(options):
    """The peers' names."""
    count = options.peers or options.senders
    return [f"lb{number + 1}" for number in range(count)] if count > 1 else [options.sender]


def declared(options):
    """The filter and the ranked list that the collector is to keep, as lines of its configuration."""
    pushed = f"push {options.filter}\n" if options.push else ""
    return FILTERS.get(options.filter, "") + (RANK if options.rank else "") + pushed


def main():
    words = argparse.ArgumentParser(description=__doc__, formatter_class=argparse.RawDescriptionHelpFormatter)
    words.add_argument("--to", help="the receiver's address and port")
    words.add_argument("--collector", help="the aggregator program to start as the receiver")
    words.add_argument("--haproxy", help="the haproxy program to start as the receiver")
    words.add_argument("--threads", type=int, default=1)
    words.add_argument("--keys", type=int, default=100000)
    words.add_argument("--updates", type=int, default=1000000)
    words.add_argument("--expiry", type=int, default=600000)
    words.add_argument("--random", action="store_true")
    words.add_argument("--senders", type=int, default=1, help="how many peers push at once")
    words.add_argument("--peers", type=int, default=0, help="how many peers one sender feeds in turn")
    words.add_argument("--filter", choices=FILTERS, help="which keys a filter of the collector holds")
    words.add_argument("--rank", action="store_true", help="let the collector keep a ranked list")
    words.add_argument("--push", action="store_true", help="let the filter's keys be pushed to the peers")
    words.add_argument("--ask", help="what an admin asks while the updates are pushed once more")
    words.add_argument("--rounds", type=int, default=5, help="how often they are pushed alone and beside an admin")
    words.add_argument("--pause", type=float, default=0.1, help="how long the admin rests, in seconds")
    words.add_argument("--sender", default="lb1")
    words.add_argument("--receiver", default="agg")
    words.add_argument("--pid", type=int, help="the receiver's process, whose memory is to be told")
    options = words.parse_args()
    wants(*filter(None, [options.haproxy]), program=options.collector)
    ends_cleanly()
    if options.push and not options.filter:
        words.error("--push needs --filter")
    if options.to and options.ask:
        words.error("--ask needs --collector or --haproxy")
    if options.to:
        host, port = options.to.rsplit(":", 1)
        measure((host, int(port)), options, options.pid)
        return
    if not options.haproxy and not options.collector:
        words.error("--collector, --haproxy or --to is needed")
    with tempfile.TemporaryDirectory() as folder:
        if options.collector:
            process, address, asked = start_collector(options.collector, names(options), folder, declared(options))
        else:
            process, address, asked = start_haproxy(options.haproxy, options.threads, folder, names(options))
        try:
            measure(address, options, process.pid, asked)
        finally:
            process.terminate()
            process.wait()


if __name__ == "__main__":
    main()
