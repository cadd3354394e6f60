"""Peers that push many rows of one table as fast as a receiver takes them, for the tools that measure."""

import select
import socket
import struct
import sys
import time

from lib.peers_protocol import ACK, DEFINE, HEARTBEAT, INCREMENTAL, UPDATE, message, messages, put_int

SCATTER = 2147483647
BUSY = 200000
TURN = 16384


def definition(expiry):
    bits = 1 << 2 | 1 << 4 | 1 << 10
    text = b"t"
    head = put_int(1) + put_int(len(text)) + text + put_int(4) + put_int(4) + put_int(bits)
    return message(DEFINE, head + put_int(expiry) + put_int(10) + put_int(10000))


def updates(first, numbers, busy=False):
    """The bytes of updates of these key numbers, with ids from `first` on; without ids where there is no first.

    Where some are `busy`, each thousandth key has a rate above all others.
    """
    out = bytearray()
    values = put_int(7) + put_int(9)
    rates = [values + put_int(elapsed) + put_int(40) + put_int(30) for elapsed in range(240)]
    high = values + put_int(0) + put_int(BUSY) + put_int(BUSY)
    for place, number in enumerate(numbers):
        rate = high if busy and number % 1000 == 0 else rates[place % 240]
        row = struct.pack(">I", 0x0A000000 + number) + rate
        if first is None:
            out += message(INCREMENTAL, row)
        else:
            out += message(UPDATE, struct.pack(">I", first + place) + row)
    return bytes(out)


def acknowledged(data):
    """The last update id acknowledged in a stream's bytes so far, and where its last whole message ends."""
    found, end = messages(data, 0)
    ids = [struct.unpack(">I", payload[-4:])[0] for klass, kind, payload in found if (klass, kind) == (10, ACK)]
    return ids[-1] if ids else 0, end


class Peer:
    """A connection that speaks as a peer."""

    def __init__(self, address, sender, receiver):
        self.socket = socket.create_connection(address, timeout=10)
        self.socket.setsockopt(socket.IPPROTO_TCP, socket.TCP_NODELAY, 1)
        self.socket.sendall(f"HAProxyS 2.1\n{receiver}\n{sender} 100 1\n".encode())
        status = self.socket.recv(4)
        if status != b"200\n":
            sys.exit(f"the receiver answered {status!r}")
        self.unread = b""

    def push(self, data, last):
        """Sends bytes, and waits for the acknowledgement of the update `last`; the seconds that it took."""
        self.socket.setblocking(False)
        view, sent, done = memoryview(data), 0, 0
        start = time.perf_counter()
        while done != last:
            writers = [self.socket] if sent < len(view) else []
            readable, writable, _ = select.select([self.socket], writers, [], 20)
            if not readable and not writable:
                sys.exit(f"nothing for 20 s: {sent} of {len(view)} bytes sent, {done} acknowledged")
            if writable:
                sent += self.socket.send(view[sent:sent + 262144])
            if readable:
                done = self.read() or done
        return time.perf_counter() - start

    def read(self):
        """The last update id that what has come acknowledges, 0 where it acknowledges none."""
        more = self.socket.recv(262144)
        if not more:
            sys.exit("the receiver closed")
        self.unread += more
        found, end = acknowledged(self.unread)
        self.unread = self.unread[end:]
        return found

    def takes(self, last):
        """Whether what has come acknowledges this update."""
        return self.read() == last


class InTurn:
    """Peers with the same rows, which one sender feeds in turn."""

    def __init__(self, address, senders, receiver):
        self.peers = [Peer(address, sender, receiver) for sender in senders]

    def beat(self, left, length):
        """Sends a heartbeat for each peer that has sent all its bytes: others are pushed for longer than one may be silent."""
        for peer in self.peers:
            if left.get(peer.socket.fileno(), (peer, length))[1] == length:
                peer.socket.send(HEARTBEAT)

    def push(self, data, last):
        """Sends all peers' bytes, and waits for their acknowledgements of `last`; the seconds that it took."""
        view = memoryview(data)
        poll = select.epoll()
        left = {}
        for peer in self.peers:
            peer.socket.setblocking(False)
            left[peer.socket.fileno()] = [peer, 0]
            poll.register(peer.socket, select.EPOLLIN | select.EPOLLOUT)
        start = beaten = time.perf_counter()
        while left:
            ready = poll.poll(20)
            if time.perf_counter() - beaten > 1:
                beaten = time.perf_counter()
                self.beat(left, len(view))
            if not ready:
                sys.exit(f"nothing for 20 s: {len(left)} of {len(self.peers)} peers aren't acknowledged")
            for number, events in ready:
                peer, sent = left[number]
                if events & select.EPOLLOUT:
                    left[number][1] = sent = sent + peer.socket.send(view[sent:sent + TURN])
                    if sent == len(view):
                        poll.modify(number, select.EPOLLIN)
                if events & ~select.EPOLLOUT and peer.takes(last):
                    poll.unregister(number)
                    del left[number]
        return time.perf_counter() - start
