"""A sane peer beside an attack, and floods: what the tools need that try to hold a collector up.

All speak of a table `t` of IPv4 keys with gpc0 alone, unless another is named.
"""

import contextlib
import multiprocessing
import os
import select
import signal
import socket
import struct
import threading
import time

from lib.peers_protocol import ACK, DEFINE, HEARTBEAT, TIMED, UPDATE, message, messages, put_int

FORK = multiprocessing.get_context("fork")
HOUR = 3_600_000
TURN = 1 << 16


def hello(name):
    """The hello of a peer of this name to the collector `agg`."""
    return f"HAProxyS 2.1\nagg\n{name} 1 1\n".encode()


def definition(life=HOUR, kind=4, length=4, table="t"):
    """The definition of `t`, or another table: its keys' type and length, gpc0, and how long a row lives."""
    head = put_int(1) + put_int(len(table)) + table.encode() + put_int(kind) + put_int(length) + put_int(1 << 2)
    return message(DEFINE, head + put_int(life))


def rows(first, keys, value, life=None):
    """Updates of these key numbers to a value below 240, with ids from `first` on; with a life in ms where one is
    given. Made at some two million a second."""
    kind, size = (UPDATE, 9) if life is None else (TIMED, 13)
    head = bytes([10, kind, size])
    if life is None:
        form = struct.Struct(">3sIIB")
        return b"".join([form.pack(head, first + at, key, value) for at, key in enumerate(keys)])
    form = struct.Struct(">3sIIIB")
    return b"".join([form.pack(head, first + at, life, key, value) for at, key in enumerate(keys)])


def seated(port, name, timeout=10, table="t"):
    """A connection whose hello was accepted, with its table defined; none where it wasn't accepted."""
    peer = socket.create_connection(("127.0.0.1", port), timeout=timeout)
    try:
        peer.setsockopt(socket.IPPROTO_TCP, socket.TCP_NODELAY, 1)
        peer.sendall(hello(name))
        if peer.recv(4) == b"200\n":
            peer.sendall(definition(table=table))
            return peer
    except OSError:
        pass
    peer.close()
    return None


def last_of(data):
    """The last update that what came acknowledges, 0 where none, and what is no whole message yet."""
    found, behind = messages(data, 0)
    ids = [struct.unpack(">I", payload[-4:])[0] for group, kind, payload in found if (group, kind) == (10, ACK)]
    return (ids[-1] if ids else 0), data[behind:]


class Beside(threading.Thread):
    """A sane peer: it sends an update of one key every 20 ms, whatever comes, and reads all that comes.

    It keeps the worst wait for an acknowledgement, the longest silence of the collector's, and how often it was left
    without a connection; it then dials again, and what it had sent counts as waiting until something is acknowledged.
    """

    def __init__(self, port, name="sane", every=0.02):
        super().__init__(daemon=True)
        self.port, self.name_of, self.every = port, name, every
        self.done, self.turn = threading.Event(), threading.Lock()
        self.lost, self.taken, self.left = 0, 0, None
        self.dial()
        self.forget()
        self.start()

    def dial(self):
        """Dials, for as long as it takes."""
        self.peer, self.unread, self.last, self.waiting = None, b"", 0, []
        while not self.peer and not self.done.is_set():
            try:
                self.peer = seated(self.port, self.name_of, timeout=2)
            except OSError:
                pass
            if not self.peer:
                time.sleep(0.1)
        if self.peer:
            self.peer.setblocking(False)

    def forget(self):
        """Forgets what was seen so far."""
        with self.turn:
            now = time.monotonic()
            self.worst, self.longest, self.heard, self.began, self.lost = 0.0, 0.0, now, now, 0
            # (what waits is waited for from now on)
            self.waiting = [(number, max(sent, now)) for number, sent in self.waiting]

    def seen(self):
        """The worst acknowledgement and the longest silence so far, in seconds, and the connections lost."""
        with self.turn:
            now = time.monotonic()
            oldest = [self.left] if self.left else [sent for _, sent in self.waiting[:1]]
            worst = max([self.worst, *(now - sent for sent in oldest)])
            return worst, max(self.longest, now - self.heard), self.lost

    def calm(self, seconds=60):
        """Waits until nothing of what was sent waits for long: until what holds the collector up is over, twice, since
        it is done for each of its two copies."""
        ends, calm = time.monotonic() + seconds, 0
        while calm < 3 and time.monotonic() < ends:
            time.sleep(0.3)
            with self.turn:
                now = time.monotonic()
                is_late = self.left is not None or any(now - sent > 0.3 for _, sent in self.waiting[:1])
            calm = 0 if is_late else calm + 1

    def read(self):
        """Takes what came; whether the connection is still there."""
        try:
            more = self.peer.recv(TURN)
        except BlockingIOError:
            return True
        except OSError:
            return False
        with self.turn:
            now = time.monotonic()
            self.longest, self.heard = max(self.longest, now - self.heard), now
            acknowledged, self.unread = last_of(self.unread + more)
            while self.waiting and self.waiting[0][0] <= acknowledged:
                self.worst = max(self.worst, now - self.waiting.pop(0)[1])
                self.taken += 1
        return bool(more)

    def send(self):
        """Sends an update, or leaves it where the socket takes none; whether the connection is still there."""
        try:
            self.peer.send(rows(self.last + 1, [0x0AFFFFFF], 1))
        except BlockingIOError:
            return True
        except OSError:
            return False
        with self.turn:
            self.last += 1
            self.waiting.append((self.last, time.monotonic()))
        return True

    def run(self):
        due = time.monotonic()
        while not self.done.is_set() and self.peer:
            rest = max(0, due - time.monotonic())
            readable, _, _ = select.select([self.peer], [], [], rest)
            is_there = self.read() if readable else True
            if is_there and time.monotonic() >= due:
                due = time.monotonic() + self.every
                is_there = self.send()
            if not is_there:
                self.again()

    def again(self):
        """Dials again. The oldest update that waits is waited for on, as a proxy's client would see it."""
        with self.turn:
            self.left = self.waiting[0][1] if self.waiting else time.monotonic()
            self.lost += 1
            self.waiting = []
        self.peer.close()
        self.dial()
        with self.turn:
            self.worst = max(self.worst, time.monotonic() - self.left)
            self.left = None

    def stop(self):
        """Ends it, and tells what `seen` would."""
        found = self.seen()
        self.done.set()
        self.join(5)
        if self.peer:
            self.peer.close()
        return found


def push_whole(port, name, data, last, keeps, told):
    """One peer in a process: pushes these bytes, tells how long until the last was acknowledged, and beats on."""
    signal.signal(signal.SIGINT, signal.SIG_IGN)
    peer = seated(port, name, timeout=120)
    if not peer:
        told.put(None)
        return
    start, view, sent, done, unread = time.monotonic(), memoryview(data), 0, 0, b""
    peer.setblocking(False)
    spoke = start
    try:
        while done != last:
            readable, writable, _ = select.select([peer], [peer] if sent < len(view) else [], [], 1)
            if writable:
                sent, spoke = sent + peer.send(view[sent:sent + TURN]), time.monotonic()
            elif sent == len(view) and time.monotonic() - spoke > 1:
                spoke = time.monotonic()
                peer.send(HEARTBEAT)
            if readable:
                more = peer.recv(TURN)
                if not more:
                    break
                found, unread = last_of(unread + more)
                done = found or done
        told.put(time.monotonic() - start if done == last else None)
        while keeps and not keeps.is_set():
            readable, _, _ = select.select([peer], [], [], 0.5)
            if readable and not peer.recv(TURN):
                break
            if time.monotonic() - spoke > 0.9:
                spoke = time.monotonic()
                peer.send(HEARTBEAT)
    except OSError:
        told.put(None)


class Pushed:
    """Peers, each a process, that have pushed the same rows and beat on until they are let go."""

    def __init__(self, port, names, data, last):
        self.keeps, told = FORK.Event(), FORK.Queue()
        given = [(port, name, data, last, self.keeps, told) for name in names]
        self.processes = [FORK.Process(target=push_whole, args=it, daemon=True) for it in given]
        for process in self.processes:
            process.start()
        self.took = [told.get(timeout=600) for _ in self.processes]

    def __enter__(self):
        if not self.are_whole():
            self.__exit__()
            raise RuntimeError("not all rows were acknowledged")
        return self

    def __exit__(self, *_):
        self.keeps.set()
        for process in self.processes:
            process.join(2)
            if process.is_alive():
                process.kill()

    def are_whole(self):
        """Whether all rows of all peers were acknowledged."""
        return None not in self.took


def flood_on(port, name, base, done, cut, table):
    """One flooder in a process: pushes new keys without a pause, and dials again where it is cut, until it is told."""
    signal.signal(signal.SIGINT, signal.SIG_IGN)
    key = base
    while not done.is_set():
        try:
            peer = seated(port, name, timeout=2, table=table)
        except OSError:
            peer = None
        if not peer:
            with cut.get_lock():
                cut.value += 1
            time.sleep(0.2)
            continue
        number = 1
        peer.settimeout(None)
        with contextlib.suppress(OSError), peer:
            while not done.is_set():
                peer.sendall(rows(number, range(key, key + 1000), 200))
                number, key = number + 1000, key + 1000
                if select.select([peer], [], [], 0)[0] and not peer.recv(TURN):
                    break
        with cut.get_lock():
            cut.value += not done.is_set()


class Flood:
    """Flooders, each a process: they push new keys until they are stopped."""

    def __init__(self, port, names, table="t"):
        self.done, self.cut = FORK.Event(), FORK.Value("I", 0)
        given = [(port, name, (0x0B + place) << 24, self.done, self.cut, table) for place, name in enumerate(names)]
        self.processes = [FORK.Process(target=flood_on, args=it, daemon=True) for it in given]
        for process in self.processes:
            process.start()

    def stop(self):
        """Ends them."""
        self.done.set()
        for process in self.processes:
            process.join(0.5)
            process.kill()
            process.join()


class Stranger:
    """A client of the HTTP door that says what it is told to."""

    def __init__(self, port, data=b"", timeout=10):
        self.socket = socket.create_connection(("127.0.0.1", port), timeout=timeout)
        self.socket.sendall(data)

    def answer(self):
        """The status of its answer and its body, read to the end; 0 where the connection ended without one."""
        data = b""
        with contextlib.suppress(OSError):
            while more := self.socket.recv(1 << 18):
                data += more
        self.socket.close()
        head, _, body = data.partition(b"\r\n\r\n")
        words = head.split()
        return (int(words[1]) if len(words) > 1 and words[1].isdigit() else 0), body


def get(port, path, host="127.0.0.1", timeout=10):
    """The status and the body of one GET, and the seconds that it took; 0 where there was no answer."""
    start = time.monotonic()
    try:
        asked = f"GET {path} HTTP/1.1\r\nHost: {host}\r\nConnection: close\r\n\r\n".encode()
        status, body = Stranger(port, asked, timeout).answer()
    except OSError:
        status, body = 0, b""
    return status, body, time.monotonic() - start


def processors():
    """How many processors this program may use."""
    return len(os.sched_getaffinity(0))
