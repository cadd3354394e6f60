"""The peers protocol's integers and messages, and a peer that pushes keys, for the tools beside it."""

import socket
import threading
import time

UPDATE, INCREMENTAL, DEFINE, SWITCH, ACK, TIMED, TIMED_INCREMENTAL = range(0x80, 0x87)
UPDATES = (UPDATE, INCREMENTAL, TIMED, TIMED_INCREMENTAL)
HEARTBEAT = bytes([0, 4])


def get_int(data, at):
    """The encoded integer at a position and the position behind it, or None where the bytes end first."""
    if at >= len(data):
        return None
    value = data[at]
    at += 1
    if value < 240:
        return value, at
    shift = 4
    while at < len(data):
        value += data[at] << shift
        at += 1
        if data[at - 1] < 128:
            return value, at
        shift += 7
    return None


def put_int(value):
    """The encoded integer."""
    if value < 240:
        return bytes([value])
    out = [240 | (value & 15)]
    value = (value - 240) >> 4
    while value >= 128:
        out.append(128 | (value & 127))
        value = (value - 128) >> 7
    out.append(value)
    return bytes(out)


def messages(data, at):
    """The whole messages from a position on, as (class, type, payload), and the position behind them."""
    found = []
    while at + 2 <= len(data):
        kind, end, payload = data[at + 1], at + 2, b""
        if kind >= 0x80:
            length = get_int(data, end)
            if length is None or length[1] + length[0] > len(data):
                break
            payload, end = data[length[1] : length[1] + length[0]], sum(length)
        found.append((data[at], kind, payload))
        at = end
    return found, at


def message(kind, payload):
    """A message of the table class."""
    return bytes([10, kind]) + put_int(len(payload)) + payload


def beat(peer):
    """Keeps a peer's connection, and reads what comes."""
    while True:
        try:
            peer.settimeout(2)
            peer.sendall(HEARTBEAT)
            if not peer.recv(1 << 16):
                return
        except TimeoutError:
            continue
        except OSError:
            return


class Feeder(threading.Thread):
    """A peer of a table `t` of IPv4 keys with gpc0. It reads all that it is told, and sends a heartbeat a second."""

    def __init__(self, port, name="feeder"):
        super().__init__(daemon=True)
        self.peer, self.last, self.acknowledged = socket.create_connection(("127.0.0.1", port), timeout=60), 0, 0
        self.turn, self.news, self.is_over = threading.Lock(), threading.Condition(), False
        self.peer.sendall(f"HAProxyS 2.1\nagg\n{name} 1 1\n".encode())
        if self.peer.recv(4) != b"200\n":
            raise RuntimeError(f"{name} wasn't accepted")
        self.peer.settimeout(None)
        # an id, a name, keys of 4 bytes of type ip, gpc0, an expiry of an hour
        self.peer.sendall(message(DEFINE, b"\x01\x01t" + bytes([4, 4, 4]) + put_int(3600000)))
        self.start()
        threading.Thread(target=self.beat_on, daemon=True).start()

    def beat_on(self):
        while not self.is_over:
            time.sleep(1)
            try:
                self.send(b"\x00\x04")
            except OSError:
                return

    def run(self):
        unread = b""
        while more := self.peer.recv(1 << 18):
            found, behind = messages(unread + more, 0)
            unread = (unread + more)[behind:]
            ids = [int.from_bytes(payload[1:5], "big") for group, kind, payload in found if (group, kind) == (10, ACK)]
            if ids:
                with self.news:
                    self.acknowledged = ids[-1]
                    self.news.notify()
        with self.news:
            self.is_over = True
            self.news.notify()

    def push(self, keys, count):
        """Pushes a count for these keys, and waits until all are acknowledged."""
        out = bytearray()
        for key in keys:
            self.last += 1
            out += message(UPDATE, self.last.to_bytes(4, "big") + key + put_int(count))
        with self.turn:
            self.peer.sendall(out)
        with self.news:
            self.news.wait_for(lambda: self.is_over or self.acknowledged == self.last, 60)
        if self.acknowledged != self.last:
            raise ConnectionError("a push wasn't acknowledged")

    def send(self, data):
        """Sends something between pushes."""
        with self.turn:
            self.peer.sendall(data)
