"""A proxy that is told a pushed filter, for the tools that push."""

import socket
import struct
import threading
import time

from lib.beside import hello
from lib.peers_protocol import TIMED, messages


class Proxied(threading.Thread):
    """A proxy that takes what it is told, and keeps its keys as HAProxy does. It sends a heartbeat a second."""

    def __init__(self, port, name):
        super().__init__(daemon=True)
        self.peer, self.keys, self.puts, self.others = socket.create_connection(("127.0.0.1", port), 10), set(), 0, []
        self.peer.sendall(hello(name))
        self.beaten, self.is_over = 0.0, False
        self.peer.settimeout(0.05)
        self.start()

    def note(self, group, kind, payload):
        if (group, kind) == (10, TIMED):
            self.puts += 1
            number = struct.unpack(">I", payload[8:12])[0]
            (self.keys.add if payload[12] else self.keys.discard)(number)
        else:
            self.others.append((group, kind))

    def run(self):
        data, is_greeted = b"", False
        while True:
            try:
                if time.monotonic() - self.beaten > 1:
                    self.beaten = time.monotonic()
                    self.peer.sendall(b"\x00\x04")
                more = self.peer.recv(1 << 20)
            except TimeoutError:
                continue
            except OSError:
                break
            if not more:
                break
            data += more
            if not is_greeted and len(data) >= 4:
                data, is_greeted = data[4:], True
            if is_greeted:
                found, behind = messages(data, 0)
                data = data[behind:]
                for one in found:
                    self.note(*one)
        self.is_over = True

    def send_on(self, data, seconds):
        """Sends something over and over for so long."""
        end = time.monotonic() + seconds
        while time.monotonic() < end:
            self.peer.sendall(data)
            time.sleep(0.001)
