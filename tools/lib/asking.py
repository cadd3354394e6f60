"""Questions to a collector, and to a HAProxy on its stats socket."""

import socket


def address(text):
    """The host and the port of `127.0.0.1:9999` or `[::1]:9999`; a text with a slash is a socket's path."""
    if "/" in text:
        return text
    host, _, port = text.rpartition(":")
    return host.strip("[]"), int(port)


def connect(place, timeout):
    """A connection to a host and a port, or by the socket of a path."""
    if not isinstance(place, str):
        return socket.create_connection(place, timeout=timeout)
    admin = socket.socket(socket.AF_UNIX)
    admin.settimeout(timeout)
    admin.connect(place)
    return admin


def ask(place, command, timeout=10):
    """The answer to one command, as text."""
    with connect(place, timeout) as admin:
        admin.sendall(command.encode() + b"\n")
        # (bytes that are added to bytes are copied each time: a table of a million keys took seconds here)
        answer = bytearray()
        while not answer.endswith(b"\n\n") and answer != b"\n":
            more = admin.recv(1 << 20)
            if not more:
                raise ConnectionError("the collector closed the connection")
            answer += more
    return answer[:-1].decode("latin-1")


def ask_proxy(path, command, timeout=10):
    """A proxy's answer to one command on its stats socket, as text."""
    with socket.socket(socket.AF_UNIX) as stats:
        stats.settimeout(timeout)
        stats.connect(path)
        stats.sendall(command.encode() + b"\n")
        answer = bytearray()
        while more := stats.recv(1 << 20):
            answer += more
    return answer.decode("latin-1").rstrip("\n") + "\n"
