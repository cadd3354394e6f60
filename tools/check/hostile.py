#!/usr/bin/env python3
"""Checks what the collector does with hostile peers, clumsy admins and faults of its surroundings.

    tools/check/hostile.py [--collector crates/aggregator/out/aggregator] [--only PART]

It starts `aggregator listen` (examples/fleet.conf) and speaks to its sockets. Peers send hellos of every verdict,
broken and cut messages, a byte at a time; they reset, never read, say nothing by the thousand, or drip a hello.
Admins send lines without an end, or nothing, drip them, never read, or stay for long. Peers call from elsewhere, or
aren't configured, standard error takes nothing, and the peers' listener breaks. Where a filter is pushed, proxies read
nothing, ask for all of it all the time, or answer what nobody said. Memory runs out while rows are shown, browsers send
HTTP to the admin address, the system refuses threads, the Unix socket is looked at as it comes, and lines are provoked
by the thousand. Proxies reset their connections and come back, or don't. The clock's thread stands still, the whole
process is stopped, and standard streams are closed. Signals and ports that are taken are tried too. It wants a built
program. The last line counts passed and failed; the status is 1 where one failed. It takes about seven minutes.
tools/check/attack.py has the same and more with figures.
"""

import argparse
import ctypes
import os
import pathlib
import re
import resource
import signal
import socket
import struct
import subprocess
import sys
import tempfile
import threading
import time

sys.path.insert(0, str(pathlib.Path(__file__).resolve().parents[1]))

from lib.beside import FORK, Beside
from lib.collector import COLLECTOR, CONFIG, REPOSITORY, Collector, free_ports
from lib.needs import ends_cleanly, wants
from lib.peers_protocol import ACK as ACKNOWLEDGED, DEFINE as DEFINITION, SWITCH, UPDATES
from lib.peers_protocol import Feeder, message, messages, put_int
from lib.report import Report
from lib.stopping import seconds_to_end, stop_thread, threads_of
from lib.surviving import cleared, closed_of, config, few_threads, flooded, look_at, unserved, until_closed
from lib.told import Proxied

CHANGELOG = REPOSITORY / "CHANGELOG.md"

HELLO = b"HAProxyS 2.1\nagg\nlb1 100 1\n"
ACCEPTED = b"200\n\x00\x00"
# The table `clients` with gpc0 alone, and an update of 10.0.0.1 to 5.
DEFINE = bytes.fromhex("0a820d01") + b"\x07clients" + bytes.fromhex("04040400")
UPDATE = bytes.fromhex("0a8009000000010a00000105")
ACK = bytes.fromhex("0a84050100000001")
TOLD = (DEFINITION, SWITCH, *UPDATES)
# What is answered to `x`, `prompt`, `x`, `prompt` and `x`.
PROMPTED = (b"refused 2 Unknown\n\n" b"\n> " b'refused 2 Unknown: "x" is no command; see help\n\n> ' b"\n"
            b"refused 2 Unknown\n\n")


def call(port, data=b"", timeout=5):
    """A connection that has sent these bytes."""
    peer = socket.create_connection(("127.0.0.1", port), timeout=timeout)
    peer.sendall(data)
    return peer


def without_told(data):
    """What a peer was answered, without what it was told of pushed tables."""
    start = data.find(b"\n") + 1 if data[:1].isdigit() else 0
    kept, rest = data[:start], data[start:]
    found, end = messages(rest, 0)
    for group, kind, payload in found:
        if group != 10 or kind not in TOLD:
            kept += bytes([group, kind]) + (put_int(len(payload)) + payload if kind >= 0x80 else b"")
    is_cut = rest[end:end + 1] == b"\x0a" and rest[end + 1:end + 2] in [bytes([kind]) for kind in TOLD]
    return kept + (b"" if is_cut else rest[end:])


def read(peer, count):
    """So many bytes of answers, or fewer where the other side closes."""
    data = b""
    while len(without_told(data)) < count:
        more = peer.recv(1)
        if not more:
            break
        data += more
    return without_told(data)


def read_all(peer):
    """All bytes of answers up to where the other side closes."""
    data = b""
    while more := peer.recv(1 << 16):
        data += more
    return without_told(data)


def reset(peer):
    """Closes so that the other side sees a reset."""
    peer.setsockopt(socket.SOL_SOCKET, socket.SO_LINGER, struct.pack("ii", 1, 0))
    peer.close()


def answered(port, data, wanted):
    """Whether exactly these bytes are the answer, and then the end."""
    with call(port, data) as peer:
        peer.shutdown(socket.SHUT_WR)
        found = read_all(peer)
    return "" if found == wanted else f"{found!r} for {wanted!r}"


def verdicts(report, collector):
    for data, wanted in ((b"HAProxyS 2.1\nother\nlb1 1 1\n", b"503\n"), (b"HAProxyS 3.0\n", b"502\n"),
                         (b"Foo 2.1\n", b"501\n"), (b"HAProxyS 2.1\nagg\nlbx 1 1\n", b"504\n"),
                         (b"x" * 257, b"501\n")):
        report.check(f"hello {data[:24]!r} is answered {wanted!r}", 1,
                     lambda: answered(collector.peers, data, wanted))


def streams(report, collector):
    sent = HELLO + DEFINE
    for name, data, wanted in (
            ("a message of 16,385 bytes", b"\x0a\x80\xf1\xf1\x06", b"\x01\x01"),
            ("a length of 2^64", bytes.fromhex("0a80f0f1fefefefefefefe0e"), b"\x01\x00"),
            ("a definition that is cut short", bytes.fromhex("0a82020105"), b"\x01\x00"),
            ("the peer's own error message", b"\x01\x00", b"")):
        report.check(f"{name} ends its session and no other", 1,
                     lambda: answered(collector.peers, sent + data, ACCEPTED + wanted))

    def byte_by_byte():
        with call(collector.peers) as peer:
            peer.setsockopt(socket.IPPROTO_TCP, socket.TCP_NODELAY, 1)
            for byte in HELLO + DEFINE + UPDATE:
                peer.sendall(bytes([byte]))
            found = read(peer, len(ACCEPTED + ACK))
        return "" if found == ACCEPTED + ACK else repr(found)
    report.check("a byte at a time is the same stream", 5, byte_by_byte)

    def resets():
        for cut in range(1, len(HELLO + DEFINE + UPDATE)):
            reset(call(collector.peers, (HELLO + DEFINE + UPDATE)[:cut]))
        return answered(collector.peers, HELLO, ACCEPTED)
    report.check("a reset after any byte breaks nothing", 5, resets)


def crowd(report, collector):
    before = collector.descriptors(), collector.threads()
    peers = [call(collector.peers, HELLO, timeout=10) for _ in range(600)]
    statuses = {read(peer, 4) for peer in peers}
    report.check("of 600 hellos of one peer at once none is told that there is no seat", 1,
                 lambda: "" if b"200\n" in statuses and statuses <= {b"200\n", b""} else statuses)
    for peer in peers:
        peer.close()
    report.check("a seat is free again", 5, lambda: answered(collector.peers, HELLO, ACCEPTED))
    report.check("descriptors and threads are what they were", 10, lambda: "" if (
        collector.descriptors() <= before[0] + 1 and collector.threads() <= before[1] + 1)
        else (before, collector.descriptors(), collector.threads()))


def newer(report, collector):
    """A newer connection of a peer, while the older one is in the middle of a message."""
    def replaced():
        with call(collector.peers, HELLO + DEFINE + UPDATE + UPDATE[:5]) as older:
            found = read(older, len(ACCEPTED + ACK))
            with call(collector.peers, HELLO) as later:
                if read(later, len(ACCEPTED)) != ACCEPTED:
                    return "the newer one isn't accepted"
                older.settimeout(1)
                rest = read_all(older)
                later.sendall(DEFINE + UPDATE)
                if read(later, len(ACK)) != ACK:
                    return "the newer one isn't served"
        return "" if found == ACCEPTED + ACK and not rest else (found, rest)
    report.check("a newer connection of a peer ends the older one", 2, replaced)


def accepted_within(port, seconds):
    """Whether a peer is accepted in that time."""
    start = time.monotonic()
    found = answered(port, HELLO, ACCEPTED)
    took = time.monotonic() - start
    return found or ("" if took < seconds else f"{took:.1f} s")


def strangers(report, collector):
    """Connections that never say a whole hello: they take no seat."""
    silent = [call(collector.peers) for _ in range(1200)]
    report.check("beside 1,200 silent connections a peer is accepted within a second", 1,
                 lambda: accepted_within(collector.peers, 1))
    time.sleep(6)

    def closed():
        for peer in silent:
            peer.settimeout(1)
            try:
                if peer.recv(1):
                    return "they are answered"
            except ConnectionResetError:
                pass
        return ""
    report.check("and after 5 s they are closed without an answer", 1, closed)
    for peer in silent:
        peer.close()

    def flood(data):
        """200 connections a second for 15 seconds, while a peer comes back each second."""
        held, faults, start = [], [], time.monotonic()
        while time.monotonic() - start < 15:
            began = time.monotonic()
            held += [call(collector.peers, data) for _ in range(200)]
            faults.append(accepted_within(collector.peers, 2))
            for peer in held[:-1000]:
                peer.close()
            held = held[-1000:]
            for peer in held[::40]:
                try:
                    peer.sendall(data[-1:])
                except OSError:
                    pass
            time.sleep(max(0, began + 1 - time.monotonic()))
        for peer in held:
            peer.close()
        return next((fault for fault in faults if fault), "")
    report.check("beside 200 silent connections a second a peer is never refused", 1, lambda: flood(b""))
    report.check("nor beside as many that drip a hello", 1, lambda: flood(HELLO[:9]))

    def late():
        with call(collector.peers, timeout=10) as peer:
            start = time.monotonic()
            try:
                for byte in HELLO:
                    peer.sendall(bytes([byte]))
                    time.sleep(0.25)
            except OSError:
                pass
            try:
                found = read_all(peer)
            except ConnectionResetError:
                found = b""
            took = time.monotonic() - start
        return "" if not found and 4.5 < took < 7 else (found, took)
    report.check("a hello that takes more than 5 s is closed without an answer", 1, late)


def deaf(report, collector):
    """A peer that asks for answers and never reads them."""
    peer = socket.socket()
    peer.setsockopt(socket.SOL_SOCKET, socket.SO_RCVBUF, 4096)
    peer.connect(("127.0.0.1", collector.peers))
    peer.sendall(HELLO)
    peer.settimeout(1)
    try:
        for _ in range(400):
            peer.sendall(b"\x00\x00" * 32768)
    except OSError:
        pass

    def ended():
        try:
            peer.sendall(b"\x00\x00")
        except (BrokenPipeError, ConnectionResetError):
            return ""
        except OSError:
            pass
        return "it is still there"
    report.check("a peer that never reads stops nobody", 2, lambda: answered(collector.peers, HELLO, ACCEPTED))
    report.check("and it is ended", 20, ended)
    peer.close()


def silence(report, collector):
    def heartbeats():
        with call(collector.peers, HELLO, timeout=10) as peer:
            start, found = time.monotonic(), read_all(peer)
            took = time.monotonic() - start
        good = found == ACCEPTED + b"\x00\x04" and 4.9 < took < 6.5
        return "" if good else f"{found!r} in {took:.1f} s"
    report.check("a silent peer gets a heartbeat after 3 s and is ended after 5", 1, heartbeats)


def admins(report, collector):
    def said(data, pieces=1, close=True):
        with call(collector.admin, timeout=15) as admin:
            size = max(1, len(data) // pieces)
            for start in range(0, len(data), size):
                admin.sendall(data[start:start + size])
                time.sleep(0.02 if pieces > 1 else 0)
            admin.shutdown(socket.SHUT_WR)
            return read_all(admin)
    heading = collector.ask("show table clients selector").encode()
    report.check("a wrong command is refused", 1, lambda: "" if heading.startswith(b"refused 2 ") else heading)
    one = said(b"show filter abusers\n")
    report.check("pipelined commands are answered in order", 1, lambda: "" if
                 said(b"show filter abusers\n" * 50) == one * 50 else "other bytes")
    report.check("a command in pieces is one command", 1, lambda: "" if
                 said(b"show filter abusers\r\n", pieces=10) == one else "other bytes")
    report.check("a last line without an end is dropped", 1, lambda: "" if
                 said(b"show filter abusers\nshow fil") == one else "other bytes")
    report.check("behind `prompt` a refusal says why, and a prompt follows; behind a second one all is as before", 1,
                 lambda: "" if said(b"x\nprompt\nx\nprompt\nx\n") == PROMPTED else said(b"x\nprompt\nx\nprompt\nx\n"))
    before = collector.resident()
    long = said(b"x" * 10_000_000 + b"\nshow filter abusers\n")
    report.check("a line of 10 MB is refused, and the next one is answered", 1, lambda: "" if
                 long.startswith(b"refused 2 ") and long.endswith(one) else long[:80])
    report.check("and took no memory that stays", 1, lambda: "" if
                 collector.resident() < before + 4_000_000 else collector.resident() - before)

    def many():
        for _ in range(1000):
            if said(b"show filter abusers\n") != one:
                return "another answer"
        return ""
    report.check("a thousand admins, one after the other", 1, many)
    silent = [call(collector.admin) for _ in range(3)]
    start = time.monotonic()
    answer = said(b"show filter abusers\n")
    took = time.monotonic() - start
    report.check("beside three silent admins a fourth is answered", 1, lambda: "" if
                 answer == one and took < 2 else (answer, took))
    silent.append(call(collector.admin))
    start = time.monotonic()
    answer = said(b"show filter abusers\n")
    took = time.monotonic() - start
    report.check(f"admins that say nothing make room for a fifth ({took:.0f} s)", 1, lambda: "" if
                 answer == one and took < 13 else (answer, took))
    for admin in silent:
        admin.close()


def ended_after(admin, start):
    """After how many seconds the other side has closed."""
    try:
        while admin.recv(1 << 16):
            pass
    except ConnectionResetError:
        pass
    return time.monotonic() - start


def slow_admins(report, collector):
    """Admins that drip a line, that read slowly, and that stay while others wait."""
    def drip():
        with call(collector.admin, timeout=15) as admin:
            start = time.monotonic()
            try:
                for byte in b"show filter abusers" * 2:
                    admin.sendall(bytes([byte]))
                    time.sleep(0.5)
            except OSError:
                pass
            took = ended_after(admin, start)
        return "" if 9.5 < took < 13 else f"{took:.1f} s"
    report.check("a line that takes more than 10 s ends its connection", 1, drip)

    def between():
        with call(collector.admin, timeout=15) as admin:
            for _ in range(3):
                admin.sendall(b"show filter abusers\n")
                time.sleep(4)
            admin.sendall(b"show filter abusers\n")
            start = time.monotonic()
            took = ended_after(admin, start)
        return "" if 9 < took < 12 else f"{took:.1f} s"
    report.check("silence between lines ends it after 10 s, and no sooner", 1, between)

    def deaf_admin():
        admin = socket.socket()
        admin.setsockopt(socket.SOL_SOCKET, socket.SO_RCVBUF, 4096)
        admin.settimeout(0.5)
        admin.connect(("127.0.0.1", collector.admin))
        stuck, took = None, 0
        while took < 60:
            try:
                admin.send(b"show table\n" * 1000)
                stuck = None
            except TimeoutError:
                stuck = stuck or time.monotonic()
            except OSError:
                break
            took = time.monotonic() - stuck if stuck else 0
        admin.close()
        return "" if 25 < took < 36 else f"{took:.1f} s"
    report.check("an answer that isn't taken within 30 s ends its connection", 1, deaf_admin)

    def busy():
        """Four admins ask each second; a fifth calls after 50 s."""
        held, start, took = [call(collector.admin, timeout=5) for _ in range(4)], time.monotonic(), None
        while took is None and time.monotonic() - start < 80:
            for admin in held:
                try:
                    admin.sendall(b"show filter abusers\n")
                    admin.recv(1 << 16)
                except OSError:
                    pass
            if len(held) == 4 and time.monotonic() - start > 50:
                held.append(call(collector.admin, b"show filter abusers\n", timeout=0.5))
                held[4].setblocking(False)
            if len(held) == 5:
                try:
                    took = time.monotonic() - start if held[4].recv(1 << 16) else None
                except BlockingIOError:
                    pass
            time.sleep(0.5)
        for admin in held:
            admin.close()
        # an answer that comes late costs a round 5 s
        return "" if took and 59 < took < 67 else took
    report.check("of four busy admins one makes room for a fifth after 60 s", 1, busy)


def elsewhere(report, options):
    """Peers that call from addresses that aren't asked for."""
    told, log = os.pipe()
    collector = Collector(options.collector, *free_ports(2), log=log, options=("--from", "127.0.1.7/24"))
    os.close(log)

    def call_from(address):
        peer = socket.create_connection(("127.0.0.1", collector.peers), timeout=5, source_address=(address, 0))
        with peer:
            try:
                peer.sendall(HELLO)
                return read(peer, len(ACCEPTED))
            except (ConnectionResetError, BrokenPipeError):
                return b""
    report.check("a peer from elsewhere is closed without an answer", 1,
                 lambda: "" if call_from("127.0.0.1") == b"" else "it is answered")
    report.check("and one from a network that is asked for is accepted", 1,
                 lambda: "" if call_from("127.0.1.200") == ACCEPTED else "it isn't accepted")
    for _ in range(500):
        call_from("127.0.0.1")
    time.sleep(2.5)
    collector.stop()
    with os.fdopen(told) as lines:
        counts = re.findall(r"warn connections from elsewhere closed count=(\d+)", lines.read())
        counts = [int(count) for count in counts]
    report.check("each is counted in the log, in few lines", 1,
                 lambda: "" if sum(counts) == 501 and len(counts) < 15 else counts)


def unknown(report, options):
    """Peers that aren't configured, where they are to wait: closed without a status, each told once a minute."""
    told, log = os.pipe()
    collector = Collector(options.collector, *free_ports(2), log=log, options=("--unknown-peers", "wait"))
    os.close(log)
    for name in (b"lbx", b"lby", b"lbx"):
        hello = b"HAProxyS 2.1\nagg\n" + name + b" 1 1\n"
        report.check(f"an unknown {name.decode()} that may wait is closed without a status", 1,
                     lambda: answered(collector.peers, hello, b""))
    for hello, wanted in ((b"Foo 2.1\n", b"501\n"), (b"HAProxyS 3.0\n", b"502\n"),
                          (b"HAProxyS 2.1\nother\nlbx 1 1\n", b"503\n"), (HELLO, ACCEPTED)):
        report.check(f"beside them hello {hello[:24]!r} is answered {wanted!r}", 1,
                     lambda: answered(collector.peers, hello, wanted))
    time.sleep(1)  # the log is written by a thread of its own
    collector.stop()
    with os.fdopen(told) as lines:
        text = lines.read()
    names = re.findall(r"warn unknown peer closed name=(\w+)", text)
    report.check("each of their names is told once, and no 504", 1,
                 lambda: "" if names == ["lbx", "lby"] and "504" not in text else text)


def mute(report, options):
    """Standard error takes nothing."""
    told, log = os.pipe()
    collector = Collector(options.collector, *free_ports(2), log=log)
    os.close(log)
    change, answers = b"clear table clients\n", bytearray()
    with socket.create_connection(("127.0.0.1", collector.admin), timeout=60) as admin:
        # (lines of strangers are told 60 times a minute; of these, each is)
        admin.sendall(change * 4000)
        while answers.count(b"ok\n") < 4000 and (more := admin.recv(1 << 16)):
            answers += more
    report.check("while standard error takes nothing a peer is accepted within a second", 1,
                 lambda: accepted_within(collector.peers, 1))
    text, start = b"", time.monotonic()
    os.set_blocking(told, False)
    while time.monotonic() - start < 4:
        try:
            text += os.read(told, 1 << 20)
        except BlockingIOError:
            time.sleep(0.01)
    lost = sum(int(count) for count in re.findall(rb"warn log lines lost count=(\d+)", text))
    written = text.count(b" info admin changed ")
    report.check("and once it takes some, each line is written or told as lost", 1,
                 lambda: "" if lost > 500 and written + lost >= 4000 else f"{written} written, {lost} lost")
    collector.stop()
    os.close(told)


def broken(report, options):
    """The peers' listener breaks: its socket is shut down from outside."""
    system = ctypes.CDLL(None, use_errno=True)
    told, log = os.pipe()
    collector = Collector(options.collector, *free_ports(2), log=log)
    os.close(log)
    held = [call(collector.peers, HELLO), call(collector.peers), call(collector.admin)]
    handle = os.pidfd_open(collector.process.pid)
    for name in os.listdir(f"/proc/{collector.process.pid}/fd"):
        copy = system.syscall(438, handle, int(name), 0)
        if copy < 0:
            continue
        with socket.socket(fileno=copy) if is_socket(copy) else os.fdopen(copy) as found:
            if is_listener(found, collector.peers):
                found.shutdown(socket.SHUT_RDWR)
    start = time.monotonic()
    try:
        status = collector.process.wait(timeout=20)
    except subprocess.TimeoutExpired:
        status = collector.process.kill()
    took = time.monotonic() - start
    with os.fdopen(told) as lines:
        text = lines.read()
    report.check("where the peers' listener breaks it ends with status 5 within 6 s, and says so", 1,
                 lambda: "" if status == 5 and took < 6 and "proxies can connect no more: " in text
                 else (status, took, text[-200:]))
    for peer in held:
        peer.close()


def is_socket(descriptor):
    return os.readlink(f"/proc/self/fd/{descriptor}").startswith("socket:")


def is_listener(found, port):
    """Whether this is the socket that listens at a port."""
    if not isinstance(found, socket.socket):
        return False
    try:
        return found.getsockopt(socket.SOL_SOCKET, socket.SO_ACCEPTCONN) == 1 and found.getsockname()[1] == port
    except OSError:
        return False


def checking(report, options):
    """`--version`, `check` and `--config`."""
    def run(words, text=b""):
        done = subprocess.run([str(options.collector)] + words, input=text, capture_output=True, timeout=20)
        return done.returncode, done.stdout, done.stderr
    version = re.search(r"^## (\d[\d.]*)", CHANGELOG.read_text(), re.MULTILINE).group(1)
    report.check("the version is that of the changelog", 1, lambda: "" if
                 run(["--version"]) == (0, f"aggregator {version}\n".encode(), b"") else run(["--version"]))
    sound = CONFIG.read_bytes()
    report.check("a sound configuration is ok", 1,
                 lambda: "" if run(["check"], sound) == (0, b"ok\n", b"") else run(["check"], sound))
    named = ["check", "--config", str(CONFIG)]
    report.check("also one in a file", 1, lambda: "" if run(named) == (0, b"ok\n", b"") else run(named))
    faulty = b"name agg\npeer\ntable t type ip size 1x\npeer lb1\npeer lb1\n"
    wanted = b"config line 2: Syntax\nconfig line 3: Number\nconfig line 5: Duplicate\n"
    form = b"; write: table <name> type <type> size <rows> [keep <ms>] [store <column>,<rate>(<ms>)]\n"
    explained = (b"config line 2, word 2 is missing: expected a name; write: peer <name>\n"
                 b"config line 3, word 6 \"1x\": expected a number of 1 to 20 digits" + form +
                 b"config line 5: the name stands already, or a column or rows twice; "
                 b"a pushed filter and an ignored table have no table's name\n")
    report.check("every faulty line is told and explained", 1,
                 lambda: "" if run(["check"], faulty) == (3, wanted, explained) else run(["check"], faulty))
    status, printed, told = run(["check", "--config", "/nowhere/fleet.conf"])
    report.check("a file that isn't there is told with status 5", 1, lambda: "" if status == 5 and not printed
                 and told.startswith(b"cannot read the configuration: ") else (status, printed, told))


def scarce(report, options):
    """Descriptors run out and come back."""
    peers, admin = free_ports(2)
    limits = resource.getrlimit(resource.RLIMIT_NOFILE)
    resource.setrlimit(resource.RLIMIT_NOFILE, (64, limits[1]))
    collector = Collector(options.collector, peers, admin)
    resource.setrlimit(resource.RLIMIT_NOFILE, limits)
    crowd_of = [call(peers) for _ in range(100)]
    report.check("where silent connections have all descriptors a peer is accepted", 3,
                 lambda: accepted_within(peers, 2))
    for peer in crowd_of:
        peer.close()
    report.check("after descriptors ran out peers are served again", 8, lambda: answered(peers, HELLO, ACCEPTED))
    collector.stop()


def surroundings(report, options):
    def run(words, config):
        done = subprocess.run([str(options.collector), "listen"] + words, input=config, capture_output=True, timeout=20)
        return done.returncode, done.stdout, done.stderr
    text = CONFIG.read_bytes()
    peers, admin = (f"127.0.0.1:{port}" for port in free_ports(2))
    taken = socket.create_server(("127.0.0.1", 0))
    used = f"127.0.0.1:{taken.getsockname()[1]}"
    status, printed, told = run(["--peers", used, "--admin", admin], text)
    report.check("a port that is taken is told on standard error with status 5", 1,
                 lambda: "" if status == 5 and not printed and told.startswith(f"cannot listen at {used}: ".encode())
                 else (status, printed, told))
    status, _, told = run(["--peers", "127.0.0.1", "--admin", admin], text)
    report.check("a bad address is told with status 2", 1,
                 lambda: "" if status == 2 and b"bad address" in told else (status, told))
    wrong = text.replace(b"size 200000", b"size 0")
    status, told, explained = run(["--peers", peers, "--admin", admin], wrong)
    report.check("a fault of the configuration is told with its line and status 3", 1,
                 lambda: "" if status == 3 and told.startswith(b"config line ") else (status, told))
    report.check("and explained on standard error", 1,
                 lambda: "" if b": a size is 1 to " in explained else explained)
    for which in (signal.SIGINT, signal.SIGTERM):
        collector = Collector(options.collector, *free_ports(2))
        peer = call(collector.peers, HELLO)
        start = time.monotonic()
        collector.process.send_signal(which)
        collector.process.wait(timeout=5)
        took = time.monotonic() - start
        report.check(f"{which.name} ends it at once", 1, lambda: "" if took < 1 else took)
        again = Collector(options.collector, collector.peers, collector.admin)
        report.check("and it listens at the same addresses again", 1,
                     lambda: answered(again.peers, HELLO, ACCEPTED))
        again.stop()
        peer.close()


def starving(report, options):
    """Memory runs out while one peer's new keys are shown, which a filter holds."""
    held = {**os.environ, "MALLOC_ARENA_MAX": "2"}
    text = config(["sane", "later", "f0"], "filter f t data.gpc0 ge 1\n")
    with Collector.of(options.collector, text, env=held) as collector:
        beside = Beside(collector.peers)
        time.sleep(0.3)
        flooded(collector, ["f0"], 70, 2)
        took = cleared(collector, 16)
        status = collector.process.poll()
        report.check("where memory ran out a clear is answered, or it ended with status 5", 1,
                     lambda: "" if took is not None or status == 5 else f"neither in 16 s, status {status}")
        report.check("and then a peer, an admin, /healthz and the clock are served", 12,
                     lambda: "" if collector.process.poll() == 5 else unserved(collector, "later"))
        beside.stop()


def browsers(report, options):
    """HTTP comes to the admin address, with a command in its body."""
    def said_to(data, path=None):
        """What bytes are answered, sent over TCP or by a socket."""
        if path is None:
            admin = call(collector.admin, data, timeout=2)
        else:
            admin = socket.socket(socket.AF_UNIX)
            admin.settimeout(2)
            admin.connect(path)
            admin.sendall(data)
        with admin:
            return until_closed(admin)

    def behind(data, path=None):
        """Whether a question in front is answered, and then the connection is closed."""
        wanted = collector.ask("show table t").encode() + b"\n"
        said = said_to(b"show table t\n" + data, path)
        return "" if said == (wanted, True) else said

    def goes_on(data):
        """Whether such a line is no more than refused."""
        said, is_closed = said_to(data + b"\nquit\n")
        return "" if said.startswith(b"refused ") and is_closed else (said, is_closed)

    def posted(head):
        with call(collector.admin, head + b"Host: x\r\n\r\nclear table t\n", timeout=2) as browser:
            said, is_closed = until_closed(browser)
        used = collector.ask("show table t")
        return "" if not said and is_closed and "used:1\n" in used else (said[:40], is_closed, used)

    with Collector.of(options.collector, config(["feeder"])) as collector:
        Feeder(collector.peers).push(addresses([7]), 1)
        for head in (b"POST / HTTP/1.1\r\n", b"GET /x HTTP/1.0\r\n", b"origin: http://evil.example\r\n"):
            report.check(f"{head[:12]!r} at the admin address is closed without an answer, and does nothing", 1,
                         lambda: posted(head))
        for data in (b"OPTIONS * HTTP/1.1\r\n\r\n", b"HoSt: x\r\nclear table t\n", b"GET " + b"x" * 20_000 + b"\n"):
            report.check(f"what stands before {data[:12]!r} is answered, and nothing behind it", 1,
                         lambda: behind(data))
        for data in (b" GET / HTTP/1.1", b"get / HTTP/1.1", b"GETS / HTTP/1.1", b"Hosts: x", b"show GET "):
            report.check(f"{data[:12]!r} is a line that is refused", 1, lambda: goes_on(data))
    with tempfile.TemporaryDirectory() as folder, tempfile.TemporaryFile() as log:
        path = f"{folder}/admin"
        with Collector.of(options.collector, config(["p"]), options=["--admin-socket", path], log=log) as collector:
            report.check("so it is by the socket", 1, lambda: behind(b"TRACE / HTTP/1.1\n", path))
            for _ in range(100):
                said_to(b"GET / HTTP/1.1\r\nHost: x\r\n\r\n")
            time.sleep(1)
        log.seek(0)
        told = [line for line in log.read().splitlines() if b" warn http at the admin address" in line]
        report.check("100 browsers write 60 lines a minute", 1,
                     lambda: "" if len(told) == 60 and b" address=127.0.0.1:" in told[-1] else (len(told), told[-1:]))


def standing(report, options):
    """The clock's thread stands still, and then a whole process that goes on."""
    with tempfile.TemporaryFile() as log:
        with Collector.of(options.collector, config(["p"]), log=log) as collector:
            time.sleep(1)
            clock = threads_of(collector.process.pid)[3]
            try:
                stop_thread(clock)
            except OSError as fault:
                print(f"skipped the clock's thread: {fault}")
                return
            took = seconds_to_end(collector.process, clock, 25)
            status = collector.process.poll()
        log.seek(0)
        told = log.read()
    report.check("a collector whose clock stands still ends with status 5 within 17 s", 1,
                 lambda: "" if took and 9 < took < 17 and status == 5 else (took, status))
    report.check("and says why", 1, lambda: "" if b' error stuck reason="the clock' in told
                 and told.splitlines()[-1].startswith(b"stuck: the clock") else told)
    with Collector.of(options.collector, config(["later"])) as collector:
        collector.process.send_signal(signal.SIGSTOP)
        time.sleep(14)
        collector.process.send_signal(signal.SIGCONT)
        report.check("one that was stopped for 14 s goes on", 8, lambda: unserved(collector, "later"))
        time.sleep(3)
        report.check("and doesn't end", 1, lambda: "" if collector.process.poll() is None else collector.process.poll())


def closed_streams(report, options):
    """Standard input, output or error is closed at the start."""
    def closing(*closed):
        return lambda: [os.close(one) for one in closed]

    with tempfile.NamedTemporaryFile("w", suffix=".conf") as text:
        text.write(config(["later"]))
        text.flush()
        for closed in ((0,), (2,), (0, 2)):
            with Collector.of(options.collector, "", ["--config", text.name], preexec_fn=closing(*closed)) as collector:
                found = [os.readlink(f"/proc/{collector.process.pid}/fd/{one}") for one in closed]
                report.check(f"closed descriptors {closed} are given to no listener", 1,
                             lambda: "" if set(found) == {"/dev/null"} else found)
                report.check("and a peer is served", 8, lambda: unserved(collector, "later"))
        words = [str(options.collector), "listen", "--config", text.name]
        for option, port in zip(("--peers", "--admin"), free_ports(2)):
            words += [option, f"127.0.0.1:{port}"]
        done = subprocess.run(words, stderr=subprocess.PIPE, timeout=20, preexec_fn=closing(1))
        report.check("a closed standard output ends it with status 5", 1,
                     lambda: "" if done.returncode == 5 and b"cannot start: " in done.stderr else done)


def threadless(report, options):
    """The system starts no more threads."""
    with tempfile.TemporaryDirectory() as folder:
        with few_threads(options.collector, config(["later"]), folder) as collector:
            callers = [call(collector.peers) for _ in range(60)]
            time.sleep(1)
            closed = closed_of(callers)
            report.check("callers that get no thread are closed within a second", 1,
                         lambda: "" if closed >= 56 else f"{closed} of 60")
            for caller in callers:
                caller.close()
            report.check("and nothing of them is left", 8,
                         lambda: "" if collector.info()["waiting"] == "0" else collector.info()["waiting"])
            report.check("a peer is served then", 8, lambda: unserved(collector, "later"))


def socket_modes(report, options):
    """Who looks at the Unix socket as it comes."""
    with tempfile.TemporaryDirectory() as folder:
        path, done, found = f"{folder}/admin", FORK.Event(), FORK.Queue()
        looking = FORK.Process(target=look_at, args=(path, done, found), daemon=True)
        looking.start()
        for _ in range(20):
            with Collector.of(options.collector, config(["p"]), options=["--admin-socket", path], umask=0):
                pass
            os.unlink(path)
        done.set()
        seen = found.get(timeout=10)
    report.check("the Unix socket is never open to others, whatever the umask", 1,
                 lambda: "" if set(seen) == {0o660} else {f"{mode:o}": count for mode, count in seen.items()})


def floods(report, options):
    """What one peer or address can repeat at will is told 60 times a minute, and then counted."""
    def lines_of(act):
        with tempfile.TemporaryFile() as log:
            with Collector.of(options.collector, config(["p"]), log=log) as collector:
                for _ in range(500):
                    act(collector)
                time.sleep(1.5)
            log.seek(0)
            return log.read().splitlines()

    for name, act in (("strangers", lambda collector: reset(call(collector.peers, b"x\n"))),
                      ("connections of one name", lambda collector: call(collector.peers, hello(b"p")).close())):
        lines = lines_of(act)
        report.check(f"500 {name} write few lines", 1, lambda: "" if len(lines) < 260 else f"{len(lines)} lines")


def ended_by_reset(level, name):
    """How the log tells that a proxy reset its connection."""
    return (rf'\S+ {level} peer ended peer={name} address=127\.0\.0\.1:\d+ updates=0 cause="read failed" '
            r'error="Connection reset by peer"')


def resets(report, options):
    """A proxy that resets its connection is told of once it is back, or isn't within 10 s."""
    text = config(["p", "q", "r"])
    with tempfile.NamedTemporaryFile() as log, Collector.of(options.collector, text, log=log) as collector:
        def lines():
            return pathlib.Path(log.name).read_text().splitlines()

        def is_told(wanted):
            return "" if any(re.fullmatch(wanted, line) for line in lines()) else lines()

        def connect(name):
            peer = call(collector.peers, hello(name))
            read(peer, len(ACCEPTED))
            return peer

        for name in (b"p", b"q"):
            reset(connect(name))
        connect(b"r").close()
        start = time.monotonic()
        report.check("a proxy that closes is told of at once, as info", 1,
                     lambda: is_told(r"\S+ info peer disconnected peer=r address=\S+ updates=0"))
        time.sleep(1)
        report.check("one that resets isn't, until it calls again", 1,
                     lambda: [line for line in lines() if " ended " in line])
        back = connect(b"p")
        report.check("then it is told as info", 1, lambda: is_told(ended_by_reset("info", "p")))
        time.sleep(max(0, start + 9 - time.monotonic()))
        report.check("nothing is told of one that hasn't called for 9 s", 1,
                     lambda: [line for line in lines() if "peer=q" in line and " ended " in line])
        report.check("and it is told as a warning behind 10 s", 3, lambda: is_told(ended_by_reset("warn", "q")))
        report.check("each once", 1,
                     lambda: "" if sum("reset by peer" in line for line in lines()) == 2 else lines())
        back.close()


PUSHING = """name agg
peer feeder
peer lb1
peer lb2
table t type ip size 200000 store gpc0
filter hot t data.gpc0 ge 1
push hot
"""


def addresses(numbers):
    """The keys of these numbers, in order."""
    return [struct.pack(">I", number) for number in sorted(numbers)]


def hello(name):
    return b"HAProxyS 2.1\nagg\n" + name + b" 1 1\n"


def beat_on(peers, done):
    """Has peers that do nothing else send a heartbeat a second."""
    while not done.wait(1):
        for peer in list(peers):
            try:
                peer.send(b"\x00\x04")
            except OSError:
                pass


def pushing(report, options, count=100_000):
    """Proxies that are told a pushed filter, and don't behave."""
    with tempfile.NamedTemporaryFile("w", suffix=".conf") as text:
        text.write(PUSHING)
        text.flush()
        collector = Collector(options.collector, *free_ports(2), config=text.name)
    feeder, proxy = Feeder(collector.peers), Proxied(collector.peers, "lb2")
    deaf_one = socket.socket()
    deaf_one.setsockopt(socket.SOL_SOCKET, socket.SO_RCVBUF, 4096)
    deaf_one.connect(("127.0.0.1", collector.peers))
    deaf_one.sendall(hello(b"lb1"))
    deaf_one.setblocking(False)
    beaten, done = [deaf_one], threading.Event()
    threading.Thread(target=beat_on, args=(beaten, done), daemon=True).start()
    every = set(range(1, count + 1))
    feeder.push(addresses(every), 1)
    report.check(f"beside a proxy that reads nothing another one is told a set of {count} keys", 4,
                 lambda: "" if proxy.keys == every else f"{len(proxy.keys)} of {len(every)} keys")
    report.check("each of them once", 1, lambda: "" if proxy.puts == len(every) else proxy.puts)

    def is_ended():
        peers = collector.ask("show peers")
        return "" if re.search(r"lb1 state=(?!connected)", peers) else peers
    report.check("the one that reads nothing is ended", 20, is_ended)
    beaten.remove(deaf_one)
    deaf_one.close()
    feeder.push(addresses(every), 0)
    report.check("all of it is taken away again", 4, lambda: "" if not proxy.keys else f"{len(proxy.keys)} keys are left")
    misbehaving(report, collector, feeder, proxy)
    done.set()
    collector.stop()


def misbehaving(report, collector, feeder, proxy):
    """One proxy that says what nobody asked for, beside another one."""
    liar = Proxied(collector.peers, "lb1")
    liar.send_on(message(ACKNOWLEDGED, b"\x01\xff\xff\xff\xff") + message(ACKNOWLEDGED, b"\x09\x00\x00\x00\x07"), 0.3)
    feeder.push(addresses([7]), 1)
    report.check("a proxy that acknowledges what was never sent is told on", 2,
                 lambda: "" if liar.keys == {7} else liar.keys)
    own = message(DEFINITION, b"\x05\x03hot" + bytes([4, 4, 4]) + put_int(10000))
    liar.others.clear()
    liar.send_on(own + message(UPDATES[0], struct.pack(">II", 1, 99) + b"\x01"), 0.3)
    report.check("rows that it pushes of the pushed table are passed over, without an acknowledgement", 1,
                 lambda: "" if (10, ACKNOWLEDGED) not in liar.others and collector.keys("hot") == {"0.0.0.7"}
                 else (liar.others[:5], collector.keys("hot")))
    some = set(range(1, 101))
    feeder.push(addresses(some), 1)
    report.check("a set of a hundred keys is told", 1, lambda: "" if liar.keys == some else len(liar.keys))
    before = liar.puts
    liar.send_on(b"\x00\x00" * 100, 2)
    puts = liar.puts - before
    report.check("where it asks for all of it all the time, each turn tells the set once", 1,
                 lambda: "" if liar.keys == some and puts <= 45 * 100 else (len(liar.keys), puts))
    for turn in range(200):
        feeder.push(addresses(some), turn % 2)
    report.check("a set that flips all the time is told as it stands at last", 2,
                 lambda: "" if liar.keys == proxy.keys == some else (len(liar.keys), len(proxy.keys)))
    report.check("nothing of it stays in memory", 5,
                 lambda: "" if collector.resident() < 120_000_000 else collector.resident())


PARTS = (scarce, starving, browsers, standing, closed_streams, threadless, socket_modes, floods, resets, elsewhere,
         unknown, mute, broken, pushing, checking, surroundings)


def main():
    words = argparse.ArgumentParser(description=__doc__, formatter_class=argparse.RawDescriptionHelpFormatter)
    words.add_argument("--collector", default=COLLECTOR, help="the program that is checked")
    words.add_argument("--only", choices=[part.__name__ for part in PARTS], action="append",
                       help="one of the parts that start collectors of their own; may be repeated")
    options = words.parse_args()
    wants(program=options.collector)
    ends_cleanly()
    resource.setrlimit(resource.RLIMIT_NOFILE, (4096, resource.getrlimit(resource.RLIMIT_NOFILE)[1]))
    report = Report()
    if not options.only:
        collector = Collector(options.collector, *free_ports(2))
        for part in (verdicts, streams, crowd, newer, strangers, deaf, silence, admins, slow_admins):
            part(report, collector)
        collector.stop()
    for part in PARTS:
        if part.__name__ in (options.only or [part.__name__]):
            part(report, options)
    report.end()


if __name__ == "__main__":
    main()
