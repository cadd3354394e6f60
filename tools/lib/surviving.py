"""What a collector is put through by attacks and checks, and whether all is served afterwards.

All speak of a table `t` of IPv4 keys with gpc0 alone, as lib/beside.py does.
"""

import contextlib
import os
import pathlib
import re
import resource
import signal
import time

from lib.beside import TURN, Flood, get, last_of, rows, seated
from lib.collector import REPOSITORY, Collector, status_of

MEGA = 1 << 20
SCATTER = 2147483647
ANOTHER = 64231  # a user of no other process
PATIENCE = 180  # s in which a flood has to hit its limit, on a slow machine


def config(names, more="", size=1_000_000):
    """A configuration with these peers and one table `t` with gpc0."""
    peers = "".join(f"peer {name}\n" for name in names)
    return f"name agg\n{peers}table t type ip size {size} store gpc0\n{more}"


def scattered(count):
    """Key numbers in a scattered order."""
    return [0x0A000000 + place * SCATTER % count for place in range(count)]


def without(*names):
    """The environment without these variables."""
    return {name: value for name, value in os.environ.items() if name not in names}


def of_unit():
    """The environment of the package's unit."""
    unit = (REPOSITORY / "packaging/sesamejoist.service").read_text()
    named = [word.split("=", 1) for line in re.findall(r"^Environment=(.*)$", unit, re.M) for word in line.split()]
    return {**without("MALLOC_ARENA_MAX"), **dict(named)}


def acknowledged(peer, data, last, seconds):
    """Whether a peer's update is acknowledged in that time."""
    peer.settimeout(0.2)
    peer.sendall(data)
    unread, ends = b"", time.monotonic() + seconds
    while time.monotonic() < ends:
        with contextlib.suppress(TimeoutError):
            more = peer.recv(TURN)
            if not more:
                return False
            found, unread = last_of(unread + more)
            if found == last:
                return True
    return False


def unserved(collector, name, seconds=3):
    """What of a peer, an admin, /healthz and the clock isn't served within so many seconds each, or nothing."""
    missing = []
    try:
        peer = seated(collector.peers, name, timeout=seconds)
        if not peer:
            return "a peer isn't accepted"
        with peer:
            if not acknowledged(peer, rows(1, [0xC0000201], 1, life=300), 1, seconds):
                missing.append("a peer isn't acknowledged")
            time.sleep(1)
            if "key=192.0.2.1 " in collector.ask("show table t key 192.0.2.1", timeout=seconds):
                missing.append("rows don't end")
        info = collector.info(timeout=seconds)
        behind = int(info["uptime_ms"]) - int(info["now_ms"])
        if behind > 1500:
            missing.append(f"the clock is {behind} ms behind")
    except (OSError, KeyError) as fault:
        missing.append(f"admin or peer: {fault}")
    status = get(collector.http, "/healthz", timeout=seconds)[0]
    if status != 200:
        missing.append(f"/healthz {status or 'not answered'}")
    return ", ".join(missing)


def cleared(collector, seconds, table="t"):
    """The seconds until a `clear table` is answered, or none where it isn't in time, or the process ended."""
    start = time.monotonic()
    while time.monotonic() - start < seconds and collector.process.poll() is None:
        with contextlib.suppress(OSError):
            if collector.ask(f"clear table {table}", timeout=4) == "ok\n":
                return time.monotonic() - start
        time.sleep(0.2)
    return None


def flooded(collector, flooders, room, seconds, table="t", patience=PATIENCE):
    """Lets flooders push new keys into so many more MB of addresses, some seconds longer than the first is cut;
    resident memory at that time, and the moment of it. The limit stays until `unlimited`. RuntimeError where it wasn't
    hit within so many seconds as there is patience."""
    limit = status_of(collector.process.pid, "VmSize") + room * MEGA
    hard = resource.prlimit(collector.process.pid, resource.RLIMIT_AS)[1]
    resource.prlimit(collector.process.pid, resource.RLIMIT_AS, (limit, hard))
    flood = Flood(collector.peers, flooders, table)
    start = time.monotonic()
    while not flood.cut.value and time.monotonic() - start < patience and collector.process.poll() is None:
        time.sleep(0.05)
    held, cut = collector.resident(), time.monotonic()
    was_hit = flood.cut.value > 0 or collector.process.poll() is not None
    time.sleep(seconds if was_hit else 0)
    flood.stop()
    if not was_hit:
        raise RuntimeError(f"the flood didn't hit the limit of {limit >> 20} MB within {patience:.0f} s")
    return held, cut


def unlimited(collector):
    """Takes the limit of addresses away again."""
    hard = resource.prlimit(collector.process.pid, resource.RLIMIT_AS)[1]
    resource.prlimit(collector.process.pid, resource.RLIMIT_AS, (hard, hard))


def until_closed(peer):
    """What a connection says, and whether it is closed in time."""
    said = b""
    try:
        while more := peer.recv(TURN):
            said += more
    except TimeoutError:
        return said, False
    except OSError:
        pass
    return said, True


def tasks_of_user():
    """How many threads this user's programs have."""
    count = 0
    for task in pathlib.Path("/proc").glob("[0-9]*/task/*"):
        with contextlib.suppress(OSError):
            count += task.stat().st_uid == os.getuid()
    return count


def look_at(path, done, found):
    """Looks at a file's mode in a tight loop, and counts each that it sees."""
    signal.signal(signal.SIGINT, signal.SIG_IGN)
    seen = {}
    while not done.is_set():
        for _ in range(2000):
            try:
                mode = os.stat(path).st_mode & 0o777
            except OSError:
                continue
            seen[mode] = seen.get(mode, 0) + 1
    found.put(seen)


@contextlib.contextmanager
def few_threads(program, text, folder):
    """A collector for which the system starts two threads more than it has at rest. A root program runs it as a user of
    no other process, since nothing is refused to root."""
    is_root = os.geteuid() == 0
    how = {"user": ANOTHER} if is_root else {}
    os.chmod(folder, 0o755)
    own, limited = pathlib.Path(folder) / "aggregator", pathlib.Path(folder) / "limited"
    own.write_bytes(pathlib.Path(program).read_bytes())
    own.chmod(0o755)
    with Collector.of(own, text, **how) as collector:
        threads, before = collector.threads(), 0
        while threads != before:
            time.sleep(0.5)
            threads, before = collector.threads(), threads
        limit = threads + 2 + (0 if is_root else tasks_of_user())
    limited.write_text(f'#!/bin/sh\nexec prlimit --nproc={limit}:{limit} "{own}" "$@"\n')
    limited.chmod(0o755)
    with Collector.of(limited, text, **how) as collector:
        yield collector


def closed_of(callers):
    """How many of these connections the other side has closed."""
    closed = 0
    for caller in callers:
        caller.setblocking(False)
        try:
            closed += caller.recv(10) == b""
        except ConnectionResetError:
            closed += 1
        except BlockingIOError:
            pass
    return closed
