#!/usr/bin/env python3
"""Tells the first story of a fleet: two real proxies, a client whom neither sees whole, and both refuse it.

    tools/try/story.py [--recorded] [PROGRAM]

./try runs this once haproxy and curl are there. With --recorded it wants neither, and replays what two proxies sent
(examples/two_proxies.script). PROGRAM is crates/aggregator/out/aggregator, or `aggregator` on the
path, unless another is named. Where none stands, the sources run without a proof by `rt try`, which takes some minutes,
and says so every ten seconds. All addresses are free ones of this machine, and all processes end with it. The status is
0 where both proxies refused the client and served another, or are told to, and else 1.
"""

import argparse
import contextlib
import http.client
import os
import pathlib
import shutil
import signal
import subprocess
import sys
import tempfile
import threading
import time

sys.path.insert(0, str(pathlib.Path(__file__).resolve().parents[1]))

from lib import stamp
from lib.asking import ask
from lib.collector import REPOSITORY, answers, end, free_ports, rows_of, wait_for
from lib.proxies import ACTING, ACTING_PROXY, HAPROXY, Proxy

RECORDING = REPOSITORY / "examples/two_proxies.script"
CLIENT, OTHER = "10.0.0.66", "10.0.0.7"
LIMIT = 100
MOST = 1800  # s within which a run without a proof begins
HOURS = "1 to 2 hours on 4 processors; it says how far it is"


class Failed(Exception):
    """Something isn't as it should be."""


@contextlib.contextmanager
def undisturbed():
    """Has signals that end this wait until what was started is known."""
    came = []
    old = {sign: signal.signal(sign, lambda number, _: came.append(number)) for sign in (signal.SIGINT, signal.SIGTERM)}
    try:
        yield
    finally:
        for sign, handler in old.items():
            signal.signal(sign, handler)
    for number in came:
        signal.raise_signal(number)


def unproved(words):
    """The words that run the sources without a proof."""
    # (the compiled run alone counts: the interpreter can't run what reads arguments)
    return ["rt", "try", "--steps", "1000", "--seconds", str(2 * MOST), "--", *words]


class Compiling:
    """Says how long it has taken, where it may take long."""

    def __init__(self, every):
        self.start, self.told, self.every = time.monotonic(), 0, every

    def tell(self):
        """A line each so many seconds; how many it has taken."""
        took = time.monotonic() - self.start
        if self.every and took > self.told + self.every:
            self.told += self.every
            print(f"  {self.told // 60}:{self.told % 60:02} compiling without a proof: some 5 minutes, or more", flush=True)
        return took


class Fleet:
    """A collector, and proxies beside it, or a recording of theirs."""

    def __init__(self, folder):
        self.folder = folder
        self.peers, self.admin = free_ports(2)
        self.process, self.proxies = None, []

    def words(self):
        """What the collector is given."""
        return ["listen", "--peers", f"127.0.0.1:{self.peers}", "--admin", f"127.0.0.1:{self.admin}"]

    def start(self, program):
        """Starts a built program."""
        self.begin([str(program), *self.words()], self.folder, ACTING)
        self.await_start(10, None)

    def start_unproved(self):
        """Starts the sources without a proof, and says how long it takes."""
        self.begin(unproved(self.words()), REPOSITORY / "crates/aggregator", ACTING)
        self.await_start(MOST, 10)

    def replay(self, program):
        """What the recording prints, by a built program or, where there is none, by the sources without a proof."""
        if program:
            self.begin([str(program), "replay"], self.folder, RECORDING)
        else:
            self.begin(unproved(["replay"]), REPOSITORY / "crates/aggregator", RECORDING)
        compiling = Compiling(None if program else 10)
        while self.process.poll() is None:
            if compiling.tell() > MOST:
                raise Failed("\n".join(["the recording wasn't replayed:", *self.said()]))
            time.sleep(0.1)
        return (self.folder / "log").read_text(errors="replace")

    def said(self):
        """The last lines that the collector's process, or what compiles it, said."""
        return (self.folder / "log").read_text(errors="replace").strip().splitlines()[-5:]

    def begin(self, words, where, told):
        """Starts the collector's process in a session of its own, so that all it starts can be ended."""
        environment = dict(os.environ, TMPDIR=str(self.folder))
        with open(told, "rb") as text, open(self.folder / "log", "wb") as log, undisturbed():
            how = {"env": environment, "stdin": text, "stdout": log, "stderr": log, "start_new_session": True}
            self.process = subprocess.Popen(words, cwd=where, **how)

    def await_start(self, seconds, every):
        """Waits until it listens. Where it may take long, says how long it has taken every so many seconds."""
        compiling = Compiling(every)
        while not answers(self.admin):
            if self.process.poll() is not None or compiling.tell() > seconds:
                raise Failed("\n".join(["the collector didn't start:", *self.said()]))
            time.sleep(0.1)

    def add(self, name):
        """Starts a proxy that pushes to the collector and is told by it."""
        with undisturbed():
            self.proxies.append(Proxy(name, self.peers, self.folder, config=ACTING_PROXY))

    def ask(self, command):
        return ask(("127.0.0.1", self.admin), command, timeout=30)

    def end_process(self):
        """Ends the collector, or what compiles it. (rt ends what it started, in sessions of their own, before itself.)"""
        if not self.process:
            return
        with contextlib.suppress(OSError):
            self.process.send_signal(signal.SIGTERM)
        try:
            self.process.wait(timeout=30)
        except subprocess.TimeoutExpired:
            with contextlib.suppress(OSError):
                os.killpg(self.process.pid, signal.SIGKILL)
        end(self.process)
        for pid in self.left():
            with contextlib.suppress(OSError):
                os.kill(pid, signal.SIGKILL)

    def stop(self):
        """Ends all of it."""
        for proxy in self.proxies:
            proxy.kill()
        self.end_process()

    def left(self):
        """Processes that have this collector's addresses, which are nobody else's: a proxy too that just began."""
        signs = {"cmdline": f"127.0.0.1:{self.admin}\0", "environ": f"COLLECTOR_PORT={self.peers}\0"}
        for folder in pathlib.Path("/proc").glob("[0-9]*"):
            for file, sign in signs.items():
                with contextlib.suppress(OSError):
                    if sign.encode() in (folder / file).read_bytes() and int(folder.name) != os.getpid():
                        yield int(folder.name)


def send(proxy, client, count):
    """Sends requests of a client through a proxy."""
    found = http.client.HTTPConnection("127.0.0.1", proxy.http, timeout=10)
    for _ in range(count):
        found.request("GET", "/", headers={"x-forwarded-for": client})
        found.getresponse().read()
    found.close()


def by_curl(proxy, client):
    """The status that curl prints."""
    words = ["curl", "-s", "-o", "/dev/null", "-w", "%{http_code}", "-H", f"x-forwarded-for: {client}",
             f"http://127.0.0.1:{proxy.http}/"]
    return subprocess.run(words, capture_output=True, text=True, timeout=20).stdout


def count_of(rows, client):
    """How many requests of a client in ten seconds a table's rows tell."""
    row = rows.get(client, {})
    return next((int(value) for name, value in row.items() if name.startswith("http_req_rate")), 0)


def exceed(fleet):
    """Has the client ask through both proxies at once, until the fleet's sum is above the limit."""
    # (one after the other, the first would be forgotten on a slow machine before the last is sent; on a very slow one
    # ten seconds aren't enough for all, so they are sent again)
    for left in (2, 1, 0):
        sending = [threading.Thread(target=send, args=(proxy, CLIENT, 60)) for proxy in fleet.proxies]
        for sender in sending:
            sender.start()
        for sender in sending:
            sender.join()
        try:
            wait_for("the fleet's sum", 3, lambda: count_of(rows_of(fleet.ask("show table clients")), CLIENT) > LIMIT)
            return wait_for("the filter", 5, lambda: rows_of(fleet.ask("show filter abusers")))
        except TimeoutError as fault:
            if not left:
                raise Failed(str(fault)) from fault


def tell_recorded(printed):
    """The same story, as a recording has it."""
    said = RECORDING.read_text().split("\nmoment ")[-1]
    views = [rows_of(said[said.index(f"# {name} says"):]) for name in ("lb1", "lb2")]
    at = printed.rfind("# table: clients")
    sums, _, told = printed[max(at, 0):].partition("# filter: abusers")
    held, *tables = told.split("# table: abusers")
    print("Two HAProxies, lb1 and lb2, pushed what they count to a collector. The fleet's limit: 100 requests in 10 s.")
    print(f"{CLIENT} sent 60 requests through each; {OTHER} sent 5 through lb1.")
    for name, rows in zip(("lb1", "lb2"), views):
        print(f"  {name} sees       {count_of(rows, CLIENT):4} in 10 s: below the limit")
    fleets = count_of(rows_of(sums), CLIENT)
    print(f"  the fleet sees {fleets:4} in 10 s: `show filter abusers` has {', '.join(rows_of(held))}")
    sets = [", ".join(rows_of(table)) for table in tables]
    if fleets <= LIMIT or list(rows_of(held)) != [CLIENT] or sets != [CLIENT, CLIENT]:
        raise Failed("the recording isn't answered as it should be:\n" + printed[-1000:])
    print(f"Both are told: lb1's table `abusers` has {sets[0]} now, and lb2's {sets[1]}. A rule there refuses it with 429.")
    print("This was a recording (examples/two_proxies.script). With haproxy and curl installed, ./try shows real proxies.")


def tell(fleet):
    """The story, as it happens."""
    for name in ("lb1", "lb2"):
        fleet.add(name)
    first, second = fleet.proxies
    wait_for("both proxies at the collector", 30, lambda: fleet.ask("show peers").count("state=connected") == 2)
    print("Two HAProxies, lb1 and lb2, push what they count to a collector. The fleet's limit: 100 requests in 10 s.")
    print(f"{CLIENT} sends 60 requests through each; {OTHER} sends 5 through lb1.", flush=True)
    send(first, OTHER, 5)
    key = exceed(fleet)
    for proxy in fleet.proxies:
        print(f"  {proxy.name} sees       {count_of(proxy.rows(), CLIENT):4} in 10 s: below the limit")
    fleets = count_of(rows_of(fleet.ask("show table clients")), CLIENT)
    print(f"  the fleet sees {fleets:4} in 10 s: `show filter abusers` has {', '.join(key)}", flush=True)
    print(f"Both were told, and refuse it: curl -H 'x-forwarded-for: {CLIENT}' http://127.0.0.1:{first.http}/")
    try:
        wait_for("429 from both", 4, lambda: all(by_curl(proxy, CLIENT) == "429" for proxy in (first, second)))
        print(f"  lb1 answers {by_curl(first, CLIENT)}, lb2 answers {by_curl(second, CLIENT)}; "
              f"{OTHER} gets {by_curl(second, OTHER)}", flush=True)
        wait_for("200 for another client", 2, lambda: by_curl(second, OTHER) == "200")
    except TimeoutError as fault:
        raise Failed(str(fault)) from fault


def ending(program, is_built):
    """What was proved of what ran."""
    if not is_built:
        return ("This was an unproved run: the sources, compiled without a proof.\n"
                f"A proved program: ./build ({HOURS}). ./try takes ten seconds then.")
    found = stamp.read(program)
    if not found:
        return f"{program} ran: nothing beside it says that it was proved. A proved one: ./build ({HOURS})."
    which = f"commit {found['commit'][:8]}, {found['kit']}"
    return f"Every function of this program was proved: {found['verdict']}, {which}."


def installed():
    """The program that ./build made, or else one on the path, as a package puts there."""
    found = shutil.which("aggregator")
    return stamp.PROGRAM if os.access(stamp.PROGRAM, os.X_OK) or not found else pathlib.Path(found)


def main():
    words = argparse.ArgumentParser(description=__doc__, formatter_class=argparse.RawDescriptionHelpFormatter)
    words.add_argument("program", nargs="?", type=pathlib.Path, help="the program that is tried")
    words.add_argument("--recorded", action="store_true", help="replay what two proxies sent, without haproxy")
    options = words.parse_args()
    program = options.program or installed()
    is_built = os.access(program, os.X_OK)
    if options.program and not is_built:
        words.error(f"{program} isn't a program")
    if not options.recorded and not shutil.which(HAPROXY):
        words.error(f"{HAPROXY} isn't there")
    if not is_built and not shutil.which("rt"):
        sys.exit("No program is built or installed, and rt, the command of the Rattle kit that README.md names, isn't on "
                 "the path. With a program elsewhere: ./try PROGRAM")
    signal.signal(signal.SIGTERM, lambda *_: sys.exit(143))
    # A shell that starts this in the background lets it ignore SIGINT.
    signal.signal(signal.SIGINT, signal.default_int_handler)
    with tempfile.TemporaryDirectory(prefix="sesamejoist-") as folder:
        fleet = Fleet(pathlib.Path(folder))
        try:
            if not is_built:
                print("No program is built, so the sources are compiled without a proof, and run.", flush=True)
            if options.recorded:
                tell_recorded(fleet.replay(program.resolve() if is_built else None))
            elif is_built:
                fleet.start(program.resolve())
                tell(fleet)
            else:
                fleet.start_unproved()
                tell(fleet)
            print(ending(program, is_built))
        except (Failed, TimeoutError) as fault:
            print(f"It failed: {fault}", file=sys.stderr)
            if not is_built:
                print(f"A proved program: ./build ({HOURS}).", file=sys.stderr)
            return 1
        except KeyboardInterrupt:
            return 130
        finally:
            fleet.stop()
    return 0


if __name__ == "__main__":
    sys.exit(main())
