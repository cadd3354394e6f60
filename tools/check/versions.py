#!/usr/bin/env python3
"""Tries the collector with HAProxies of several versions, and says line by line what passed.

    tools/check/versions.py [--collector PROGRAM] [--times 3] [--only NAME] HAPROXY ..

Each HAPROXY is a program by its path (tools/README.md says how to have several). For each of them:

    columns    arrays, failures and glitches are what the proxy's own `show table` says
    import     what `import` makes of the proxy's file follows its tables, `type ipv4` among them
    introduced a reload that names the collector for the first time, and two reloads behind it, lose no row
    restarted  a collector that starts beside a reload is taught every row
    mesh       three proxies that share a table beside the collector are counted once, also behind a restart
    churn      6,000 clients of one request, then one of 450: who is seen, with `size`, `keep` and neither

and `fleet` has one proxy of each version at one collector. It wants a built program. The last line counts passed and
failed; the status is 1 where one failed, and 2 where something is missing.
"""

import argparse
import collections
import concurrent.futures
import pathlib
import re
import socket
import struct
import subprocess
import sys
import tempfile
import time
import urllib.request

sys.path.insert(0, str(pathlib.Path(__file__).resolve().parents[1]))

from lib.collector import COLLECTOR, Collector, free_ports, wait_for
from lib.needs import ends_cleanly, wants
from lib.proxies import ACTING, ACTING_PROXY, Proxy, kill_all, status
from lib.report import Report

HEAD = """global
    stats socket "$DIR/${HAPROXY_LOCALPEER}.sock" level admin
defaults
    mode http
    timeout client 10s
    timeout server 10s
    timeout connect 1s
"""
SECTION = """peers fleet
    peer "${HAPROXY_LOCALPEER}" "127.0.0.1:${OWN_PORT}"
"""
NAMED = """    peer agg "127.0.0.1:${COLLECTOR_PORT}"
"""
WWW = """frontend www
    bind "127.0.0.1:${HTTP_PORT}"
    http-request track-sc0 hdr_ip(x-forwarded-for) table clients
    http-request return status 200 content-type text/plain string "ok"
"""
CLIENTS = """backend clients
    stick-table type ip size 1k expire 10m store gpc0,http_req_cnt,http_req_rate(10s) peers fleet
"""
GLITCHES = "glitch_cnt,glitch_rate(10s)"
COLUMNS = """backend mixed
    stick-table type TYPE size 1k expire 60s store gpt(2),gpc(3),gpc_rate(2,10s),http_req_cnt,http_req_rate(7s),\
http_fail_cnt,http_fail_rate(20s)MORE peers fleet
backend app
    server s1 "127.0.0.1:${APP_PORT}"
frontend answers
    bind "127.0.0.1:${APP_PORT}"
    http-request return status 500 if { path_beg /bad }
    http-request return status 200 content-type text/plain string "ok"
frontend www
    bind "127.0.0.1:${HTTP_PORT}"
    tcp-request connection track-sc0 src table mixed
    http-request sc-inc-gpc(0,0)
    http-request sc-inc-gpc(2,0)
    default_backend app
"""
MESH = """peers mesh
    peer lb1 "127.0.0.1:${MESH_1}"
    peer lb2 "127.0.0.1:${MESH_2}"
    peer lb3 "127.0.0.1:${MESH_3}"
"""
SHARED = """backend shared
    stick-table type ip size 1k expire 10m store gpc0 peers mesh
"""


# s. A HAProxy that is reloaded within its first 5 s hands no row on to its new worker, whatever its version.
GROWN = 6


class Version:
    """One HAProxy: its program, and what it tells of itself."""

    def __init__(self, program):
        said = subprocess.run([program, "-v"], capture_output=True, text=True, check=True).stdout
        self.program, self.text = program, re.search(r"version (\S+)", said).group(1)
        self.number = tuple(int(part) for part in re.findall(r"\d+", self.text)[:2])

    def __str__(self):
        return self.text


class Trial:
    """A folder, a collector and proxies of one version, which all end with it."""

    def __init__(self, options, version, fleet):
        self.options, self.version, self.proxies = options, version, []
        self.place = tempfile.TemporaryDirectory()
        self.folder = pathlib.Path(self.place.name)
        self.log = open(self.folder / "log", "ab")
        self.conf = self.folder / "fleet.conf"
        self.conf.write_text(fleet)
        self.collector = self.started(*free_ports(2))

    def started(self, *ports):
        """The collector, on these ports."""
        return Collector(self.options.collector, *ports, config=self.conf, log=self.log)

    def __enter__(self):
        return self

    def __exit__(self, *_):
        kill_all(self.proxies, self.collector)
        self.log.close()
        self.place.cleanup()

    def proxy(self, text, name="lb1", version=None, master=False, **environment):
        """Starts a proxy with this configuration."""
        config = self.folder / f"{name}.cfg"
        config.write_text(text)
        program = (version or self.version).program
        proxy = Proxy(name, self.collector.peers, self.folder, config, master=master, program=program, **environment)
        self.proxies.append(proxy)
        return proxy

    def restart(self):
        """Ends the collector and starts it again."""
        self.collector.stop()
        self.collector = self.started(self.collector.peers, self.collector.admin)

    def all_there(self):
        """Waits until all its proxies are at the collector."""
        wait_for("the proxies at the collector", 15, lambda: (
            self.collector.ask("show peers").count("state=connected") == len(self.proxies)))

    def told(self):
        """What the log has."""
        return (self.folder / "log").read_text()


def frame(kind, flags, stream, payload=b""):
    """A frame of HTTP/2."""
    return struct.pack(">I", len(payload))[1:] + bytes([kind, flags]) + struct.pack(">I", stream) + payload


def glitch(proxy, client):
    """A request over HTTP/2 in pieces of one byte, which HAProxy counts as glitches."""
    header = bytes([0x82, 0x86, 0x84, 0x41, 1]) + b"a" + bytes([0, 1]) + b"x" + bytes([66]) + b"y" * 66
    pieces = b"".join(frame(9, 0, 1, header[at:at + 1]) for at in range(1, len(header) - 2))
    with socket.create_connection(("127.0.0.1", proxy.http), source_address=(client, 0)) as wire:
        wire.sendall(b"PRI * HTTP/2.0\r\n\r\nSM\r\n\r\n" + frame(4, 0, 0))
        wire.sendall(frame(1, 1, 1, header[:1]) + pieces + frame(9, 4, 1, header[-2:]))
        wire.settimeout(2)
        wire.recv(1 << 16)


def request(proxy, client, path):
    """A request from an address of this machine."""
    with socket.create_connection(("127.0.0.1", proxy.http), source_address=(client, 0)) as wire:
        wire.sendall(f"GET {path} HTTP/1.1\r\nHost: a\r\nConnection: close\r\n\r\n".encode())
        while wire.recv(1 << 16):
            pass


def unlike(collector, proxies, table, columns):
    """Cells that aren't the sum of what the proxies show, as (key, column, here, there)."""
    there = collections.Counter()
    for proxy in proxies:
        for key, row in proxy.rows(table).items():
            for column in columns:
                there[key, column] += int(row[column])
    rows = collector.rows(table)
    here = {(key, column): int(row[column]) for key, row in rows.items() for column in columns}
    return [(*at, here.get(at), there.get(at)) for at in {**there, **here} if here.get(at) != there.get(at)][:4]


def miscounted(trial, column="http_req_cnt"):
    """What is wrong with the collector's sums of a column of `clients`, or nothing."""
    return unlike(trial.collector, trial.proxies, "clients", [column]) or not trial.collector.rows()


def columns(report, options, version):
    """Each column that came later than 2.0, beside requests that fail and a client with glitches."""
    newer = version.number >= (3, 0)
    text = COLUMNS.replace("TYPE", "ipv4" if version.number >= (3, 2) else "ip")
    text = HEAD + SECTION + NAMED + text.replace("MORE", "," + GLITCHES if newer else "")
    names = ["gpc0", "gpc1", "gpc0_rate(10000)", "gpc1_rate(10000)", "http_req_cnt", "http_req_rate(7000)",
             "http_fail_cnt", "http_fail_rate(20000)"] + (["glitch_cnt", "glitch_rate(10000)"] if newer else [])
    table = f"table mixed type ipv4 size 5000 store {','.join(names)}"
    with Trial(options, version, f"name agg\npeer lb1\n{table}\n") as trial:
        proxy = trial.proxy(text, APP_PORT=str(free_ports(1)[0]))
        trial.all_there()
        for client in range(2, 6):
            for path in ["/"] * client + ["/bad"] * (client - 1):
                request(proxy, f"127.0.0.{client}", path)
        if newer:
            glitch(proxy, "127.0.0.7")
        report.check(f"{version}: arrays, failures and glitches are those of the proxy", 5,
                     lambda: unlike(trial.collector, [proxy], "mixed", names))
        seen = {name: max(int(row[name]) for row in proxy.rows("mixed").values()) for name in names}
        unseen = [name for name, most in seen.items() if not most and name not in ("gpc1", "gpc1_rate(10000)")]
        report.tell(f"{version}: each column but those of gpc1 had a value above 0", unseen)
        told = trial.collector.ask("show peers lb1")
        report.tell(f"{version}: nothing that is configured is told as missing",
                    "" if told.strip() == "table=mixed state=followed" else told)
        log = [line for line in trial.told().splitlines() if "columns not kept" in line]
        report.tell(f"{version}: what isn't kept is told by name", "" if "columns=gpt" in log[0] else log)


def imported(report, options, version):
    """The configuration that `import` makes of the proxy's own file."""
    kind = "ipv4" if version.number >= (3, 2) else "ip"
    text = HEAD + SECTION + NAMED + CLIENTS.replace("type ip", f"type {kind}") + WWW
    file = text.replace('"${HAPROXY_LOCALPEER}"', "lb1")
    made = subprocess.run([options.collector, "import"], input=file, capture_output=True, text=True, check=True).stdout
    with Trial(options, version, made) as trial:
        proxy = trial.proxy(text)
        proxy.requests("10.0.0.1", 3)
        report.check(f"{version}: `import` of type {kind} follows the table", 10, lambda: (
            miscounted(trial) or miscounted(trial, "http_req_rate(10000)")))


FLEET = "name agg\npeer lb1\npeer lb2\npeer lb3\ntable clients type ip size 5000 store gpc0,http_req_cnt\n"


def taught(trial, seconds):
    """Waits until the collector has the proxy's rows: how long it took, or what it lacks."""
    began, wrong = time.monotonic(), True
    while wrong and time.monotonic() < began + seconds:
        time.sleep(0.02)
        try:
            wrong = miscounted(trial) or len(trial.collector.rows()) < 8
        except (OSError, KeyError):
            continue
    return (None, wrong) if wrong else (time.monotonic() - began, None)


def introduced(report, options, version):
    """A HAProxy names the collector first by a reload, and is reloaded twice again."""
    def one(_):
        with Trial(options, version, FLEET) as trial:
            text = HEAD + SECTION + CLIENTS + WWW
            proxy = trial.proxy(text, master=True)
            for client in range(1, 9):
                proxy.requests(f"10.0.0.{client}", client)
            time.sleep(GROWN)
            (trial.folder / "lb1.cfg").write_text(text.replace(SECTION, SECTION + NAMED))
            proxy.reload()
            took, wrong = taught(trial, 30)
            for _ in range(2):
                proxy.reload()
                time.sleep(1)
                proxy.requests("10.0.0.1", 1)
                wrong = wrong or taught(trial, 30)[1]
            return took, wrong

    repeated(report, f"{version}: three reloads, the first of which names the collector", options, one)


def restarted(report, options, version):
    """A HAProxy is reloaded 0 to 0.3 s behind the collector's start."""
    def one(number):
        with Trial(options, version, FLEET) as trial:
            proxy = trial.proxy(HEAD + SECTION + NAMED + CLIENTS + WWW, master=True)
            for client in range(1, 9):
                proxy.requests(f"10.0.0.{client}", client)
            time.sleep(GROWN)
            trial.restart()
            time.sleep(0.1 * (number % 4))
            proxy.reload()
            return taught(trial, 30)

    repeated(report, f"{version}: a restart of the collector beside a reload", options, one)


def repeated(report, name, options, one):
    """Does one thing several times, two at once, and tells how it went."""
    def tried(number):
        try:
            return one(number)
        except (RuntimeError, TimeoutError) as fault:
            return None, str(fault)

    with concurrent.futures.ThreadPoolExecutor(2) as pool:
        found = list(pool.map(tried, range(options.times)))
    times = sorted(took for took, wrong in found if took is not None and not wrong)
    wrong = [wrong for _, wrong in found if wrong]
    report.tell(f"{name}: {len(times)} of {options.times}", wrong[:2])
    if times:
        late = sum(took > 1.9 for took in times)
        print(f"        the last row came after {times[0]:.1f} to {times[-1]:.1f} s, {late} times after 1.9 s or more")


def started_mesh(trial, sections, more=""):
    """Three HAProxies with these `peers` sections, once they are at the collector."""
    ports = {f"MESH_{number}": str(port) for number, port in enumerate(free_ports(3), 1)}
    text = HEAD + sections + CLIENTS + WWW.replace("    http-request return", f"{more}    http-request return")
    proxies = [trial.proxy(text, name, **ports) for name in ("lb1", "lb2", "lb3")]
    trial.all_there()
    return proxies


def restart_and_learned(trial):
    """Starts the collector again; what `show peers` has as `learned` of each proxy once they taught it."""
    trial.restart()
    trial.all_there()
    time.sleep(1)
    return [int(number) for number in re.findall(r"learned=(\d+)", trial.collector.ask("show peers"))]


def mesh(report, options, version):
    """Three HAProxies that share one table with one another, and push another one to the collector. Then three that
    have one section for both, which is what nobody should have."""
    share = "    http-request track-sc1 hdr_ip(x-forwarded-for) table shared\n    http-request sc-inc-gpc0(1)\n"
    with Trial(options, version, FLEET) as trial:
        proxies = started_mesh(trial, MESH + SHARED + SECTION + NAMED, share)
        for number, proxy in enumerate(proxies, 1):
            proxy.requests("10.0.0.8", number)
        report.check(f"{version}: three proxies with a mesh beside the collector are counted once", 5,
                     lambda: miscounted(trial))
        proxies[2].requests("10.0.0.9", 2)
        report.check(f"{version}: their mesh shares its own table", 10, lambda: [
            proxy.name for proxy in proxies if proxy.rows("shared").get("10.0.0.9", {}).get("gpc0") != "2"])
        learned = restart_and_learned(trial)
        report.check(f"{version}: they are counted once behind a restart of the collector", 5,
                     lambda: miscounted(trial))
        report.tell(f"{version}: none of their rows is one that they learned", any(learned) and learned)
    with Trial(options, version, FLEET) as trial:
        proxies = started_mesh(trial, MESH.replace("peers mesh", "peers fleet") + NAMED)
        proxies[0].requests("10.0.0.8", 10)
        time.sleep(1)
        before = trial.collector.rows()["10.0.0.8"]["http_req_cnt"]
        learned = restart_and_learned(trial)
        after = trial.collector.rows()["10.0.0.8"]["http_req_cnt"]
        report.tell(f"{version}: in one section for both 10 requests are {before}, and {after} behind a restart; "
                    f"`learned` tells it: {learned}", "" if sum(number > 0 for number in learned) > 1 else learned)


def flood(proxy, count):
    """Requests of as many clients, one each, over connections that stay."""
    def some(numbers):
        with socket.create_connection(("127.0.0.1", proxy.http)) as wire:
            for number in numbers:
                client = f"10.{1 + (number >> 16)}.{number >> 8 & 255}.{number & 255}"
                wire.sendall(f"GET / HTTP/1.1\r\nHost: a\r\nX-Forwarded-For: {client}\r\n\r\n".encode())
                answer = b""
                while not answer.endswith(b"ok"):
                    answer += wire.recv(1 << 16)
    with concurrent.futures.ThreadPoolExecutor(4) as pool:
        list(pool.map(some, [range(first, count, 4) for first in range(4)]))


def churned(options, version, table):
    """6,000 clients and an abuser: which of his requests was refused first, how long that took, how long the clients
    took, what `show peers` has of the proxy, and the log of full tables."""
    fleet = re.sub(r"(?m)^table .*$", f"table clients type ip {table} store http_req_rate(10000)", ACTING.read_text())
    text = ACTING_PROXY.read_text().replace("size 100k expire 10m", "size 1k expire 10m")
    with Trial(options, version, fleet) as trial:
        proxy = trial.proxy(text)
        trial.all_there()
        began = time.monotonic()
        flood(proxy, 6000)
        flooded, answers = time.monotonic(), []
        while 429 not in answers and (len(answers) < 450 or time.monotonic() < flooded + 30):
            answers += [status(proxy, "10.9.9.9") for _ in range(30)]
            time.sleep(0.05)
        took = time.monotonic() - flooded
        shown = re.search(r"rows=\d+ dropped=\d+", trial.collector.ask("show peers"))[0]
        full = [line.split(" ", 1)[1] for line in trial.told().splitlines() if "table full" in line]
        return answers.index(429) if 429 in answers else None, took, flooded - began, shown, full


def churn(report, options, version):
    """Clients of one request each, and an abuser behind them. Rows live 10 minutes at the proxy."""
    for table, latest in (("size 2048", None), ("size 2048 keep 20001", 23), ("size 20000 keep 20001", 6)):
        first, took, flooded, shown, full = churned(options, version, table)
        print(f"        6,000 clients within {flooded:.1f} s; {shown}; log: {'; '.join(full) or 'nothing'}")
        found = "isn't refused" if first is None else f"is refused from request {first + 1} on, after {took:.1f} s"
        is_right = first is None if latest is None else first is not None and took < latest
        report.tell(f"{version}: {table}: the abuser {found}", "" if is_right else "that wasn't expected")


def fleet(report, options, versions):
    """One HAProxy of each version at one collector."""
    conf = FLEET.replace("size 5000", "size 5000 keep 600000")
    conf += "".join(f"peer v{number}\n" for number in range(len(versions)))
    with Trial(options, versions[0], conf) as trial:
        text = HEAD + SECTION + NAMED + CLIENTS + WWW
        proxies = [trial.proxy(text, f"v{number}", version) for number, version in enumerate(versions)]
        trial.all_there()
        for number, proxy in enumerate(proxies, 1):
            for client in range(1, 9):
                proxy.requests(f"10.0.0.{client}", number)
        names = ", ".join(str(version) for version in versions)
        report.check(f"a fleet of {names} is summed", 5, lambda: miscounted(trial))


SCENARIOS = {"columns": columns, "import": imported, "introduced": introduced, "restarted": restarted, "mesh": mesh,
             "churn": churn}


def main():
    words = argparse.ArgumentParser(description=__doc__, formatter_class=argparse.RawDescriptionHelpFormatter)
    words.add_argument("haproxy", nargs="+", help="a HAProxy by its path")
    words.add_argument("--collector", default=COLLECTOR, help="the program that is tried")
    words.add_argument("--times", type=int, default=3, help="how many times reloads are tried")
    words.add_argument("--only", choices=[*SCENARIOS, "fleet"], action="append", help="this scenario alone")
    options = words.parse_args()
    wants(*options.haproxy, program=options.collector)
    ends_cleanly()
    report, versions = Report(), [Version(program) for program in options.haproxy]
    for version in versions:
        for name, scenario in SCENARIOS.items():
            if name in (options.only or SCENARIOS):
                scenario(report, options, version)
    if not options.only or "fleet" in options.only:
        fleet(report, options, versions)
    report.end()


if __name__ == "__main__":
    main()
