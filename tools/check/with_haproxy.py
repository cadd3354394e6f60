#!/usr/bin/env python3
"""Checks the collector against real proxies, and says line by line what passed.

    tools/check/with_haproxy.py [--collector crates/aggregator/out/aggregator] [--threads 1] [--log FILE]

It starts `aggregator listen` and haproxy, or the environment's HAPROXY, as two proxies of one fleet
(examples/haproxy.cfg), and sends requests of overlapping clients through both. It compares sums with those of
the proxies' own `show table`, a filter's set and a ranked list with what these say, and the end of a row with
the proxies' own. It does so again after a proxy was killed and came back, after a reload of a master with
workers, and after the collector was started again. It wants haproxy and a built program. The last line counts
passed and failed; the status is 1 where one failed, and 2 where something is missing.
"""

import argparse
import collections
import pathlib
import sys
import tempfile
import time

sys.path.insert(0, str(pathlib.Path(__file__).resolve().parents[1]))

from lib.collector import COLLECTOR, CONFIG, Collector, free_ports, wait_for
from lib.needs import ends_cleanly, wants
from lib.proxies import HAPROXY, PROXY, SETTLED, Proxy
from lib.report import Report


def sums(proxies, column):
    """Each key's sum of a column over the proxies' own tables."""
    total = collections.Counter()
    for proxy in proxies:
        for key, row in proxy.rows().items():
            total[key] += int(row[column])
    return total


def differs(collector, proxies, column="http_req_cnt"):
    """What the collector sums otherwise than the proxies' tables say, or nothing."""
    wanted = sums(proxies, column)
    found = {key: int(row[column]) for key, row in collector.rows().items()}
    wrong = {key: (found.get(key), wanted.get(key)) for key in wanted.keys() | found.keys()
             if found.get(key) != wanted.get(key)}
    return dict(list(wrong.items())[:4])


def peers_differ(collector, proxies):
    """What the collector says of how many proxies hold a key, where that is wrong."""
    wanted = collections.Counter(key for proxy in proxies for key in proxy.rows())
    found = {key: int(row["peers"]) for key, row in collector.rows().items()}
    return {} if found == dict(wanted) else {"found": found, "wanted": dict(wanted)}


def traffic(first, second):
    """Overlapping clients; 10.0.0.9 exceeds a hundred requests over both proxies and on neither."""
    for number in range(1, 9):
        first.requests(f"10.0.0.{number}", number)
        second.requests(f"10.0.0.{number + 4}", 2)
    first.requests("10.0.0.9", 60)
    second.requests("10.0.0.9", 60)


def ranked(collector, proxies):
    """Where the ranked list isn't what the proxies' tables give, or nothing."""
    total = sums(proxies, "http_req_cnt")
    by_bytes = {key: tuple(int(part) for part in key.split(".")) for key in total}
    wanted = sorted(total, key=lambda key: (-total[key], by_bytes[key]))[:10]
    found = collector.rank("most")
    return {} if found == wanted else {"found": found, "wanted": wanted}


def sums_and_filters(report, collector, proxies):
    traffic(*proxies)
    report.check("sums are the sums of the proxies' own tables", 5, lambda: differs(collector, proxies))
    report.check("each key is held by as many peers as proxies show it", 5,
                 lambda: peers_differ(collector, proxies))
    report.check("the filter holds the client that exceeds its limit over all and on none", 5,
                 lambda: {} if collector.keys("abusers") == {"10.0.0.9"} else collector.keys("abusers"))
    report.check("the ranked list is that of the summed tables", 5, lambda: ranked(collector, proxies))
    told = collector.ask("show next abusers")
    report.check("the filter's next change is foreseen", 1, lambda: "" if "at:never" not in told else told)
    report.check("the filter is empty once the rate has fallen", 25,
                 lambda: collector.keys("abusers"))


def one_dies(report, collector, proxies):
    first, second = proxies
    before = collector.rows()
    second.kill()
    time.sleep(0.3)
    report.check("a killed proxy's rows stay until they end", 3, lambda: {
        key: row for key, row in before.items()
        if collector.rows().get(key, {}).get("http_req_cnt") != row["http_req_cnt"]})
    second.start()
    second.requests("10.0.0.5", 3)
    held = int(first.rows()["10.0.0.5"]["http_req_cnt"])
    report.check("a proxy that came back is counted once, as it counts now", SETTLED, lambda: {
        key: row for key, row in collector.rows("clients", "key 10.0.0.5").items()
        if int(row["http_req_cnt"]) != held + 3})


def collector_restarts(report, collector, proxies, program, log):
    collector.stop()
    again = Collector(program, collector.peers, collector.admin, log=log)
    first, second = proxies
    for proxy in proxies:
        report.check(f"{proxy.name} pushes its rows to a collector that was started again", 15, lambda: {
            key for key in proxy.rows() if key not in again.rows()})
    report.check("nothing is doubled, and nothing lost that the proxies still have", SETTLED,
                 lambda: differs(again, proxies))
    return again


def master_reloads(report, collector, folder, options):
    """A master with workers: the new worker learns the old one's rows if it can, and pushes as the same peer."""
    proxy = Proxy("lb1", collector.peers, folder, threads=options.threads, master=True)
    try:
        proxy.requests("10.0.1.1", 7)
        report.check("a worker's rows arrive", SETTLED, lambda: {
            key: row for key, row in collector.rows("clients", "key 10.0.1.1").items() or [("none", {})]
            if row.get("http_req_cnt") != "7"})
        proxy.reload()
        time.sleep(SETTLED / 2)
        proxy.requests("10.0.1.1", 2)
        report.check("after a reload nothing is doubled and nothing lost", 2 * SETTLED, lambda: {
            key: row for key, row in collector.rows("clients", "key 10.0.1.1").items() or [("none", {})]
            if row.get("http_req_cnt") != proxy.rows()["10.0.1.1"]["http_req_cnt"]})
    finally:
        proxy.stop()


def rows_end(report, folder, options, log):
    """A table whose rows live 3 s: they end with the proxies' own."""
    config = pathlib.Path(folder) / "short.cfg"
    config.write_text(PROXY.read_text().replace("expire 10m", "expire 3s"))
    peers, admin = free_ports(2)
    collector = Collector(options.collector, peers, admin, log=log)
    proxy = Proxy("lb1", peers, folder, config=config, threads=options.threads)
    try:
        time.sleep(SETTLED - 2)
        proxy.requests("10.0.2.1", 1)
        wait_for("the row", SETTLED, lambda: "10.0.2.1" in collector.rows())
        there = wait_for("its end at the proxy", 10, lambda: "10.0.2.1" not in proxy.rows() and time.monotonic())
        here = wait_for("its end here", 10, lambda: "10.0.2.1" not in collector.rows() and time.monotonic())
        late = abs(here - there)
        report.check(f"a row ends within 300 ms of the proxy's own ({late * 1000:.0f} ms)", 1,
                     lambda: "" if late < 0.3 else late)
    finally:
        proxy.stop()
        collector.stop()


def main():
    words = argparse.ArgumentParser(description=__doc__, formatter_class=argparse.RawDescriptionHelpFormatter)
    words.add_argument("--collector", default=COLLECTOR, help="the program that is checked")
    words.add_argument("--threads", type=int, default=1, help="threads of each proxy")
    words.add_argument("--log", help="a file for what the collector says on standard error")
    options = words.parse_args()
    wants(HAPROXY, program=options.collector)
    ends_cleanly()
    report = Report()
    with tempfile.TemporaryDirectory() as folder, open(options.log or "/dev/null", "ab") as log:
        text = PROXY.read_text().replace("global\n", f"global\n    nbthread {options.threads}\n")
        config = pathlib.Path(folder) / "proxy.cfg"
        config.write_text(text)
        peers, admin = free_ports(2)
        collector = Collector(options.collector, peers, admin, config=CONFIG, log=log)
        proxies = [Proxy(name, peers, folder, config=config, threads=options.threads) for name in ("lb1", "lb2")]
        try:
            time.sleep(1)
            sums_and_filters(report, collector, proxies)
            one_dies(report, collector, proxies)
            for proxy in proxies:
                proxy.requests("10.0.0.77", 4)
            collector = collector_restarts(report, collector, proxies, options.collector, log)
            for proxy in proxies:
                proxy.stop()
            master_reloads(report, collector, folder, options)
        finally:
            for proxy in proxies:
                proxy.stop()
            collector.stop()
        rows_end(report, folder, options, log)
    report.end()


if __name__ == "__main__":
    main()
