#!/usr/bin/env python3
"""Tries that real proxies act on what the whole fleet saw, and says line by line what passed.

    tools/check/acting.py [--collector crates/aggregator/out/aggregator] [--log FILE]

It starts `aggregator listen` with examples/acting.conf, and haproxy, or the environment's HAPROXY, as two proxies
with examples/acting.cfg. A client sends 60 requests through each: neither counts more than 100, the fleet does, and
both proxies refuse it with 429, while others are served. It is served again once the fleet's filter has let it go;
within 10 s where the collector is killed; and a proxy that starts anew, or whose master starts a new worker,
refuses it at once. It wants haproxy and a built program. The last line counts passed and failed; the status is 1
where one failed, and 2 where something is missing.
"""

import argparse
import pathlib
import sys
import tempfile
import time

sys.path.insert(0, str(pathlib.Path(__file__).resolve().parents[1]))

from lib.collector import COLLECTOR, Collector, free_ports, wait_for
from lib.needs import ends_cleanly, wants
from lib.proxies import ACTING, ACTING_PROXY, HAPROXY, SETTLED, Proxy, kill_all, status
from lib.report import Report

LIFE = 10.0  # s for which a key is told that isn't told again


def told(proxy):
    """The keys that a proxy was told, as it shows them."""
    return set(proxy.rows("abusers"))


def not_all(proxies, client, wanted):
    """What proxies answer a client, where that isn't the wanted status."""
    found = {proxy.name: status(proxy, client) for proxy in proxies}
    return {name: code for name, code in found.items() if code != wanted}


def exceed(proxies, client):
    """A client that neither proxy alone refuses, and the fleet does."""
    for proxy in proxies:
        for _ in range(60):
            status(proxy, client)


def refused(report, collector, proxies):
    exceed(proxies, "10.0.0.66")
    began = time.monotonic()
    report.check("a client that exceeds the limit over both is refused by both within a second", 1,
                 lambda: not_all(proxies, "10.0.0.66", 429))
    print(f"        it took {(time.monotonic() - began) * 1000:.0f} ms")
    report.check("other clients are served", 1, lambda: not_all(proxies, "10.0.0.7", 200))
    report.check("each proxy was told the filter's keys, and no others", 1,
                 lambda: {p.name: told(p) for p in proxies if told(p) != collector.keys("abusers")})
    gone = wait_for("the end of the set", 30, lambda: not collector.keys("abusers") and time.monotonic())
    report.check("it is served again within a second once the filter lets it go", 1,
                 lambda: not_all(proxies, "10.0.0.66", 200))
    print(f"        it took {(time.monotonic() - gone) * 1000:.0f} ms")


def proxy_restarts(report, collector, proxies):
    first, second = proxies
    exceed(proxies, "10.0.0.67")
    report.check("a second client is refused by both", 1, lambda: not_all(proxies, "10.0.0.67", 429))
    second.kill()
    second.start()
    report.check("a proxy that started anew is told at once, and refuses it", SETTLED,
                 lambda: "" if "10.0.0.67" in told(second) or not collector.keys("abusers") else told(second))


def collector_dies(report, collector, proxies):
    exceed(proxies, "10.0.0.68")
    report.check("a third client is refused by both", SETTLED, lambda: not_all(proxies, "10.0.0.68", 429))
    collector.process.kill()
    collector.process.wait()
    died = time.monotonic()
    report.check("it is still refused right after the collector was killed", 0.5,
                 lambda: not_all(proxies, "10.0.0.68", 429))
    report.check("within the life of what was told the proxies open by themselves", LIFE + 1,
                 lambda: not_all(proxies, "10.0.0.68", 200))
    print(f"        it took {time.monotonic() - died:.1f} s")


def collector_returns(report, collector, proxies, program, log):
    again = Collector(program, collector.peers, collector.admin, config=ACTING, log=log)
    wait_for("both proxies at the new collector", 2 * SETTLED,
             lambda: again.ask("show peers").count("state=connected") == len(proxies))
    exceed(proxies, "10.0.0.69")
    report.check("a collector that was started again tells both proxies", 2, lambda: not_all(proxies, "10.0.0.69", 429))
    return again


def master_reloads(report, collector, proxies, folder):
    """A master starts a new worker while a client is refused."""
    proxies.pop().stop()
    reloaded = Proxy("lb2", collector.peers, folder, config=ACTING_PROXY, master=True)
    proxies.append(reloaded)
    wait_for("the master's worker at the collector", 2 * SETTLED,
             lambda: collector.ask("show peers").count("state=connected") == len(proxies))
    exceed(proxies, "10.0.0.70")
    report.check("a master's worker refuses a client", SETTLED, lambda: not_all(proxies, "10.0.0.70", 429))
    reloaded.reload()
    time.sleep(0.5)
    report.check("after a reload the new worker is told, and refuses it", SETTLED,
                 lambda: "" if "10.0.0.70" in told(reloaded) or not collector.keys("abusers") else told(reloaded))
    report.check("what it answers then is 429, or the set has ended", 1,
                 lambda: (wrong := not_all(proxies, "10.0.0.70", 429)) and collector.keys("abusers") and wrong)


def main():
    words = argparse.ArgumentParser(description=__doc__, formatter_class=argparse.RawDescriptionHelpFormatter)
    words.add_argument("--collector", default=COLLECTOR, help="the program that is tried")
    words.add_argument("--log", help="a file for what the collector says on standard error")
    options = words.parse_args()
    wants(HAPROXY, program=options.collector)
    ends_cleanly()
    report = Report()
    with tempfile.TemporaryDirectory() as folder, open(options.log or "/dev/null", "ab") as log:
        peers, admin = free_ports(2)
        collector = Collector(options.collector, peers, admin, config=ACTING, log=log)
        proxies = [Proxy(name, peers, folder, config=ACTING_PROXY) for name in ("lb1", "lb2")]
        try:
            time.sleep(1)
            refused(report, collector, proxies)
            proxy_restarts(report, collector, proxies)
            collector_dies(report, collector, proxies)
            collector = collector_returns(report, collector, proxies, options.collector, log)
            master_reloads(report, collector, proxies, folder)
        finally:
            kill_all(proxies, collector)
    report.end()


if __name__ == "__main__":
    main()
