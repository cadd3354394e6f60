#!/usr/bin/env python3
"""Lets a real Prometheus scrape the collector beside two real proxies, and waits for an alert.

    tools/check/prometheus.py [--collector crates/aggregator/out/aggregator] [--minutes 10]

It wants Debian's haproxy and prometheus. First promtool checks the rules of examples/alerts.yml, that they fire on
what they are for (tools/lib/alerts_test.yml), and the collector's figures. Each runbook must be a section of its page.

It starts `aggregator listen --http` with examples/acting.conf, haproxy twice with examples/acting.cfg, and prometheus
with these rules. Prometheus must take each query of examples/grafana.json, and each figure in it be one that is told.
A client exceeds the fleet's limit over both proxies over and over: ClientsOverTheLimit must fire, and no other alert
but that the collector began. Of all scrapes in these minutes none may have failed, and what is counted may only have
grown. A proxy that is ended then fires ProxyAway. The last line counts passed and failed; the status is 1 where one
failed.
"""

import argparse
import json
import pathlib
import re
import subprocess
import sys
import tempfile
import threading
import time
import urllib.error
import urllib.parse
import urllib.request

sys.path.insert(0, str(pathlib.Path(__file__).resolve().parents[1]))

from lib.collector import COLLECTOR, REPOSITORY, Collector, free_ports, wait_for
from lib.needs import ends_cleanly, wants
from lib.proxies import ACTING, ACTING_PROXY, HAPROXY, Proxy, kill_all, status
from lib.report import Report

SETTINGS = """global:
  scrape_interval: 1s
  scrape_timeout: 1s
  evaluation_interval: 1s
rule_files: ["{rules}"]
scrape_configs:
  - job_name: sesamejoist
    static_configs:
      - targets: ["127.0.0.1:{port}"]
"""


ALERTS = REPOSITORY / "examples/alerts.yml"
DASHBOARD = REPOSITORY / "examples/grafana.json"
# What fires beside what is tried: the collector has just begun.
BESIDE = {"CollectorRestarted"}


def promtool(*words, text=None):
    """What promtool finds wrong, or nothing."""
    ran = subprocess.run(["promtool", *words], input=text, capture_output=True, text=True, timeout=60)
    said = (ran.stdout + ran.stderr).strip()
    return said if ran.returncode or (words[0] == "check" and words[1] == "metrics" and said) else ""


def missing_runbooks():
    """The runbooks of alerts that aren't sections of a page."""
    missing = []
    for page, anchor in re.findall(r'runbook: "([^"#]+)#?([^"]*)"', ALERTS.read_text()):
        heads = re.findall(r"^#+ (.*)$", (REPOSITORY / page).read_text(), re.MULTILINE)
        anchors = {re.sub(r"[^\w -]", "", head).strip().lower().replace(" ", "-") for head in heads}
        if anchor and anchor not in anchors:
            missing.append(f"{page}#{anchor}")
    return ", ".join(sorted(set(missing)))


def expressions():
    """The queries of the dashboard, with something for each of its variables."""
    found = []

    def walk(part):
        if isinstance(part, dict):
            found.extend(text for name, text in part.items() if name == "expr")
            part = list(part.values())
        for inner in part if isinstance(part, list) else []:
            walk(inner)

    walk(json.loads(DASHBOARD.read_text()))
    return [text.replace("$__rate_interval", "1m").replace("$instance", ".*").replace("$peer", ".*") for text in found]


def wrong_queries(prometheus):
    """The dashboard's queries that Prometheus refuses."""
    wrong = []
    for query in expressions():
        try:
            prometheus.ask("query", query=query)
        except urllib.error.HTTPError as fault:
            wrong.append(f"{query}: {fault.read().decode()}")
    return "; ".join(wrong)


def figures_of(port):
    """What a collector tells Prometheus."""
    with urllib.request.urlopen(f"http://127.0.0.1:{port}/metrics", timeout=10) as answer:
        return answer.read().decode()


def untold(port):
    """The figures of the dashboard and of the alerts that no collector tells."""
    told = set(re.findall(r"^# TYPE (\S+)", figures_of(port), re.MULTILINE))
    asked = set(re.findall(r"\b(?:sesamejoist|process)_\w+", " ".join(expressions()) + ALERTS.read_text()))
    return " ".join(sorted(asked - told))


class Prometheus:
    """A Prometheus that scrapes one address each second."""

    def __init__(self, folder, target):
        self.port, = free_ports(1)
        settings = pathlib.Path(folder) / "prometheus.yml"
        settings.write_text(SETTINGS.format(rules=ALERTS, port=target))
        words = ["prometheus", f"--config.file={settings}", f"--storage.tsdb.path={folder}/data",
                 f"--web.listen-address=127.0.0.1:{self.port}", "--log.level=warn"]
        self.process = subprocess.Popen(words, stdout=subprocess.DEVNULL, stderr=subprocess.DEVNULL)
        wait_for("Prometheus", 30, lambda: self.ready())

    def ready(self):
        try:
            return self.ask("status/runtimeinfo")
        except OSError:
            return None

    def ask(self, what, **words):
        query = f"?{urllib.parse.urlencode(words)}" if words else ""
        with urllib.request.urlopen(f"http://127.0.0.1:{self.port}/api/v1/{what}{query}", timeout=10) as answer:
            return json.load(answer)["data"]

    def value(self, query):
        """The one value of a query, or none."""
        found = self.ask("query", query=query)["result"]
        return float(found[0]["value"][1]) if found else None

    def firing(self):
        """The names of the alerts that fire."""
        return {alert["labels"]["alertname"] for alert in self.ask("alerts")["alerts"] if alert["state"] == "firing"}

    def stop(self):
        self.process.kill()
        self.process.wait()


def keep_asking(proxies, done):
    """A client that exceeds the limit over both proxies for as long as it is let."""
    while not done.wait(0.02):
        for proxy in proxies:
            try:
                status(proxy, "10.0.0.66")
            except OSError:
                pass


def wrong_scrapes(prometheus, minutes):
    """What Prometheus says of failed scrapes over these minutes, or nothing."""
    lowest = prometheus.value(f"min_over_time(up[{minutes}m])")
    resets = prometheus.value(f"sum(resets(sesamejoist_updates_total[{minutes}m]))")
    figures = prometheus.value('count({__name__=~"sesamejoist_.*"})')
    wrong = {"up": lowest, "resets": resets, "figures": figures}
    return "" if lowest == 1 and resets == 0 and figures > 20 else str(wrong)


def missing(prometheus, alert):
    """What fires in place of an alert, or nothing where it fires."""
    firing = prometheus.firing()
    return "" if alert in firing else f"firing: {sorted(firing)}"


def watch(report, prometheus, collector, proxies, minutes):
    began = time.monotonic()
    done = threading.Event()
    asking = threading.Thread(target=keep_asking, args=(proxies, done))
    asking.start()
    try:
        report.check("ClientsOverTheLimit fires", 60,
                     lambda: missing(prometheus, "ClientsOverTheLimit"))
        print(f"        it took {time.monotonic() - began:.0f} s")
        while time.monotonic() - began < 60 * minutes:
            time.sleep(5)
    finally:
        done.set()
        asking.join()
    report.check("no scrape failed, and counters only grew", 5, lambda: wrong_scrapes(prometheus, int(minutes) or 1))
    report.check("it counts what the collector counts", 5,
                 lambda: differ(prometheus, collector))
    report.check("no other alert fires", 5, lambda: prometheus.firing() - BESIDE - {"ClientsOverTheLimit"} or "")
    proxies.pop().stop()
    report.check("ProxyAway fires once a proxy was away for two minutes", 150,
                 lambda: missing(prometheus, "ProxyAway"))


def differ(prometheus, collector):
    """Updates and peers, where Prometheus has others than `show info`."""
    info = dict(line.split(": ") for line in collector.ask("show info").splitlines() if ": " in line)
    found = {"updates": prometheus.value("sesamejoist_updates_total"),
             "peers_connected": prometheus.value("sesamejoist_peers_connected")}
    return {name: (count, info[name]) for name, count in found.items() if count != float(info[name])}


def main():
    words = argparse.ArgumentParser(description=__doc__, formatter_class=argparse.RawDescriptionHelpFormatter)
    words.add_argument("--collector", default=COLLECTOR)
    words.add_argument("--minutes", type=float, default=10)
    options = words.parse_args()
    wants(HAPROXY, "prometheus", "promtool", program=options.collector)
    ends_cleanly()
    report = Report()
    report.check("promtool takes the rules", 5, lambda: promtool("check", "rules", str(ALERTS)))
    report.check("the rules fire on what they are for", 5,
                 lambda: promtool("test", "rules", str(REPOSITORY / "tools/lib/alerts_test.yml")))
    report.check("each runbook is a section of its page", 5, missing_runbooks)
    with tempfile.TemporaryDirectory() as folder:
        peers, admin, web = free_ports(3)
        collector = Collector(options.collector, peers, admin, config=ACTING, options=["--http", f"127.0.0.1:{web}"])
        proxies = [Proxy(name, peers, folder, config=ACTING_PROXY) for name in ("lb1", "lb2")]
        prometheus = Prometheus(folder, web)
        try:
            report.check("promtool takes the figures", 5, lambda: promtool("check", "metrics", text=figures_of(web)))
            report.check("each figure of the alerts and the dashboard is told", 5, lambda: untold(web))
            report.check("Prometheus takes the dashboard's queries", 5, lambda: wrong_queries(prometheus))
            watch(report, prometheus, collector, proxies, options.minutes)
        finally:
            prometheus.stop()
            kill_all(proxies, collector)
    report.end()


if __name__ == "__main__":
    main()
