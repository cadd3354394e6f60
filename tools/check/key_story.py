#!/usr/bin/env python3
"""Tells one key's whole story with three real proxies, and says line by line what passed.

    tools/check/key_story.py [--collector crates/aggregator/out/aggregator] [--log FILE]

It starts `aggregator listen` with examples/acting.conf, a third proxy and a line `log abusers`, and Debian's haproxy as
three proxies with examples/acting.cfg. A client sends 40 requests through each: no proxy counts more than 100, the
fleet does. The key crosses the filter's limit, is logged, told to all proxies, refused with 429, and found: by
`show key`, over HTTP as the page's search asks, and on the page itself where Chromium is installed. Then it is released
by `clear table` on each proxy and here, is served again, and its whole story stands in the log with times, in order.
The log's lines are printed at the end. It wants haproxy and a built program. The last line counts passed and failed;
the status is 1 where one failed, and 2 where something is missing.
"""

import argparse
import json
import pathlib
import re
import shutil
import subprocess
import sys
import tempfile
import time
import urllib.request

sys.path.insert(0, str(pathlib.Path(__file__).resolve().parents[1]))

from lib.collector import COLLECTOR, Collector, wait_for
from lib.needs import ends_cleanly, wants
from lib.proxies import ACTING, ACTING_PROXY, HAPROXY, SETTLED, Proxy, kill_all, status
from lib.report import Report

KEY, OTHER, EACH = "10.0.0.66", "10.0.0.7", 40
TIME = r"\d{4}-\d\d-\d\dT\d\d:\d\d:\d\dZ "
NAMES = ("lb1", "lb2", "lb3")
# How the log tells the key's story: each line once, in this order.
STORY = [
    rf"{TIME}info key entered filter=abusers key={KEY} http_req_rate=(10[1-9]|1[1-9]\d)",
    rf'{TIME}info admin changed address=127\.0\.0\.1:\d+ command="clear table clients key {re.escape(KEY)}"',
    rf"{TIME}info key left filter=abusers key={KEY}",
]


def fetch(collector, path):
    """What is answered over HTTP, as JSON."""
    with urllib.request.urlopen(f"http://127.0.0.1:{collector.http}{path}", timeout=5) as answer:
        return json.load(answer)


def told_to(collector, key):
    """How many keys each proxy is told, where that isn't one."""
    found = dict(re.findall(r"peer=(\S+) .*told=(\d+)", collector.ask("show peers")))
    return {name: count for name, count in found.items() if count != "1"} or (not found and "no peers")


def not_all(proxies, client, wanted):
    """What proxies answer a client, where that isn't the wanted status."""
    found = {proxy.name: status(proxy, client) for proxy in proxies}
    return {name: code for name, code in found.items() if code != wanted}


def crosses(report, collector, proxies):
    for proxy in proxies:
        for _ in range(EACH):
            status(proxy, KEY)
    report.check("the key crosses the fleet's limit, though each proxy counts 40 at most", 1,
                 lambda: "" if KEY in collector.keys("abusers") else collector.ask("show filter abusers"))
    report.tell("each proxy counts 40 at most", {
        proxy.name: row for proxy in proxies
        if int((row := proxy.rows()[KEY]).get("http_req_rate(10000)", 0)) > EACH})
    report.check("it is told to all three, as `show peers` says", 1, lambda: told_to(collector, KEY))
    report.check("all three refuse it with 429", 1, lambda: not_all(proxies, KEY, 429))
    report.check("others are served", 1, lambda: not_all(proxies, OTHER, 200))


def not_found(answer):
    """What is wrong with an answer to `show key`."""
    lines = answer.splitlines()
    if lines[0] != f"# table: clients, key: {KEY}, peers:3":
        return lines[0]
    for line, name in zip(lines[1:], NAMES):
        if not re.fullmatch(rf"peer={name} age=\d+ exp=\d+ http_req_rate\(10000\)=\d+", line):
            return line
    return "" if re.fullmatch(r"filter=abusers holds=yes next=\d+", lines[-1]) else lines[-1]


def not_fetched(found):
    """What is wrong with the same over HTTP."""
    if (found["table"], found["key"]) != ("clients", KEY):
        return found
    if [peer["peer"] for peer in found["peers"]] != list(NAMES):
        return found["peers"]
    if [sorted(peer) for peer in found["peers"]] != [["age_ms", "expires_in_ms", "peer", "values"]] * 3:
        return found["peers"]
    held = found["filters"]
    return "" if [(f["filter"], f["holds"]) for f in held] == [("abusers", True)] else held


def not_on_page(browser, collector, folder):
    """What is wrong with the page that a link to the key opens."""
    words = [browser, "--headless", "--no-sandbox", "--disable-gpu", f"--user-data-dir={folder}/browser"]
    words += ["--virtual-time-budget=4000", "--dump-dom", f"http://127.0.0.1:{collector.http}/#key={KEY}"]
    shown = subprocess.run(words, stdout=subprocess.PIPE, stderr=subprocess.DEVNULL, text=True, timeout=60).stdout
    missing = [word for word in (KEY, "abusers", *NAMES) if word not in shown]
    return missing and f"not on the page: {' '.join(missing)}"


def found(report, collector, folder):
    report.check("`show key` names the three proxies, and the filter that holds it", 1,
                 lambda: not_found(collector.ask(f"show key clients {KEY}")))
    report.check("so does what the page's search asks for", 1,
                 lambda: not_fetched(fetch(collector, f"/api/v1/tables/clients/keys/{KEY}")))
    browser = shutil.which("chromium") or shutil.which("google-chrome")
    if browser is None:
        print("left out  the page itself: no Chromium here")
    else:
        report.check("the page that a link to the key opens shows them", 1,
                     lambda: not_on_page(browser, collector, folder))


def released(report, collector, proxies):
    for proxy in proxies:
        proxy.socket_command(f"clear table clients key {KEY}")
    report.tell("`clear table` here is answered ok", collector.ask(f"clear table clients key {KEY}") != "ok\n")
    report.check("the filter lets it go", 1, lambda: collector.keys("abusers"))
    report.check("no proxy is told it any more", 2, lambda: {
        proxy.name: proxy.rows("abusers") for proxy in proxies
        if any(row.get("gpc0", "1") != "0" for row in proxy.rows("abusers").values())})
    report.check("all three serve it again", 2, lambda: not_all(proxies, KEY, 200))


def out_of_order(log, story):
    """What of a story doesn't stand in the log, once and in its order."""
    lines, at = log.read_text().splitlines(), -1
    for wanted in story:
        places = [place for place, line in enumerate(lines) if re.fullmatch(wanted, line)]
        if len(places) != 1 or places[0] <= at:
            return f"{wanted}: in lines {places}"
        at = places[0]
    return ""


def main():
    words = argparse.ArgumentParser(description=__doc__, formatter_class=argparse.RawDescriptionHelpFormatter)
    words.add_argument("--collector", default=COLLECTOR, help="the program that is tried")
    words.add_argument("--log", help="a file for what the collector says on standard error")
    options = words.parse_args()
    wants(HAPROXY, program=options.collector)
    ends_cleanly()
    report = Report()
    config = ACTING.read_text() + "peer lb3\nlog abusers\n"
    with tempfile.TemporaryDirectory() as folder:
        path = pathlib.Path(options.log or f"{folder}/log")
        with open(path, "wb") as log:
            collector = Collector.of(options.collector, config, log=log)
        proxies = [Proxy(name, collector.peers, folder, config=ACTING_PROXY) for name in NAMES]
        try:
            wait_for("three proxies", SETTLED,
                     lambda: collector.ask("show peers").count("state=connected") == len(NAMES))
            crosses(report, collector, proxies)
            found(report, collector, folder)
            # (the log looks once a second, and tells a key's values of that moment)
            report.check("the log tells that it came", 3, lambda: out_of_order(path, STORY[:1]))
            released(report, collector, proxies)
            report.check("the whole story stands in the log with times, in its order", 3, lambda: out_of_order(path, STORY))
            time.sleep(0.2)
            print("".join(f"        {line}\n" for line in path.read_text().splitlines()), end="")
        finally:
            kill_all(proxies, collector)
    report.end()


if __name__ == "__main__":
    main()
