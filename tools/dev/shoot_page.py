#!/usr/bin/env python3
"""Takes pictures of the collector's page in a headless Chromium, to be looked at.

    tools/dev/shoot_page.py /tmp/pictures [--collector crates/aggregator/out/aggregator] [--chromium chromium]
    tools/dev/shoot_page.py --docs [..]

It starts `aggregator listen --http` with no, 3, 54 and 250 peers, some of which push rows, and takes the page wide and
narrow, light and dark. Names with `<&">` and keys of 256 bytes are among them. A picture's name says what it shows.
With `--docs` it takes docs/page.png and docs/page-key.png, of a fleet where things are wrong. It wants Chromium; where
pngquant is installed the pictures get small. It ends with 0 once all are taken, and compares nothing.
"""

import argparse
import base64
import json
import math
import os
import pathlib
import random
import shutil
import socket
import struct
import subprocess
import sys
import tempfile
import threading
import time

sys.path.insert(0, str(pathlib.Path(__file__).resolve().parents[1]))

from lib.collector import COLLECTOR, REPOSITORY, Collector, wait_for
from lib.needs import ends_cleanly, wants
from lib.peers_protocol import DEFINE, INCREMENTAL, beat, message, put_int

SIZES = {"wide": (1280, 6000), "narrow": (390, 9000)}  # a width, and the most of the height
TABLES = """table clients type ip size 3000 store gpc0,http_req_cnt,http_req_rate(10000)
table paths type string len 256 size 1000 store gpc0,http_req_cnt,http_req_rate(10000)
filter abusers clients data.http_req_rate gt 280
filter {name} paths data.gpc0 gt 5
filter scanners paths data.http_req_cnt gt 1000000
rank fastest clients http_req_rate 20
rank busiest paths http_req_cnt 10
rank none paths gpc0 5
"""
SHOP = """table clients type ip size 2400 store gpc0,http_req_cnt,http_req_rate(10000)
table paths type string len 64 size 1000 store gpc0,http_req_cnt,http_req_rate(10000)
filter abusers clients data.http_req_rate gt 1600
filter scrapers clients data.http_req_cnt gt 40000
rank fastest clients http_req_rate 20
rank busiest paths http_req_cnt 10
push abusers hold 60000
"""
HOSTILE = '<i>&"\'</i>'
IP, STRING = 4, 6  # types of keys in the peers protocol
COLUMNS = 1 << 2 | 1 << 9 | 1 << 10  # gpc0, http_req_cnt, http_req_rate


class Peer:
    """A peer that stays and pushes rows of both tables."""

    def __init__(self, port, name, clients, odd):
        self.clients, self.odd = clients, odd
        self.socket = socket.create_connection(("127.0.0.1", port), timeout=10)
        self.socket.sendall(f"HAProxyS 2.1\nagg\n{name} 1 1\n".encode())
        if self.socket.recv(4) != b"200\n":
            raise RuntimeError(f"{name} wasn't accepted")
        threading.Thread(target=beat, args=(self.socket,), daemon=True).start()

    @staticmethod
    def define(number, table, kind, length):
        """The definition that the updates behind it are of."""
        head = put_int(number) + put_int(len(table)) + table.encode() + put_int(kind) + put_int(length)
        return message(DEFINE, head + put_int(COLUMNS) + put_int(600000) + put_int(10) + put_int(10000))

    def push(self, count):
        """Rows of some clients and paths, a few of which ask for much."""
        out = self.define(1, "clients", IP, 4)
        for _ in range(count):
            client = int(random.expovariate(1 / self.clients))
            out += row(struct.pack(">I", 0x0A000000 + client), client)
        out += self.define(2, "paths", STRING, 257)
        for _ in range(count // 8 + 1):
            path = int(random.expovariate(0.3))
            text = f"/{path} ?q=<b>&" + "%\xff" * 200 if self.odd and path % 5 == 0 else f"/shop/{path}"
            key = text.encode("latin-1")[:256]
            out += row(put_int(len(key)) + key, path)
        self.socket.sendall(out)


def row(key, worth):
    """An update of a key: gpc0, http_req_cnt, and a rate's elapsed time, present and previous count."""
    counts = put_int(worth % 7) + put_int(random.randrange(5000))
    return message(INCREMENTAL, key + counts + put_int(0) + put_int(random.randrange(300)) + put_int(0))


class Browser:
    """A headless Chromium that is told what to do by its pipe."""

    def __init__(self, program):
        self.profile, self.number = tempfile.TemporaryDirectory(ignore_cleanup_errors=True), 0
        read, self.out = os.pipe()
        self.inside, write = os.pipe()
        words = [program, "--headless=new", "--no-sandbox", "--disable-gpu", "--hide-scrollbars",
                 f"--user-data-dir={self.profile.name}", "--remote-debugging-pipe"]
        self.process = subprocess.Popen(["sh", "-c", f'exec "$@" 3<&{read} 4>&{write}', "sh", *words],
                                        pass_fds=(read, write), stdout=subprocess.DEVNULL, stderr=subprocess.DEVNULL)
        os.close(read)
        os.close(write)
        self.unread, self.page = b"", None
        target = self.tell("Target.createTarget", url="about:blank")["targetId"]
        self.page = self.tell("Target.attachToTarget", targetId=target, flatten=True)["sessionId"]

    def __enter__(self):
        return self

    def __exit__(self, *_):
        self.process.terminate()
        self.process.wait()
        self.profile.cleanup()

    def tell(self, method, **words):
        """What a command answers."""
        self.number += 1
        message = {"id": self.number, "method": method, "params": words}
        if self.page:
            message["sessionId"] = self.page
        os.write(self.out, json.dumps(message).encode() + b"\0")
        while True:
            while b"\0" not in self.unread:
                more = os.read(self.inside, 1 << 20)
                if not more:
                    raise EOFError("the browser ended")
                self.unread += more
            text, _, self.unread = self.unread.partition(b"\0")
            answer = json.loads(text)
            if answer.get("id") == self.number:
                if "error" in answer:
                    raise RuntimeError(f"{method}: {answer['error']['message']}")
                return answer["result"]

    def says(self, expression):
        """The value of an expression in the page; none while another page comes."""
        try:
            return self.tell("Runtime.evaluate", expression=expression)["result"].get("value")
        except RuntimeError:
            return None

    def shoot(self, address, size, scheme, picture, seconds=8):
        """A picture of an address, so long after it shows a fleet; as high as the page is, but no higher than this."""
        width, height = size
        self.tell("Emulation.setDeviceMetricsOverride", width=width, height=800, deviceScaleFactor=1, mobile=False)
        self.tell("Emulation.setEmulatedMedia", features=[{"name": "prefers-color-scheme", "value": scheme}])
        self.tell("Page.navigate", url="about:blank")
        self.tell("Page.navigate", url=address)
        wait_for("the page", 60, lambda: self.says('document.title.startsWith("agg")'))
        time.sleep(seconds)
        height = min(height, math.ceil(self.tell("Page.getLayoutMetrics")["cssContentSize"]["height"]))
        part = {"x": 0, "y": 0, "width": width, "height": height, "scale": 1}
        told = self.tell("Page.captureScreenshot", format="png", captureBeyondViewport=True, clip=part)
        picture.write_bytes(base64.b64decode(told["data"]))
        if shutil.which("pngquant"):
            subprocess.run(["pngquant", "--force", "--ext", ".png", "--speed", "1", "64", picture], check=True)


def config(names, tables):
    return "name agg\n" + "".join(f"peer {name}\n" for name in names) + tables


class Fleet(threading.Thread):
    """A collector of peers that push until it ends. One of them goes again; of many some never come."""

    def __init__(self, options, names, tables, clients, odd):
        super().__init__(daemon=True)
        self.collector, self.is_over = Collector.of(options.collector, config(names, tables)), False
        come = names[: min(len(names) * 9 // 10 + 1, 40)]
        self.peers = [Peer(self.collector.peers, name, clients, odd) for name in come]

    def __enter__(self):
        self.start()
        return self.collector

    def __exit__(self, *_):
        self.is_over = True
        self.join()
        self.collector.stop()

    def run(self):
        second = 0
        while not self.is_over:
            if second == 5 and len(self.peers) > 1:
                self.peers.pop(len(self.peers) // 2).socket.close()
            for peer in self.peers:
                peer.push(random.randrange(200))
            time.sleep(1)
            second += 1


def take(options, browser, count):
    """The pictures of a collector of so many peers."""
    names = [HOSTILE if place == 0 else f"edge-frankfurt-{place:03}.example.net" for place in range(count)]
    with Fleet(options, names, TABLES.format(name=HOSTILE), 20, True) as collector:
        time.sleep(5)
        address = f"http://127.0.0.1:{collector.http}/"
        for size, measures in SIZES.items():
            for scheme in ("light", "dark"):
                picture = options.folder / f"{count}-peers-{size}-{scheme}.png"
                browser.shoot(address, measures, scheme, picture)
        if count:
            browser.shoot(address + "#filter=abusers", SIZES["wide"], "light", options.folder / f"{count}-filter.png")


def take_for_docs(options, browser):
    """The two pictures of the documents."""
    names = [f"{place}-lb{number}" for place in ("fra", "ams", "lon") for number in range(1, 5)]
    with Fleet(options, names, SHOP, 700, False) as collector:
        time.sleep(60)
        address = f"http://127.0.0.1:{collector.http}/"
        browser.shoot(address, (1100, 1560), "light", REPOSITORY / "docs/page.png")
        worst = collector.rank("fastest")[0]
        browser.shoot(f"{address}#table=clients&key={worst}", (560, 900), "dark", REPOSITORY / "docs/page-key.png")


def main():
    words = argparse.ArgumentParser(description=__doc__, formatter_class=argparse.RawDescriptionHelpFormatter)
    words.add_argument("folder", type=pathlib.Path, nargs="?", help="where the pictures go")
    words.add_argument("--docs", action="store_true", help="take the documents' pictures")
    words.add_argument("--collector", default=COLLECTOR, help="the program")
    words.add_argument("--chromium", default="chromium", help="the browser")
    options = words.parse_args()
    wants(options.chromium, program=options.collector)
    ends_cleanly()
    if not options.docs and options.folder is None:
        words.error("a folder for the pictures, or --docs")
    with Browser(options.chromium) as browser:
        if options.docs:
            take_for_docs(options, browser)
            return
        options.folder.mkdir(parents=True, exist_ok=True)
        for count in (0, 3, 54, 250):
            take(options, browser, count)


if __name__ == "__main__":
    main()
