#!/usr/bin/env python3
"""Runs the examples of the documents against a started program, and says which print something else.

    tools/check/pages.py [--collector crates/aggregator/out/aggregator] [PAGE ..] [--show]

PAGE is README.md or a page of docs/; without one all of PAGES are run. An indented or fenced block of a page is an
example. The comment right above says what is done with it, and a block without one is a fault:

    run             lines that begin with `$ ` are commands of a shell, and the lines below one are what it prints. A
                    block without `$ ` is commands alone, each of which has to end with status 0
    run exact       the same, and numbers count; with `unordered`, the order of lines doesn't
    asked           lines that begin with `> ` are commands for the collector's admin socket
    start           a command that goes on running and prints `listening`
    file NAME       the text of a file that later commands read; `file NAME more` is written behind what it has
    check           lines of a configuration: `aggregator check` says `ok` of them behind the page's fleet.conf
    in FILE         each line stands in this file of the repository
    replay          a script of `aggregator replay`; `prints`, above the next block, is what it prints, and
                    `prints FILE` what this file prints
    not run: WHY    nothing
    section ..      holds for all blocks up to the next heading that have no comment: `section not run: WHY`
    sh COMMAND      no block: a command that the reader isn't shown
    take PAGE       no block: the files of another page

In what is printed a number stands for any number, an address with a port for any, `..` for any text, and a line `..`
for any lines. Addresses of clients and names count, and so do numbers behind `peers=`, `keys:`, `used:`, `gpc0=` and
`_cnt=`.
Each page has a collector and proxies of its own, on free addresses: those that the page names are put in place of the
real ones, in both directions. A question (`show`, `curl`) is asked again for some seconds, since proxies push a moment
later. `--show` prints each command.

It wants bash, Debian's haproxy (or HAPROXY=/another/haproxy), curl, nc of netcat-openbsd, socat, pgrep and openssl. The
last line counts; the status is 1 where an example failed. Nothing is left behind.
"""

import argparse
import contextlib
import os
import pathlib
import re
import select
import shlex
import signal
import subprocess
import sys
import tempfile
import time

sys.path.insert(0, str(pathlib.Path(__file__).resolve().parents[1]))

from lib.collector import COLLECTOR, REPOSITORY, free_ports
from lib.needs import ends_cleanly, wants

NAMES = ("OPERATIONS", "CONFIGURATION", "COMMANDS", "ACTING", "HTTP", "REPLAY")
PAGES = ["README.md", *(f"docs/{name}.md" for name in NAMES)]
PRELUDE = REPOSITORY / "tools/lib/pages.sh"
COMMENT = re.compile(r"<!--\s*(.*?)\s*-->")
PATIENCE = 15  # s for a question whose answer comes a moment later
LONGEST = 90  # s for any command
END = "end of the command 5e5a"


class Failed(Exception):
    """An example isn't as the page says."""


class Example:
    """A block of a page, or a comment that needs none: what is to be done, where it stands, its lines."""

    def __init__(self, what, number, lines):
        self.what, self.number, self.lines = what, number, lines

    def text(self):
        return "".join(f"{line}\n" for line in self.lines)


def is_alone(what):
    """Whether a comment is an act of its own, without a block."""
    return what.split(" ")[0] in ("sh", "take")


def block_from(lines, at):
    """The lines of the block that begins at this line, without what marks it, and the line behind it."""
    if lines[at].startswith("```"):
        end = next(i for i in range(at + 1, len(lines)) if lines[i].startswith("```"))
        return lines[at + 1:end], end + 1
    end = at
    while end < len(lines) and (lines[end].startswith("    ") or not lines[end].strip()):
        end += 1
    found = [line[4:] for line in lines[at:end]]
    while found and not found[-1].strip():
        found.pop()
    return found, end


def is_block(lines, at):
    """Whether a block begins at this line: behind a blank line or a comment, and not inside a list."""
    if lines[at].startswith("```"):
        return True
    before = lines[at - 1].strip() if at else ""
    return lines[at].startswith("    ") and (not before or COMMENT.fullmatch(before) is not None)


def examples(text):
    """The examples of a page, in order; what is done with an unmarked one is empty."""
    lines, at, mark, found, section = text.splitlines(), 0, "", [], ""
    while at < len(lines):
        comment = COMMENT.fullmatch(lines[at].strip())
        if comment and is_alone(comment[1]):
            found.append(Example(comment[1], at + 1, []))
        elif comment and comment[1].startswith("section "):
            section = comment[1].removeprefix("section ")
        elif comment:
            mark = comment[1]
        elif is_block(lines, at):
            start = at
            block, at = block_from(lines, at)
            found.append(Example(mark or section, start + 1, block))
            mark = ""
            continue
        elif lines[at].strip():
            mark = ""
            section = "" if lines[at].startswith("## ") else section
        at += 1
    return found


def pattern_of(line, exact):
    """What a printed line has to match."""
    parts = []
    words = (r"\d{4}-\d\d-\d\dT\d\d:\d\d:\d\dZ|\d+\.\d+\.\d+\.\d+:\d+|\d+\.\d+\.\d+\.\d+|"
             r"(?:peers=|keys:|used:|gpc0=|_cnt=)\d+|(?<![A-Za-z0-9_.])\d+(?![A-Za-z0-9_]|\.\d)| \.\. |\.\.| +")
    end = 0
    for found in re.finditer(words, line):
        parts.append(re.escape(line[end:found.start()]))
        word, end = found[0], found.end()
        if word in ("..", " .. "):
            parts.append(".*" if word == ".." else " +(?:.* )?")
        elif word[0] == " ":
            parts.append(" +")
        elif exact or not word[0].isdigit() or re.fullmatch(r"\d+\.\d+\.\d+\.\d+", word):
            parts.append(re.escape(word))
        elif word.endswith("Z"):
            parts.append(r"[-\d]+T[:\d]+Z")
        else:
            parts.append(r"\d+\.\d+\.\d+\.\d+:\d+" if ":" in word else r"\d+")
    return "".join(parts) + re.escape(line[end:])


def matches(wanted, printed, how=""):
    """Whether what was printed is what the page says: with `exact` to the byte, with `unordered` in any order."""
    exact = how == "exact"
    if not exact:
        # (HAProxy and the collector end an answer with an empty line)
        wanted = [line for line in wanted if line.strip()]
        printed = "".join(f"{line}\n" for line in printed.splitlines() if line.strip())
    if how == "unordered":
        left = printed.splitlines()
        for line in wanted:
            found = next((one for one in left if re.fullmatch(pattern_of(line.rstrip(), exact), one.rstrip())), None)
            if found is None:
                return False
            left.remove(found)
        return not left
    whole = ""
    for line in wanted:
        whole += r"(?:.*\n)*?" if line.strip() == ".." else pattern_of(line.rstrip(), exact) + r" *\n"
    return re.fullmatch(whole, printed.rstrip("\n") + "\n" if printed.strip() else "") is not None


class Shell:
    """A bash that runs the commands of one page, one after the other."""

    def __init__(self, folder, program, places, show):
        self.folder, self.places, self.show = folder, places, show
        environment = dict(os.environ, DIR=str(folder), PROGRAM=str(program))
        environment["PATH"] += ":/usr/sbin:/sbin"
        environment.update({name: real for name, (_, real) in places.items()})
        how = {"stdin": subprocess.PIPE, "stdout": subprocess.PIPE, "stderr": subprocess.STDOUT}
        words = ["bash", "--noprofile", "--norc"]
        self.process = subprocess.Popen(words, cwd=folder, env=environment, start_new_session=True, **how)
        status, said = self.run(f'. "{PRELUDE}"')
        if status:
            raise Failed(f"{PRELUDE}: {said}")

    def real(self, text):
        """A text of a page with this run's addresses and paths in it."""
        for told, real in sorted(self.places.values(), key=lambda pair: -len(pair[0])):
            text = text.replace(told, real)
        return text

    def told(self, text):
        """What was printed, with the page's addresses and paths in it."""
        for told, real in sorted(self.places.values(), key=lambda pair: -len(pair[1])):
            text = text.replace(real, told)
        return text

    def run(self, command):
        """The status of a command, and what it prints."""
        if self.show:
            print(f"    $ {command}", flush=True)
        text = f"{{ {self.real(command)}\n}} < /dev/null\nprintf '\\n{END} %s\\n' $?\n"
        self.process.stdin.write(text.encode())
        self.process.stdin.flush()
        printed, end = b"", time.monotonic() + LONGEST
        while not re.search(rb"\n" + END.encode() + rb" (\d+)\n$", printed):
            ready, _, _ = select.select([self.process.stdout], [], [], max(0, end - time.monotonic()))
            more = os.read(self.process.stdout.fileno(), 1 << 16) if ready else b""
            if not more:
                raise Failed(f"{command}: no end within {LONGEST} s, or the shell ended: {printed.decode()}")
            printed += more
        said, _, status = printed.decode(errors="replace").rpartition(f"\n{END} ")
        return int(status), self.told(said)

    def stop(self):
        """Ends all that the page started."""
        with contextlib.suppress(OSError):
            os.killpg(self.process.pid, signal.SIGKILL)
        self.process.wait()


def places_of(folder):
    """What a page names, and what stands for it in this run, by the name that the shell knows it by."""
    ports = iter(free_ports(24))
    found = {
        "COLLECTOR_PEERS": ("10.1.0.9:10000", f"127.1.0.9:{next(ports)}"),
        "SECOND_PEERS": ("10.1.0.10:10000", f"127.1.0.10:{next(ports)}"),
        "TLS": ("10.1.0.9:10001", f"127.1.0.9:{next(ports)}"),
        "BEHIND_TLS": ("127.0.0.1:10000", f"127.0.0.1:{next(ports)}"),
        "ADMIN": ("127.0.0.1:9999", f"127.0.0.1:{next(ports)}"),
        "HTTP": ("127.0.0.1:9998", f"127.0.0.1:{next(ports)}"),
        "SECOND_HTTP": ("127.0.0.1:9997", f"127.0.0.1:{next(ports)}"),
        "ADMIN_SOCKET": ("/run/sesamejoist/admin", f"{folder}/admin"),
        "CONF": ("/etc/sesamejoist/fleet.conf", f"{folder}/fleet.conf"),
        "CFG": ("/etc/haproxy/haproxy.cfg", f"{folder}/haproxy.cfg"),
        "SECRETS": ("/etc/haproxy/tls", f"{folder}/tls"),
        "CLIENT": ("10.0.0.66", "127.0.0.66"),
        "OTHER": ("10.0.0.7", "127.0.0.7"),
        "THIRD": ("10.0.0.8", "127.0.0.8"),
    }
    for number in (1, 2, 3):
        found[f"LB{number}"] = (f"10.1.0.{number}:10000", f"127.1.0.{number}:{next(ports)}")
        found[f"MESH{number}"] = (f"10.1.0.{number}:10001", f"127.1.0.{number}:{next(ports)}")
        found[f"LB{number}_HTTP"] = (f"http of lb{number}", f"127.0.0.1:{next(ports)}")
    address, port = found["ADMIN"][1].split(":")
    found["ADMIN_WORDS"] = ("127.0.0.1 9999", f"{address} {port}")
    found["ASK"] = ("tools/try/ask.py", f"{REPOSITORY}/tools/try/ask.py")
    return found


class Page:
    """A page whose examples are run."""

    def __init__(self, name, shell, page_text):
        self.name, self.shell = name, shell
        self.examples, self.passed, self.left_out, self.failed = examples(page_text), 0, 0, 0
        self.script = None

    def run(self):
        """Runs all of them."""
        for example in self.examples:
            kind, _, rest = example.what.partition(" ")
            if kind in ("not", "not:"):
                self.left_out += 1
                continue
            try:
                self.do(kind, rest, example)
                self.passed += not is_alone(example.what)
            except Failed as fault:
                self.failed += 1
                print(f"FAILED  {self.name}:{example.number}: {fault}", flush=True)

    def do(self, kind, rest, example):
        """Does what is to be done with one."""
        if kind == "run":
            self.transcript(example, rest)
        elif kind == "asked":
            lines = [f"$ echo '{line[2:]}' | nc -NU /run/sesamejoist/admin" if line.startswith("> ") else line
                     for line in example.lines]
            self.transcript(Example(example.what, example.number, lines), rest)
        elif kind == "start":
            self.succeed(f"begin {shlex.quote(example.lines[0].removeprefix('$ '))}")
        elif kind == "sh":
            self.succeed(rest)
        elif kind == "file":
            self.write(rest, example.text())
        elif kind == "check":
            self.check(example)
        elif kind == "in":
            self.compare(rest, example)
        elif kind == "take":
            for other in examples((REPOSITORY / rest).read_text()):
                if other.what.startswith("file "):
                    self.write(other.what[5:], other.text())
        elif kind == "replay":
            self.script = example.text()
        elif kind == "prints":
            self.replay(example, (REPOSITORY / rest).read_text() if rest else self.script)
        else:
            raise Failed("no comment above says how this example is run")

    def write(self, words, text):
        """Writes a file of the page's."""
        name, _, more = words.partition(" ")
        with open(self.shell.folder / name, "a" if more else "w") as file:
            file.write(self.shell.real(text))

    def succeed(self, command):
        """Runs a command that has to end with 0."""
        status, said = self.shell.run(command)
        if status:
            raise Failed(f"{command}: status {status}: {said.strip()}")

    def check(self, example):
        """Lines of a configuration, of which `aggregator check` has to say `ok`."""
        text = self.shell.real(example.text())
        base = "" if "\nname " in f"\n{text}" else "cat fleet.conf; "
        status, said = self.shell.run(f"{{ {base}cat <<'END_OF_CONF'\n{text}END_OF_CONF\n}} | aggregator check")
        if status or said.strip() != "ok":
            raise Failed(said.strip())

    def compare(self, file, example):
        """Lines that stand in a file of the repository."""
        lines = {line.strip() for line in (REPOSITORY / file).read_text().splitlines()}
        missing = [line for line in example.lines if line.strip() not in lines | {"", ".."}]
        if missing:
            raise Failed(f"{file} doesn't have: {missing[0].strip()}")

    def replay(self, example, script):
        """What a script prints."""
        _, said = self.shell.run(f"aggregator replay <<'END_OF_SCRIPT'\n{script}END_OF_SCRIPT")
        if not matches(example.lines, said, "exact"):
            raise Failed(f"replay prints: {said}")

    def transcript(self, example, how):
        """Commands and what they print, as a terminal shows them."""
        if not any(line.startswith("$ ") for line in example.lines):
            for line in filter(str.strip, example.lines):
                self.succeed(line)
            return
        command, wanted = None, []
        for line in [*example.lines, "$ "]:
            if not line.startswith("$ "):
                wanted.append(line)
                continue
            if command:
                self.ask(command, wanted, how)
            command, wanted = line[2:], []

    def ask(self, command, wanted, how):
        """A command, until it prints what is wanted where it is a question, or once."""
        end = time.monotonic() + (PATIENCE if re.search(r"show|curl|journalctl", command) else 0)
        while True:
            _, said = self.shell.run(command)
            if matches(wanted, said, how):
                return
            if time.monotonic() > end:
                raise Failed(f"{command}\n  the page says:\n{indented(wanted)}\n  it prints:\n"
                             + indented(said.splitlines()))
            time.sleep(0.2)


def indented(lines):
    return "\n".join(f"    {line}" for line in lines)


def run_page(name, program, show):
    """Runs one page with a shell of its own."""
    with tempfile.TemporaryDirectory(prefix="sesamejoist-") as folder:
        folder = pathlib.Path(folder)
        shell = Shell(folder, program, places_of(folder), show)
        page = Page(name, shell, (REPOSITORY / name).read_text())
        try:
            page.run()
        finally:
            shell.stop()
    print(f"{name}: {page.passed} as they say, {page.failed} not, {page.left_out} not run", flush=True)
    return page


def main():
    words = argparse.ArgumentParser(description=__doc__, formatter_class=argparse.RawDescriptionHelpFormatter)
    words.add_argument("pages", nargs="*", default=PAGES, metavar="PAGE")
    words.add_argument("--collector", default=COLLECTOR, type=pathlib.Path, help="the program that is tried")
    words.add_argument("--show", action="store_true", help="print each command")
    options = words.parse_args()
    haproxy = os.environ.get("HAPROXY") or "haproxy"
    wants("bash", haproxy, "curl", "nc", "socat", "openssl", "pgrep", program=options.collector)
    ends_cleanly()
    pages = [run_page(name, options.collector.resolve(), options.show) for name in options.pages]
    failed = sum(page.failed for page in pages)
    passed, left_out = sum(page.passed for page in pages), sum(page.left_out for page in pages)
    print(f"{passed} passed, {failed} failed, {left_out} not run")
    return 1 if failed else 0


if __name__ == "__main__":
    sys.exit(main())
