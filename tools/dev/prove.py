#!/usr/bin/env python3
"""Proves the crates by the kit's gate, and says how far it is.

    tools/dev/prove.py all [--whole]          every crate, runs all programs, and refuses allocations: what ./test does
    tools/dev/prove.py program [--whole]      the program and the crates below it, and links it: what ./build does

It runs `rt ci`, and prints a line as each crate is done, as `[17/51] book proved, 41 min so far`; what rt says of a
crate that isn't proved follows it. All that rt says goes to a file, which is named first, or with `--whole` to standard
output. Where `rt ci` passed, `all` runs tools/check/refused_growths.py over the programs that it built. Its last line
has what both passed, `N passed, M failed`, and its status is 0 where both are fine.

`program` runs `rt ci` over a copy of the crates that the program stands on, so that what it proves is kept for the
gate. The program then stands at crates/aggregator/out/aggregator, whose path is the last line, beside a stamp that says
from which commit it was proved, and with which kit. Where one stands there already, it is named at once.
"""

import argparse
import os
import pathlib
import re
import shutil
import signal
import subprocess
import sys
import tempfile
import time

sys.path.insert(0, str(pathlib.Path(__file__).resolve().parents[1]))

from lib import stamp
from lib.needs import wants

REPOSITORY = stamp.REPOSITORY
NAME = "aggregator"
# Processor minutes of a quiet and of a slow machine, and minutes of the longest chain of crates that wait for another.
COSTS = {"all": ((159, 300), (47, 105)), "program": ((110, 190), (42, 100))}
DONE = re.compile(r"rt: (\w+) (proved|NOT PROVED|is kept)\b(.*)")
TESTS = re.compile(r"rt: (\w+): its tests are (proved|NOT PROVED)|rt: (\w+): trying its must-fail edits \((\d+)\)")
# What rt says of the whole.
TOLD = ("rt: ok", "rt: FAILED", "rt: note", "rt: warning", "rt: must-fail", "rt: the disk", "rt: waiting")
COUNTS = re.compile(r"(\d+) passed, (\d+) failed")
RAN = re.compile(r"rt: (\w+)(?: \(built by[^)]*\))?:? (?:ran\b|the program\b|what the program\b)(.*)")


def crates():
    """The crates in the order of crates.txt, each with those that it stands on."""
    found = {}
    for line in (REPOSITORY / "crates.txt").read_text().splitlines():
        words = line.split("#")[0].replace(":", " : ", 1).split()
        if words:
            found[words[0]] = words[words.index(":") + 1:]
    return found


def below(name, every):
    """A crate and all that it stands on, however far down, but for those of the kit."""
    found, left = set(), [name]
    while left:
        one = left.pop()
        if one in every and one not in found:
            found.add(one)
            left += every[one]
    return found


def lasting(minutes):
    """A time in words."""
    hours, rest = divmod(round(minutes), 60)
    return f"{hours} h {rest:02} min" if hours else f"{rest} min"


def expected(what, count):
    """Says how long it may take."""
    cores = len(os.sched_getaffinity(0))
    (quick, slow), (least, most) = COSTS[what]
    low, high = max(quick / cores, least), max(slow / cores, most)
    return (f"{count} crates. From nothing that takes {lasting(low)} to {lasting(high)} on {cores} processors; a crate "
            "that an earlier run on this machine proved takes a second.")


class Progress:
    """What is told of a run of the gate."""

    def __init__(self, count, log):
        self.start, self.done, self.count, self.log = time.monotonic(), set(), count, log
        self.part, self.last = [], ""

    def tell(self, text):
        """A line to standard output, at once."""
        print(text, flush=True)

    def so_far(self):
        return f"{lasting((time.monotonic() - self.start) / 60)} so far"

    def take(self, line):
        """Takes a line of the gate's, and tells what a reader wants to know."""
        self.log.write(line)
        self.log.flush()
        text = line.rstrip("\n")
        self.last = text or self.last
        self.part = [] if text.startswith("== ") else [*self.part[-40:], text]
        crate, tests, ran = DONE.match(text), TESTS.match(text), RAN.match(text)
        if crate:
            self.done.add(crate[1])
            how = {"proved": "proved", "is kept": "proved by an earlier run", "NOT PROVED": "NOT PROVED"}[crate[2]]
            self.tell(f"[{len(self.done)}/{self.count}] {crate[1]} {how}, {self.so_far()}")
            if how == "NOT PROVED":
                self.tell("\n".join(self.part))
        elif tests:
            self.tell("        " + text[4:])
        elif ran:
            self.tell("        " + text[4:])
        elif text.startswith(TOLD):
            self.tell(text)


def gate(where, count, whole):
    """Runs `rt ci` in a folder; its status and its last line."""
    with tempfile.NamedTemporaryFile("w", prefix="sesamejoist-", suffix=".log", delete=False) as log:
        progress = Progress(count, log)
        if not whole:
            print(f"All that rt says goes to {log.name}", flush=True)
        process = subprocess.Popen(["rt", "ci"], cwd=where, stdout=subprocess.PIPE, stderr=subprocess.STDOUT, text=True,
                                   errors="replace", stdin=subprocess.DEVNULL, start_new_session=True)
        try:
            for line in process.stdout:
                if whole:
                    log.write(line)
                    sys.stdout.write(line)
                    sys.stdout.flush()
                    progress.last = line.rstrip("\n") or progress.last
                else:
                    progress.take(line)
            status = process.wait()
        except BaseException:
            # (rt puts back what it set aside, and its checks end with it)
            stop(process)
            raise
    if whole and not status:
        os.unlink(log.name)
    return status, progress.last


def stop(process):
    """Ends a gate with all that it started."""
    for sign, seconds in ((signal.SIGINT, 20), (signal.SIGKILL, 5)):
        try:
            os.killpg(process.pid, sign)
            process.wait(timeout=seconds)
        except (OSError, subprocess.TimeoutExpired):
            continue


def prove_all(options):
    """The whole gate, over this checkout."""
    every = crates()
    print(expected("all", len(every)), flush=True)
    before = stamp.commit()
    status, last = gate(REPOSITORY, len(every), options.whole)
    if not options.whole:
        print(last, flush=True)
    if status:
        return status
    if stamp.PROGRAM.exists() and stamp.commit() == before:
        stamp.write(stamp.PROGRAM, last)
    status, refused = refuse_growths()
    print(both(last, refused), flush=True)
    return status


def refuse_growths():
    """Lets allocations of the built programs fail; the status and the last line."""
    words = [sys.executable, str(REPOSITORY / "tools/check/refused_growths.py")]
    process, last = subprocess.Popen(words, stdout=subprocess.PIPE, text=True, stdin=subprocess.DEVNULL), ""
    for line in process.stdout:
        if not COUNTS.fullmatch(line.strip()):
            print(line, end="", flush=True)
        last = line.strip()
    status = process.wait()
    return status, last if COUNTS.fullmatch(last) else f"0 passed, {int(status != 0)} failed"


def both(first, second):
    """What two lines `N passed, M failed` come to; the second where the first isn't one."""
    found = [COUNTS.search(line) for line in (first, second)]
    return " passed, ".join(str(sum(int(it[place]) for it in found if it)) for place in (1, 2)) + " failed"


def copy_of(names, to):
    """Copies these crates, as they stand, to a folder that is the top of a repository of its own."""
    (to / ".git").mkdir()
    for name in names:
        shutil.copytree(REPOSITORY / "crates" / name, to / "crates" / name, symlinks=True,
                        ignore=lambda folder, _: ["out"] if pathlib.Path(folder).name == name else [])
    lines = (REPOSITORY / "crates.txt").read_text().splitlines()
    kept = [line for line in lines if line.split("#")[0].split(":")[0].split()[:1] in [[name] for name in names]]
    (to / "crates.txt").write_text("\n".join(kept) + "\n")
    shutil.copyfile(REPOSITORY / "HANDLES", to / "HANDLES")


def prove_program(options):
    """The program alone, in a copy."""
    if not stamp.why_not(stamp.PROGRAM):
        print(f"It stands already: {stamp.read(stamp.PROGRAM)['verdict']}", flush=True)
        print(stamp.PROGRAM)
        return 0
    names = below(NAME, crates())
    print(expected("program", len(names)), flush=True)
    with tempfile.TemporaryDirectory(prefix="sesamejoist-") as folder:
        copy = pathlib.Path(folder) / "copy"
        copy.mkdir()
        before = stamp.commit()
        copy_of(names, copy)
        status, last = gate(copy, len(names), options.whole)
        if not options.whole:
            print(last, flush=True)
        if status:
            return status
        made = copy / "crates" / NAME / "out" / NAME
        stamp.PROGRAM.parent.mkdir(exist_ok=True)
        stamp.file_of(stamp.PROGRAM).unlink(missing_ok=True)
        shutil.copy2(made, f"{stamp.PROGRAM}.new")
        os.replace(f"{stamp.PROGRAM}.new", stamp.PROGRAM)
    if stamp.commit() == before:
        stamp.write(stamp.PROGRAM, last)
    else:
        print("The sources were changed meanwhile: no stamp is written.", flush=True)
    print(stamp.PROGRAM)
    return 0


def main():
    words = argparse.ArgumentParser(description=__doc__, formatter_class=argparse.RawDescriptionHelpFormatter)
    words.add_argument("what", choices=("all", "program"))
    words.add_argument("--whole", action="store_true", help="print all that rt says, in place of a line for each crate")
    options = words.parse_args()
    signal.signal(signal.SIGTERM, lambda *_: sys.exit(143))
    # A shell that starts this in the background lets it ignore SIGINT.
    signal.signal(signal.SIGINT, signal.default_int_handler)
    wants("rt")
    try:
        return (prove_all if options.what == "all" else prove_program)(options)
    except KeyboardInterrupt:
        return 130


if __name__ == "__main__":
    sys.exit(main())
