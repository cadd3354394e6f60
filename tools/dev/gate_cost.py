#!/usr/bin/env python3
"""Runs the gate, and tells where its processor time goes: proofs, tests, edits and programs, for each crate.

    tools/dev/gate_cost.py [--out LOG] [--page docs/GATE.md] [-- COMMAND ..]     (rt ci where none is named)

It looks at the processes that the command starts ten times a second, so what lives shorter isn't counted. A crate's
line says processor seconds. What the command prints goes to LOG (gate.log), its last line to standard output too.
Into PAGE it writes the same as a table of processor minutes, between the two lines that say so there. It wants `rt`.
The status is the command's.
"""

import argparse
import collections
import os
import pathlib
import subprocess
import sys
import time

sys.path.insert(0, str(pathlib.Path(__file__).resolve().parents[1]))

from lib.needs import wants

TICK = os.sysconf("SC_CLK_TCK")
KINDS = ("proof", "tests", "edits", "program")
MARKS = ("<!-- tools/dev/gate_cost.py writes from here -->\n", "<!-- up to here -->\n")


def of_process(pid):
    """The parent of a process, its start, and the seconds of processor time that it and its ended children took."""
    text = pathlib.Path(f"/proc/{pid}/stat").read_text()
    words = text[text.rindex(")") + 2:].split()
    return int(words[1]), int(words[19]), sum(int(it) for it in words[11:13]) / TICK


def below(top):
    """The processes that a process started, however far down, with their start and their processor time."""
    found = {}
    for name in os.listdir("/proc"):
        if name.isdigit():
            try:
                found[int(name)] = of_process(name)
            except (OSError, ValueError):
                pass
    kept = {top}
    grown = True
    while grown:
        grown = False
        for pid, (parent, _, _) in found.items():
            if parent in kept and pid not in kept:
                kept.add(pid)
                grown = True
    return {pid: found[pid] for pid in kept if pid in found and pid != top}


def named(pid):
    """Which crate a process works for, and at what."""
    try:
        words = pathlib.Path(f"/proc/{pid}/cmdline").read_bytes().decode(errors="replace").split("\0")
        folder = os.readlink(f"/proc/{pid}/cwd")
    except OSError:
        return None
    if not words or not words[0].endswith("rattle"):
        return None
    crate = words[words.index("--crate-name") + 1] if "--crate-name" in words else "?"
    if "rt-edit-" in folder:
        return crate, "edits"
    if "--test" in words:
        return crate, "tests"
    return crate, "program" if words[1:2] == ["build"] and "--crate-checked" in words else "proof"


def owner(pid, found, names):
    """The name of a process, or of the nearest one above it that has one: a proof has helpers with no name of their own."""
    while pid in found:
        parent, began, _ = found[pid]
        if names.get((pid, began)):
            return names[pid, began]
        pid = parent
    return None


def write_page(page, rows, told):
    """Writes a table of processor minutes into a page, between its two marks."""
    lines = [f"{told}. Taken on {time.strftime('%Y-%m-%d', time.gmtime())}.", "",
             f"| Crate | {' | '.join(KINDS)} | all |", "|---" * (len(KINDS) + 2) + "|"]
    for crate, row in rows:
        lines.append(f"| {crate} | " + " | ".join(f"{it / 60:.1f}" for it in [*row, sum(row)]) + " |")
    text = page.read_text()
    before, rest = text.split(MARKS[0])
    page.write_text(before + MARKS[0] + "\n".join(lines) + "\n" + MARKS[1] + rest.split(MARKS[1])[1])


def main():
    words = argparse.ArgumentParser(description=__doc__, formatter_class=argparse.RawDescriptionHelpFormatter)
    words.add_argument("--out", default="gate.log")
    words.add_argument("--page", type=pathlib.Path)
    words.add_argument("command", nargs="*")
    options = words.parse_args()
    wants(*(options.command or ["rt"])[:1])
    start, spent, names, owners = time.time(), {}, {}, {}
    with open(options.out, "wb") as log:
        process = subprocess.Popen(options.command or ["rt", "ci"], stdout=log, stderr=subprocess.STDOUT)
        while process.poll() is None:
            found = below(process.pid)
            for pid, (_, began, seconds) in found.items():
                # (a process has its own name only once it runs its own program)
                if names.get((pid, began)) is None:
                    names[pid, began] = named(pid)
                spent[pid, began] = seconds
            for pid, (_, began, _) in found.items():
                owners[pid, began] = owner(pid, found, names) or owners.get((pid, began))
            time.sleep(0.1)
    sums = collections.Counter()
    for one, seconds in spent.items():
        sums[owners.get(one) or ("other", "program")] += seconds
    print(f"{'crate':20}" + "".join(f"{kind:>9}" for kind in KINDS) + f"{'all':>9}")
    crates = sorted({crate for crate, _ in sums}, key=lambda it: -sum(sums[it, kind] for kind in KINDS))
    rows = [(crate, [sums[crate, kind] for kind in KINDS]) for crate in crates]
    rows.append(("all", [sum(it) for it in zip(*(row for _, row in rows))]))
    for crate, row in rows:
        print(f"{crate:20}" + "".join(f"{it:9.0f}" for it in row) + f"{sum(row):9.0f}")
    last = pathlib.Path(options.out).read_text(errors="replace").rstrip().split("\n")[-1]
    minutes = sum(sums.values()) / 60
    told = f"{last}; {(time.time() - start) / 60:.0f} min on {os.cpu_count()} cores, {minutes:.0f} processor minutes"
    print(told)
    if options.page:
        write_page(options.page, rows, told)
    sys.exit(process.returncode)


if __name__ == "__main__":
    main()
