#!/usr/bin/env python3
"""Lets allocations of the programs that the gate built fail, one or three in each run, and looks at what they print.

    tools/check/refused_growths.py [--only NAME].. [--every] [--list]

The programs are those of RUNS, at crates/NAME/out/NAME, where `rt ci` leaves them; ./test runs this behind it. Each
program runs once with all the memory that it asks for, and then again and again with one allocation refused: each in
turn, or every second, third or so where it asks for more than MOST. So all of it takes some minutes; `--every` refuses
each. Where a hub publishes, it tries twice: so to some programs three are refused in a row, and a batch stays pending.
An allocation is a call of malloc or realloc. A library refuses it that a C compiler makes of the text below, the
system's or the kit's. What a run with a refused allocation prints is

    same    what it prints with enough memory, with the same status
    cut     a beginning of that, with another status
    told    a beginning of that, then a line with `NoMemory`, and then it goes on or ends
    wrong   anything else: a crash, a hang, another text. It is shown.

A line that begins with `again: ` is a note of the program's own: what it met. It isn't compared. A program passes
where none is wrong, no more are cut or told than RUNS says, and notes tell all that it is to meet. The last line is
`N passed, M failed`; the status is 1 where one failed, and 2 where a program isn't built.
"""

import argparse
import collections
import concurrent.futures
import os
import pathlib
import shutil
import subprocess
import sys
import tempfile
import typing

sys.path.insert(0, str(pathlib.Path(__file__).resolve().parents[1]))

from lib.needs import ends_cleanly
from lib.report import Report
from lib.stamp import REPOSITORY, said_by

MOST = 250
LONGEST = 120  # s of one run
SCRIPTS = "crates/test_replay/data"
NOTE = b"again: "


class Run(typing.NamedTuple):
    """How a program is run, and what its runs may come to."""
    crate: str
    words: list | None = None  # those of the crate
    stdin: str | None = None  # that of the crate
    # how many runs may be cut or told, for allocations of the program's own, of which no call is made once more: four
    # read its words; none: any number
    most_own: int | None = None
    most: int = MOST  # how many runs there are at most, unless each allocation is refused
    in_a_row: int = 1  # how many allocations are refused, one behind the other
    last: int | None = None  # only so many of the last allocations
    meets: tuple = ()  # what the notes of some run have to tell, each of these


WORKERS = ("a session", "a session that is told a key", "an admin who clears", "an admin who adds a filter", "a timer")
RUNS = {
    "hub": Run("test_hub", ["again"], most_own=4, meets=("NoMemory",)),
    "pending": Run("test_hub", ["again"], most_own=4, most=1000, in_a_row=3, meets=("Pending",)),
    "leave": Run("test_hub", ["leave"], most_own=0, in_a_row=3, last=60, meets=("Pending",)),
    "workers": Run("test_serve", ["again"], most_own=4, most=1000, meets=tuple(f"{it}: NoMemory" for it in WORKERS)),
    "waiting": Run("test_serve", ["again"], most_own=4, most=1000, in_a_row=3,
                   meets=tuple(f"{it}: Pending" for it in WORKERS)),
    "books": Run("test_books", ["again"], most_own=4),
    "steps": Run("test_replay", ["again"]),
    "texts": Run("test_texts"),
    "replay": Run("aggregator", ["replay"], f"{SCRIPTS}/added_filters.script"),
    "told": Run("aggregator", ["replay"], f"{SCRIPTS}/told_hold.script"),
    "check": Run("aggregator", ["check"], "examples/fleet.conf"),
    "import": Run("aggregator", ["import"], "examples/haproxy.cfg"),
}

SHIM = r"""
typedef __SIZE_TYPE__ size_t;
void *dlsym(void *, const char *);
char *getenv(const char *);
long atol(const char *);
int open(const char *, int, ...);
void *mmap(void *, size_t, int, int, int, long);

/* (counted in a file of eight bytes, since a program may end without its destructors) */
static long refused = -1, in_a_row = 1, here = 0, *asked = &here;

static int refuse(void)
{
    if (refused < 0) {
        const char *text = getenv("REFUSED_GROWTH"), *path = getenv("ASKED_FILE"), *row = getenv("REFUSED_IN_A_ROW");
        int file = path ? open(path, 2) : -1;
        void *found = file < 0 ? (void *)-1L : mmap(0, sizeof here, 3, 1, file, 0);
        if (found != (void *)-1L)
            asked = found;
        in_a_row = row ? atol(row) : 1;
        refused = text ? atol(text) : 0;
    }
    long number = __atomic_add_fetch(asked, 1, __ATOMIC_SEQ_CST);
    return refused > 0 && refused <= number && number < refused + in_a_row;
}

void *malloc(size_t size)
{
    static void *(*next)(size_t);
    if (!next)
        next = (void *(*)(size_t))dlsym((void *)-1L, "malloc");
    return refuse() ? 0 : next(size);
}

void *realloc(void *block, size_t size)
{
    static void *(*next)(void *, size_t);
    if (!next)
        next = (void *(*)(void *, size_t))dlsym((void *)-1L, "realloc");
    return refuse() ? 0 : next(block, size);
}
"""


def make_shim(folder):
    """Makes the library that refuses an allocation."""
    kit = pathlib.Path(said_by("rt", "doc") or "/").parent / "toolchain/bin/clang"
    compiler = shutil.which("cc") or shutil.which("clang") or (str(kit) if kit.exists() else None)
    if compiler is None:
        sys.exit("missing: a C compiler (apt-get install gcc)")
    source, shim = folder / "shim.c", folder / "shim.so"
    source.write_text(SHIM)
    linker = ["-fuse-ld=lld", "--target=x86_64-unknown-linux-gnu"] if compiler == str(kit) else []
    words = [compiler, *linker, "-O2", "-w", "-shared", "-fPIC", "-nostdlib", "-o", str(shim), str(source)]
    subprocess.run(words, check=True)
    return shim


class Program:
    """A built program, the folder that it runs in and what it is given, as the gate gives it."""

    def __init__(self, run, folder, shim):
        top = REPOSITORY / "crates" / run.crate
        self.path, self.shim, self.folder = top / "out" / run.crate, shim, folder / "data"
        args, data, given = top / "args", top / "data", REPOSITORY / run.stdin if run.stdin else top / "stdin"
        self.words = run.words if run.words is not None else args.read_text().split() if args.exists() else []
        self.in_a_row = run.in_a_row
        self.stdin = given.read_bytes() if given.exists() else b""
        shutil.copytree(data, self.folder) if data.exists() else self.folder.mkdir()

    def run(self, number, asked=None):
        """The status and the output of a run to which the allocation of this number is refused, with those behind it
        that are refused in a row; 0 refuses none. A file counts how many it asks for."""
        environment = {"LD_PRELOAD": str(self.shim), "REFUSED_GROWTH": str(number)}
        environment["REFUSED_IN_A_ROW"] = str(self.in_a_row)
        environment.update({"ASKED_FILE": str(asked)} if asked else {})
        try:
            ended = subprocess.run([str(self.path), *self.words], input=self.stdin, env=environment, cwd=self.folder,
                                   timeout=LONGEST, stdout=subprocess.PIPE, stderr=subprocess.DEVNULL)
        except subprocess.TimeoutExpired:
            return "hang", b""
        return ended.returncode, ended.stdout

    def whole(self):
        """The status and the output of a run that is refused nothing, and how many allocations it asks for."""
        asked = self.folder.parent / "asked"
        asked.write_bytes(bytes(8))
        found = self.run(0, asked)
        return found, int.from_bytes(asked.read_bytes(), sys.byteorder)


def split(found):
    """A run's status and output without its notes, and the notes."""
    status, out = found
    lines = out.splitlines(keepends=True)
    notes = [it for it in lines if it.startswith(NOTE)]
    return (status, b"".join(it for it in lines if not it.startswith(NOTE))), b"".join(notes)


def kind(full, status, out):
    """What a run printed beside the full run's status and output."""
    if (status, out) == full:
        return "same"
    if status == "hang" or status < 0:
        return "wrong"
    if status != full[0] and full[1].startswith(out):
        return "cut"
    wanted, lines = full[1].splitlines(), out.splitlines()
    at = next((i for i, line in enumerate(lines) if i >= len(wanted) or line != wanted[i]), None)
    return "told" if at is not None and b"NoMemory" in lines[at] else "wrong"


def place(full, out):
    """Where a wrong run leaves the full one."""
    wanted, lines = full[1].splitlines(), out.splitlines()
    at = next((i for i, line in enumerate(lines) if i >= len(wanted) or line != wanted[i]), len(lines))
    return f"line {at + 1}: {lines[at:at + 2]}"


def numbers_of(run, count, every):
    """Which allocations are refused in turn, of so many."""
    first = max(1, count - run.last + 1) if run.last else 1
    return range(first, count + 1, 1 if every else -(-(count + 1 - first) // run.most))


def fault(program, name, run, every):
    """What is wrong with a program's runs, or nothing; what they came to is printed."""
    found, count = program.whole()
    full, _ = split(found)
    if full[0] == "hang" or full[0] < 0 or not full[1] or not count:
        return f"with all memory it ends with {full[0]}, {len(full[1])} bytes and {count} allocations"
    numbers = numbers_of(run, count, every)
    counts, wrong, notes = collections.Counter(), [], set()
    with concurrent.futures.ThreadPoolExecutor(len(os.sched_getaffinity(0))) as pool:
        for number, found in zip(numbers, pool.map(program.run, numbers)):
            (status, out), told = split(found)
            it = kind(full, status, out)
            counts[it] += 1
            notes.update(told.splitlines())
            if it == "wrong":
                wrong.append(f"allocation {number}: status {status}, {place(full, out)}")
    came = ", ".join(f"{counts[it]} {it}" for it in ("same", "cut", "told", "wrong") if counts[it])
    row = f", {run.in_a_row} in a row" if run.in_a_row > 1 else ""
    print(f"        {name}: {len(numbers)} of {count} allocations refused in turn{row}: {came}", flush=True)
    own = counts["cut"] + counts["told"]
    if wrong:
        return "; ".join(wrong[:3])
    if run.most_own is not None and own > run.most_own:
        return f"{own} aren't as with enough memory, of at most {run.most_own}"
    lacking = [it for it in run.meets if not any(it.encode() in note for note in notes)]
    return f"no run met {', '.join(lacking)}" if lacking else ""


def main():
    words = argparse.ArgumentParser(description=__doc__, formatter_class=argparse.RawDescriptionHelpFormatter)
    words.add_argument("--only", action="append", choices=RUNS, metavar="NAME", help="one of RUNS; may be repeated")
    words.add_argument("--every", action="store_true", help="refuse each allocation in turn, which may take an hour")
    words.add_argument("--list", action="store_true", help="print RUNS and end")
    options = words.parse_args()
    chosen = {name: RUNS[name] for name in options.only or RUNS}
    if options.list:
        print("\n".join(f"{name:8} {' '.join([it.crate, *(it.words or [])])}" for name, it in chosen.items()))
        return
    crates = {it.crate for it in chosen.values()}
    missing = {it for it in crates if not os.access(REPOSITORY / f"crates/{it}/out/{it}", os.X_OK)}
    if missing:
        print(f"not built: {' '.join(sorted(missing))}: ./test builds and proves them", file=sys.stderr)
        sys.exit(2)
    ends_cleanly()
    report = Report()
    with tempfile.TemporaryDirectory() as folder:
        top = pathlib.Path(folder)
        shim = make_shim(top)
        for name, run in chosen.items():
            (top / name).mkdir()
            program = Program(run, top / name, shim)
            report.tell(f"refused allocations: {name}", fault(program, name, run, options.every))
    report.end()


if __name__ == "__main__":
    main()
