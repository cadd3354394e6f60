#!/usr/bin/env python3
"""Counts each crate's functions, and refuses a crate above 120, or a test program above 150, that wasn't above it before.

    tools/dev/rooms.py

It prints those crates, and what is refused; the status is 1 if anything is. It reads texts alone, in a second.

A crate of LARGE may have as many functions as stand there, and no more: so it only shrinks. Lower its number when it
has fewer, and take it out at 120.
"""

import argparse
import pathlib
import re
import sys

MOST = 120
MOST_OF_TESTS = 150
LARGE = {
    "peer_rows": 272, "agg_types": 223, "hub": 214, "standing_filters": 140,
}
HEAD = re.compile(r"^\s*(?:pub(?:\([^)]*\))? )?(?:const )?(?:unsafe )?fn ", re.MULTILINE)


def main():
    argparse.ArgumentParser(description=__doc__, formatter_class=argparse.RawDescriptionHelpFormatter).parse_args()
    crates = pathlib.Path(__file__).resolve().parents[2] / "crates"
    counts = {it.name: sum(len(HEAD.findall(file.read_text())) for file in it.glob("src/**/*.rt"))
              for it in crates.iterdir()}
    refused = False
    for name, count in sorted(counts.items(), key=lambda it: -it[1]):
        usual = MOST_OF_TESTS if name.startswith("test_") else MOST
        most = LARGE.get(name, usual)
        if count > most:
            told = f", of at most {most}: split it"
        elif name in LARGE and count < most:
            told = f", its number is {most}: lower it"
        else:
            told = ""
        if told or count > usual:
            print(f"{name:20} {count}{told}")
        refused = refused or told != ""
    sys.exit(refused)


if __name__ == "__main__":
    main()
