#!/usr/bin/env python3
"""Compares the limits that documents and comments name with crates/agg_types/src/limits.rt.

    tools/check/limits.py

The code cites limits by their names. A few of its places tell a number all the same: they stand last. It reads texts
alone, in a second. It prints what differs, what a document no longer tells and a limit that none tells; the status is 1
where there is one.
"""

import argparse
import pathlib
import re
import sys

TOP = pathlib.Path(__file__).resolve().parents[2]
WORDS = {"four": 4, "fifth": 5}

# what is told of a limit, a document, and a pattern whose group is the number
PLACES = [
    ("MOST_PEERS", "docs/CONFIGURATION.md", r"peers; seats \| (\d+);"),
    ("MOST_SEATS", "docs/CONFIGURATION.md", r"peers; seats \| \d+; (\d+)"),
    ("MOST_TABLES", "docs/CONFIGURATION.md", r"ranked lists, pushed filters \| (\d+),"),
    ("MOST_FILTERS", "docs/CONFIGURATION.md", r"ranked lists, pushed filters \| \d+, (\d+),"),
    ("MOST_RANKS", "docs/CONFIGURATION.md", r"ranked lists, pushed filters \| \d+, \d+, (\d+)"),
    ("MOST_CONDS", "docs/CONFIGURATION.md", r"conditions of a filter or command \| (\d+)"),
    ("LONGEST_RANK", "docs/CONFIGURATION.md", r"keys of a ranked list \| ([\d,]+)"),
    ("LARGEST_SIZE", "docs/CONFIGURATION.md", r"rows of one peer in one table \(`size`\) \| ([\d,]+)"),
    ("LONGEST_KEY", "docs/CONFIGURATION.md", r"key length \| (\d+) bytes"),
    ("LONGEST_PAYLOAD", "docs/CONFIGURATION.md", r"message; hello line; command line \| ([\d,]+);"),
    ("LONGEST_HELLO_LINE", "docs/CONFIGURATION.md", r"command line \| [\d,]+; (\d+);"),
    ("LONGEST_COMMAND_LINE", "docs/CONFIGURATION.md", r"command line \| [\d,]+; \d+; ([\d,]+) bytes"),
    ("MOST_PEERS", "docs/CONFIGURATION.md", r"that may connect. At most (\d+)"),
    ("MOST_TABLES", "docs/CONFIGURATION.md", r"a stick table. At most (\d+)"),
    ("LONGEST_KEY", "docs/CONFIGURATION.md", r"exactly `len` of a binary key; 1 to (\d+)"),
    ("LONGEST_RANK", "docs/CONFIGURATION.md", r"keys by a column, 1 to ([\d,]+)"),
    ("MOST_RANKS", "docs/CONFIGURATION.md", r"keys by a column, 1 to [\d,]+. At most (\d+)"),
    ("MOST_PUSHES", "docs/CONFIGURATION.md", r"ranked lists, pushed filters \| \d+, \d+, \d+, (\d+)"),
    ("MOST_PUSHES", "docs/CONFIGURATION.md", r"after its last telling. At most (\d+)"),
    ("MOST_LOGS", "docs/CONFIGURATION.md", r"logged filters, ignored tables \| (\d+),"),
    ("MOST_IGNORED", "docs/CONFIGURATION.md", r"logged filters, ignored tables \| \d+, (\d+)"),
    ("MOST_LOGS", "docs/CONFIGURATION.md", r"OPERATIONS.md#log-lines\)\). At most (\d+)"),
    ("MOST_IGNORED", "docs/CONFIGURATION.md", r"and nobody is told of it. At most (\d+)"),
    ("SHORTEST_HOLD", "docs/CONFIGURATION.md", r"With a hold of ([\d,]+) to"),
    ("SHORTEST_HOLD", "docs/CONFIGURATION.md", r"a hold below ([\d,]+)"),
    ("MOST_CONDS", "docs/CONFIGURATION.md", r"standing filter of one to (\w+) conditions"),
    ("MOST_FILTERS", "docs/CONFIGURATION.md", r"At most (\d+), with those that are added"),
    ("LARGEST_SIZE", "docs/CONFIGURATION.md", r"in the table, 1 to ([\d,]+)"),
    ("LONGEST_NAME", "docs/CONFIGURATION.md", r"Names are 1 to (\d+) bytes"),
    ("LONGEST_NAME", "docs/CONFIGURATION.md", r"a name of more than (\d+) bytes"),
    ("LARGEST_SIZE", "docs/CONFIGURATION.md", r"a size is 1 to (\d+)"),
    ("LONGEST_KEY", "docs/CONFIGURATION.md", r"a len 1 to (\d+)"),
    ("LONGEST_RANK", "docs/CONFIGURATION.md", r"a ranked list's length 1 to (\d+)"),
    ("MOST_ROWS", "docs/CONFIGURATION.md", r"list's length 1 to \d+, rows 1 to (\d+)"),
    ("MOST_ROWS", "docs/CONFIGURATION.md", r"tables and peers together, 1 to ([\d,]+)"),
    ("MOST_ROWS", "docs/CONFIGURATION.md", r"without the line; ([\d,]+)"),
    ("LARGEST_SIZE", "docs/CONFIGURATION.md", r"Twice HAProxy's, at most ([\d,]+)"),
    ("LONGEST_KEY", "docs/CONFIGURATION.md", r"with keys above (\d+) bytes"),
    ("MOST_TABLES", "docs/CONFIGURATION.md", r"or behind (\d+) others"),
    ("SHORTEST_HOLD", "docs/ACTING.md", r"A hold is ([\d,]+) to"),
    ("MOST_PUSHES", "docs/ACTING.md", r"At most (\d+) filters are"),
    ("MOST_CONDS", "docs/COMMANDS.md", r"standing filter of one to (\w+) conditions"),
    ("LONGEST_NAME", "docs/COMMANDS.md", r"name of more than (\d+) bytes"),
    ("LONGEST_COMMAND_LINE", "docs/COMMANDS.md", r"A line has at most ([\d,]+) bytes"),
    ("LONGEST_COMMAND_LINE", "docs/COMMANDS.md", r"further word, or more than ([\d,]+) bytes"),
    ("MOST_FILTERS", "docs/COMMANDS.md", r"there are (\d+) filters"),
    ("MOST_FILTERS", "docs/COMMANDS.md", r"its place among the (\d+) is free"),
    ("MOST_SEATS", "docs/COMMANDS.md", r"workers that have a seat, of (\d+)"),
    ("MOST_CONDS", "docs/MODEL.md", r"[Tt]here are one to (\w+) conditions"),
    ("MOST_FILTERS", "docs/MODEL.md", r"fewer than (\d+) (?:stood|were active|are active)"),
    ("MOST_SEATS", "docs/MODEL.md", r"fewer than (\d+) seats sit"),
    ("LAST_MOMENT", "docs/MODEL.md", r"[Mm]oment (?:at most|is at most|up to) (2\^\d+)"),
    ("LAST_SEAT", "docs/MODEL.md", r"every seat that ever sat down and at most (2\^\d+)"),
    ("NUMBERS_END", "docs/MODEL.md", r"events counted before, below (2\^\d+)"),
    ("LONGEST_PAYLOAD", "docs/PROTOCOL.md", r"A length above ([\d,]+) is refused"),
    ("LONGEST_HELLO_LINE", "docs/PROTOCOL.md", r"a line of more than (\d+) bytes"),
    ("MOST_FOLLOWED", "docs/PROTOCOL.md", r"At most (\d+) ids are ever followed"),
    ("LONGEST_HELLO_LINE", "docs/design/sessions.md", r"line by line, up to (\d+) bytes"),
    ("MOST_PEERS", "docs/OPERATIONS.md", r"(\d+) peers may be configured"),
    ("MOST_PEERS", "docs/OPERATIONS.md", r"More than (\d+) proxies"),
    ("MOST_PEERS", "docs/OPERATIONS.md", r"One collector takes (\d+) names"),
    ("MOST_SEATS", "docs/OPERATIONS.md", r"There are (\d+) seats"),
    ("MOST_SEATS", "docs/OPERATIONS.md", r"all (\d+) seats (?:are|were) taken"),
    ("MOST_CONDS", "docs/COMMANDS.md", r"all of the one to (\w+) conditions hold"),
    ("MOST_CONDS", "docs/HTTP.md", r"up to (\w+) conditions"),
    ("MOST_CONDS + 1", "docs/COMMANDS.md", r"\| a (\w+) condition \|"),
    ("MOST_CONDS + 1", "docs/CONFIGURATION.md", r"`store`; a (\w+) condition"),
    ("MOST_PEERS", "docs/CONFIGURATION.md", r"(?:peers|those) beyond (\d+)"),
    ("PERIOD_END - 1", "docs/CONFIGURATION.md", r"period in ms, 1 to (\d+)"),
    ("PERIOD_END - 1", "docs/CONFIGURATION.md", r"a period(?: or a `keep`)? of 0 or above (\d+)"),
    ("PERIOD_END - 1", "docs/CONFIGURATION.md", r"a row lives here, in ms, 1 to (\d+)"),
    ("MOST_ROWS", "docs/CONFIGURATION.md", r"all tables and peers together, 1 to ([\d,]+)"),
    ("MOST_ROWS", "docs/CONFIGURATION.md", r"no bound without the line; ([\d,]+)"),
    ("MOST_ROWS", "docs/CONFIGURATION.md", r"rows 1 to (\d+)"),
    ("HOLD_END - 1", "docs/CONFIGURATION.md", r"a hold of [\d,]+ to (\d+)"),
    ("HOLD_END - 1", "docs/CONFIGURATION.md", r"a hold below [\d,]+ or above (\d+)"),
    ("HOLD_END - 1", "docs/ACTING.md", r"A hold is [\d,]+ to ([\d,]+)"),
    ("LAST_MOMENT", "docs/REPLAY.md", r"a moment above (2\^\d+)"),
    ("LAST_MOMENT", "docs/PROOFS.md", r"moment up to (2\^\d+)"),
    ("NUMBERS_END", "docs/MODEL.md", r"numbers would pass (2\^\d+) − 1"),
    ("LAST_SEAT", "docs/MODEL.md", r"− 1: (2\^\d+) connections"),
    ("MOST_SEATS", "docs/PROOFS.md", r"[Aa] hub: (\d+) seats"),
    ("MOST_PEERS", "packaging/sesamejoist.service", r"hello, (\d+) peers"),
    # comments
    ("PERIOD_END", "crates/agg_types/src/check.rt", r"a period of 1 to (2\^\d+) - 1 ms"),
    ("SHORTEST_HOLD", "crates/agg_types/src/check.rt", r"a hold outside ([\d,]+) to"),
    ("HOLD_END", "crates/agg_types/src/check.rt", r"/// (2\^\d+) - 1 ms\."),
    ("LONGEST_NAME", "crates/agg_types/src/check.rt", r"more than (\d+) bytes, or a byte"),
    ("LONGEST_NAME", "crates/agg_types/src/name.rt", r"1 to (\d+) bytes, each"),
    ("PERIOD_END", "crates/agg_types/specs/Check.antt", r"a period of 1 to (2\^\d+) - 1"),
    ("HOLD_END", "crates/agg_types/specs/Check.antt", r"a hold is 1 s to (2\^\d+) - 1"),
    ("MOST_CONDS", "crates/standing_filters/src/judging.rt", r"by up to (\w+) conditions"),
    ("MOST_CONDS", "crates/agg_config/src/filters.rt", r"end a line, up to (\w+)\."),
    ("MOST_CONDS", "crates/agg_config/specs/Declarations.antt", r"one to (\w+) conditions"),
    ("MOST_CONDS", "crates/show_clear/src/conditions.rt", r"(?:Up|One) to (\w+) conditions"),
    ("MOST_CONDS", "crates/show_clear/specs/Parse.antt", r"one to (\w+) conditions"),
    ("MOST_CONDS + 1", "crates/show_clear/src/fault.rt", r"A (\w+) condition"),
    ("LONGEST_COMMAND_LINE", "crates/show_clear/src/fault.rt", r"line has more than ([\d,]+)"),
    ("LONGEST_NAME", "crates/show_clear/src/fault.rt", r"it has more than (\d+) bytes"),
    ("MOST_FILTERS", "crates/show_clear/src/fault.rt", r"/// (\d+) standing filters"),
    ("LONGEST_HELLO_LINE", "crates/peer_worker/src/hello.rt", r"a hello have: (\d+) and an LF"),
    ("LAST_MOMENT", "crates/replay/src/start.rt", r"at most (2\^\d+) ms"),
    ("LAST_MOMENT", "crates/replay/specs/Script.antt", r"at most (2\^\d+) ms"),
    ("LAST_MOMENT", "crates/replay/specs/Meaning.antt", r"at most (2\^\d+) ms"),
    ("MOST_FOLLOWED", "crates/collector_log/src/board.rt", r"At most (\d+) tables"),
    # code and definitions
    ("MOST_CONDS", "crates/agg_config/src/filters.rt", r"\(conditions (\d+) "),
    ("MOST_CONDS", "crates/agg_config/specs/Declarations.antt", r"← conditions (\d+) "),
    ("LAST_MOMENT", "crates/replay/src/start.rt", r"moment ≤ (2 \^ \d+)"),
    ("LAST_MOMENT", "crates/replay/src/running.rt", r"opening ≤ (2 \^ \d+)"),
    ("LAST_MOMENT", "crates/replay/specs/Script.antt", r"nat_lt \((2 \^ \d+)\)"),
    ("LAST_MOMENT", "crates/replay/specs/Meaning.antt", r"nat_lt \((2 \^ \d+)\)"),
    ("LAST_MOMENT", "crates/period_rate/src/rate.rt", r"now ≤ (2 \^ \d+)"),
    ("3 * (LONGEST_HELLO_LINE + 1)", "crates/peer_worker/src/hello.rt", r"(?:= |≤ )(\d{3})\b"),
    ("MOST_FOLLOWED", "crates/collector_log/src/board.rt", r"MOST_TABLES: usize = (\d+)"),
    ("MOST_SEATS", "crates/listening/src/collecting.rt", r"SESSION_PLACES: usize = (\d+)"),
    ("MOST_PEERS", "crates/haproxy_import/src/found.rt", r"there are (\d+) others"),
    ("MOST_TABLES", "crates/haproxy_import/src/found.rt", r"or (\d+) in all"),
]


def value_of(text):
    """The value of a constant: a number, or 1 << n."""
    parts = [int(part.replace("_", "")) for part in text.split("<<")]
    return parts[0] << sum(parts[1:])


def number_in(text):
    """A number of a document: a word, digits with commas, or 2^n."""
    if text in WORDS:
        return WORDS[text]
    parts = [int(part.replace(",", "")) for part in text.split("^")]
    return parts[0] ** parts[1] if len(parts) == 2 else parts[0]


def main():
    argparse.ArgumentParser(description=__doc__, formatter_class=argparse.RawDescriptionHelpFormatter).parse_args()
    source = (TOP / "crates/agg_types/src/limits.rt").read_text()
    found = re.findall(r"pub const (\w+): \w+ = ([^;]+);", source)
    limits = {name: value_of(text) for name, text in found}
    faults = 0
    for name, document, pattern in PLACES:
        wanted = eval(name, {}, limits)
        numbers = re.findall(pattern, (TOP / document).read_text())
        told = [number_in(n) for n in numbers]
        if not told and document.startswith("crates/"):
            continue  # it may cite the limit by its name since
        if not told or any(number != wanted for number in told):
            print(f"{document}: {name} is {wanted}, told {told or 'nowhere'}")
            faults += 1
    for name in limits.keys() - set(re.findall(r"\w+", " ".join(place[0] for place in PLACES))):
        print(f"{name}: no document tells it")
        faults += 1
    return 1 if faults else 0


if __name__ == "__main__":
    sys.exit(main())
