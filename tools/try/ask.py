#!/usr/bin/env python3
"""Asks a collector, and prints its answers.

    tools/try/ask.py 127.0.0.1:9999 "show table clients"
    tools/try/ask.py 127.0.0.1:9999 "show filter abusers" "show next abusers"
    tools/try/ask.py /run/sesamejoist/admin "show info"
    tools/try/ask.py --stats /run/haproxy/admin.sock "show table clients"

Each argument is one command of docs/COMMANDS.md. An answer ends with an empty line, which isn't printed.
The exit status is 1 where a command was refused, and 2 where the collector can't be asked. With `--stats` it
asks a HAProxy on its stats socket instead, to lay the two side by side.
"""

import argparse
import pathlib
import sys

sys.path.insert(0, str(pathlib.Path(__file__).resolve().parents[1]))

from lib.asking import address, ask, ask_proxy


def main():
    words = argparse.ArgumentParser(description=__doc__, formatter_class=argparse.RawDescriptionHelpFormatter)
    words.add_argument("--stats", action="store_true", help="ask a HAProxy on its stats socket")
    words.add_argument("place", help="an address and port, or a socket's path")
    words.add_argument("commands", nargs="+", metavar="COMMAND")
    options = words.parse_args()
    refused = False
    for command in options.commands:
        try:
            answer = (ask_proxy(options.place, command) if options.stats
                      else ask(address(options.place), command))
        except (OSError, ValueError) as fault:
            print(f"{options.place}: {fault}", file=sys.stderr)
            sys.exit(2)
        sys.stdout.write(answer)
        refused = refused or answer.startswith("refused ")
    sys.exit(1 if refused else 0)


if __name__ == "__main__":
    main()
