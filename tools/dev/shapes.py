#!/usr/bin/env python3
"""Counts what is longer than the rules of docs/CONTRIBUTING.md allow, and refuses a crate that has more of it than before.

    tools/dev/shapes.py [--list]

It counts functions of more than six parameters (self isn't one), contracts of more than 14 lines, bodies of more than
40 lines, files of more than 500 lines and lines of more than 100 columns, of each crate's src/ and specs/. --list
prints each with its place. It reads texts alone, in some seconds; the status is 1 where a crate has more than LEFT says.

LEFT has what older code still has too much of, a line a crate; its numbers only go down.
"""

import argparse
import pathlib
import re
import sys

RULES = {"parameters": 6, "contract": 14, "body": 40, "file": 500, "columns": 100}
LEFT = {
    "admin_worker": {"contract": 1},
    "book": {"parameters": 6, "contract": 4},
    "book_machine": {"parameters": 8, "contract": 1, "body": 1},
    "config_text": {"body": 1},
    "crossing": {"parameters": 1},
    "fleet_core": {"contract": 1},
    "fleet_model": {"contract": 1},
    "haproxy_import": {"body": 1},
    "journal": {"body": 1},
    "hub": {"parameters": 1, "contract": 3, "body": 1},
    "listening": {"parameters": 1, "body": 1},
    "peer_rows": {"parameters": 3},
    "peer_worker": {"contract": 2},
    "peers_msg": {"contract": 1},
    "ranked": {"contract": 2},
    "session_core": {"parameters": 9, "contract": 1},
    "standing_filters": {"parameters": 4, "contract": 1},
    "test_hub": {"parameters": 1},
    "test_replay": {"parameters": 1},
    "turn_laws": {"contract": 1},
    "web_door": {"body": 1},
}
HEAD = re.compile(r"^[ \t]*(?:pub(?:\([^)]*\))? )?(?:const )?(?:unsafe )?fn (\w+)", re.MULTILINE)
OPENING, CLOSING = "([{<", ")]}>"


def blanked(text):
    """The text with comments and the contents of strings blanked out, of the same length and lines."""
    def blank(found):
        return re.sub(r"[^\n]", " ", found.group())
    return re.sub(r'//[^\n]*|b?"(?:\\.|[^"\\])*"|b?\'(?:\\.|[^\'\\\n])\'', blank, text)


def closing(text, start):
    """The place behind the bracket that closes the one at this place."""
    depth = 0
    pair = {"(": ")", "{": "}", "<": ">"}[text[start]]
    for at in range(start, len(text)):
        if text[at] == text[start]:
            depth += 1
        elif text[at] == pair and not (pair == ">" and text[at - 1] in "-="):
            depth -= 1
            if depth == 0:
                return at + 1
    return len(text)


def parameters(text):
    """How many parameters stand between the parentheses of a head, self not among them."""
    depth, found, one = 0, [], ""
    for at, char in enumerate(text):
        if char in OPENING:
            depth += 1
        elif char in CLOSING and not (char == ">" and text[at - 1] in "-="):
            depth -= 1
        if char == "," and depth == 0:
            found.append(one)
            one = ""
        else:
            one += char
    names = [it.strip() for it in [*found, one] if it.strip()]
    return sum(not re.fullmatch(r"(?:&(?:'\w+ )?)?(?:mut )?self(?:: .*)?", it, re.DOTALL) for it in names)


def functions(text):
    """Each function's name, its line, how many parameters it has, and the lines of its contract and its body."""
    bare = blanked(text)
    for head in HEAD.finditer(bare):
        at = head.end()
        if bare[at:at + 1] == "<":
            at = closing(bare, at)
        if bare[at:at + 1] != "(":
            continue
        behind = closing(bare, at)
        count = parameters(bare[at + 1:behind - 1])
        clause = re.compile(r"\s*(?:requires|ensures|decreases)\b[^{;]*")
        first = re.search(r"\b(?:requires|ensures|decreases)\b|\{|;", bare[behind:])
        place = behind + first.start() if first else behind
        begun = place
        while found := clause.match(bare, place):
            if bare[found.end():found.end() + 1] != "{":
                break
            place = closing(bare, found.end())
        contract = bare[begun:place].count("\n") + 1 if place > begun else 0
        rest = re.match(r"\s*(?:where[^{;]*)?", bare[place:])
        place += rest.end()
        body = 0
        if bare[place:place + 1] == "{":
            body = bare[place:closing(bare, place)].count("\n") - 1
        yield head.group(1), text.count("\n", 0, head.start(1)) + 1, count, contract, body


def found_in(crate):
    """What is too long in a crate: the rule, the place and the measure."""
    for file in sorted([*crate.glob("src/**/*.rt"), *crate.glob("specs/**/*.antt")]):
        text = file.read_text()
        lines = text.splitlines()
        if len(lines) > RULES["file"]:
            yield "file", f"{file.relative_to(crate.parent)}", len(lines)
        for number, line in enumerate(lines, 1):
            if len(line) > RULES["columns"] and "#[tactic(" not in line:
                yield "columns", f"{file.relative_to(crate.parent)}:{number}", len(line)
        if file.suffix != ".rt":
            continue
        for name, line, count, contract, body in functions(text):
            for rule, measure in (("parameters", count), ("contract", contract), ("body", body)):
                if measure > RULES[rule]:
                    yield rule, f"{file.relative_to(crate.parent)}:{line} {name}", measure


def main():
    """Prints what each crate has too much of, and refuses what is more than before."""
    options = argparse.ArgumentParser(description=__doc__, formatter_class=argparse.RawDescriptionHelpFormatter)
    options.add_argument("--list", action="store_true", help="prints each place")
    asked = options.parse_args()
    refused = False
    total = dict.fromkeys(RULES, 0)
    for crate in sorted((pathlib.Path(__file__).resolve().parents[2] / "crates").iterdir()):
        counts = dict.fromkeys(RULES, 0)
        for rule, place, measure in found_in(crate):
            counts[rule] += 1
            total[rule] += 1
            if asked.list:
                print(f"{rule:10} {measure:5} {place}")
        more = [f"{counts[rule]} of {rule}, at most {LEFT.get(crate.name, {}).get(rule, 0)}" for rule in RULES
                if counts[rule] > LEFT.get(crate.name, {}).get(rule, 0)]
        if more:
            print(f"{crate.name}: {'; '.join(more)}")
        refused = refused or more != []
    print(", ".join(f"{total[rule]} of {rule} (above {RULES[rule]})" for rule in RULES))
    sys.exit(refused)


if __name__ == "__main__":
    main()
