#!/usr/bin/env python3
"""Lists the public calls that may answer that an allocation failed, and the program that makes each.

    tools/dev/happy_paths.py [--all]

No clause can promise that memory is there: a body that always gave up would meet its contract. So each such call is
made by a program of the gate with enough memory, and what it leads to is compared. A line has a crate, a call, and a
program: one that names the call itself, or else one from which calls lead to it, with the call that makes it there.
Without `--all` only the calls are printed that no program leads to; the status is 1 if there are any.

It reads texts alone, by names, in some seconds: that a call is named where it is made, and not that it then succeeds.
"""

import argparse
import collections
import pathlib
import re
import sys

TOP = pathlib.Path(__file__).resolve().parents[2]
CRATES = TOP / "crates"
# What a result's type names where memory may lack.
LACKS = re.compile(r"\b(NoMemory|AllocError|Usage|Refused|Faulted|\w+Fault|\w+Cause|Unread)\b")
HEAD = re.compile(r"^(?P<indent> *)(?P<pub>pub )?(?:pub\([^)]*\) )?(?:const )?(?:unsafe )?fn (?P<name>\w+)(?P<rest>.*?)"
                  r"(?=\n *(?:requires|ensures|where|\{)|\{|;)", re.DOTALL | re.MULTILINE)
IMPL = re.compile(r"^(?:unsafe )?(?:impl|pub trait|trait)\b(?P<head>[^{]*)\{", re.MULTILINE)
CALL = re.compile(r"(?:(?P<owner>\b[A-Z]\w*)(?:::<[^>;]*>)?::|(?P<part>\b[a-z]\w*)::|(?P<dot>\.))?"
                  r"\b(?P<name>[a-z]\w*)(?:::<[^;()]*>)?\(")
USE = re.compile(r"^use (\w+)::([^;]+);", re.MULTILINE)


class Call:
    """A function: its crate, the type that has it and whether a trait asks for it, its name, its body and what its file
    takes from other crates, and whether others see it and it may lack memory."""

    def __init__(self, crate, owner, head, body, taken, is_seen):
        self.crate, self.name, self.body, self.taken = crate, head["name"], body, taken
        self.owner, self.is_asked_for = owner
        answers = head["rest"].split("->")[-1] if "->" in head["rest"] else ""
        self.may_lack = bool(is_seen and head["pub"] and LACKS.search(answers))

    def __str__(self):
        return f"{self.owner}::{self.name}" if self.owner else self.name

    def may_make(self, said, other):
        """Whether the name of a call that stands in its body may be this function's."""
        if said["dot"]:
            return bool(other.owner)
        if said["owner"]:
            return other.owner == (self.owner if said["owner"] == "Self" else said["owner"])
        if other.owner:
            return False
        return other.crate in (self.crate, said["part"]) or (other.crate, other.name) in self.taken


def owner_of(head):
    """The type of an `impl`'s head, or of a trait's, and whether it is an impl of a trait."""
    told = re.sub(r"<[^<>]*>", "", re.sub(r"<[^<>]*>", "", re.sub(r"<[^<>]*>", "", head)))
    return re.sub(r"\W.*", "", told.split(" for ")[-1].strip(" &")), " for " in told


def calls_of(crate):
    """The functions of a crate."""
    front = crate / "src/lib.rt"
    lent = re.findall(r"pub use ([^;]+);", front.read_text()) if front.exists() else []
    seen = set(re.findall(r"\w+", " ".join(lent)))
    for file in sorted(crate.glob("src/**/*.rt")):
        text = re.sub(r"//.*", "", file.read_text())
        owners = [(it.start(), owner_of(it["head"])) for it in IMPL.finditer(text)]
        heads = list(HEAD.finditer(text))
        taken = {(said[1], name) for said in USE.finditer(text) for name in re.findall(r"\w+", said[2])}
        for head, behind in zip(heads, [it.start() for it in heads[1:]] + [len(text)]):
            owner = [it for at, it in owners if at < head.start()][-1] if head["indent"] and owners else ("", False)
            is_seen = (owner[0] or head["name"]) in seen or file == front
            yield Call(crate.name, owner, head, text[head.end():behind], taken, is_seen)


def below():
    """For each crate itself and all that it stands on."""
    found = {}
    for line in (TOP / "crates.txt").read_text().splitlines():
        name, _, rest = line.split("#")[0].partition(":")
        if name.strip():
            found[name.strip()] = {name.strip()}.union(*(found.get(it, set()) for it in rest.split()))
    return found


def leads(calls, stand_on):
    """For each function those that its body names."""
    by_name, led = collections.defaultdict(list), collections.defaultdict(list)
    for it in calls:
        by_name[it.name].append(it)
    for it in calls:
        for said in CALL.finditer(it.body):
            near = (other for other in by_name.get(said["name"], ()) if other.crate in stand_on[it.crate])
            led[it] += [other for other in near if it.may_make(said, other)]
    return led


def programs_of(calls):
    """For each function that programs lead to the program, and the function that names it, by the fewest calls. What a
    trait asks for is called where nothing names it: a program that stands on its crate leads to it."""
    stand_on = below()
    led = leads(calls, stand_on)
    programs = [it for it in stand_on if it.startswith("test_")] + ["aggregator"]
    roots = sorted((it for it in calls if it.crate in programs), key=lambda it: it.crate == "aggregator")
    found = {it: (it.crate, None) for it in roots}
    queue = collections.deque(found)
    asked_for = collections.deque(it for it in calls if it.is_asked_for)
    while queue or asked_for:
        it = queue.popleft() if queue else asked_for.popleft()
        if it not in found:
            found[it] = (next(one for one in programs if it.crate in stand_on[one]), None)
        for other in led[it]:
            if other not in found:
                found[other] = (found[it][0], it)
                queue.append(other)
    return found


def main():
    words = argparse.ArgumentParser(description=__doc__, formatter_class=argparse.RawDescriptionHelpFormatter)
    words.add_argument("--all", action="store_true", help="print each call, with a program that makes it")
    options = words.parse_args()
    calls = [call for crate in sorted(CRATES.iterdir()) for call in calls_of(crate)]
    found = programs_of(calls)
    lost = [it for it in calls if it.may_lack and it not in found]
    for it in (it for it in calls if it.may_lack and (options.all or it not in found)):
        program, by = found.get(it, ("nowhere", None))
        inside = "" if by is None or by.crate.startswith("test_") else f", by {by.crate}'s {by}"
        print(f"{it.crate:16} {str(it):28} {program}{inside}")
    print(f"{sum(it.may_lack for it in calls)} calls, {len(lost)} that no program makes")
    sys.exit(bool(lost))


if __name__ == "__main__":
    main()
