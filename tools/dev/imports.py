#!/usr/bin/env python3
"""Says which names the specs and proofs of a crate take from another one that doesn't have them any more.

    tools/dev/imports.py

A lemma that goes or gets another name is missed by the crates above, which `rt check` in its own crate doesn't see, and
`rt ci` only once it comes to them. This reads all of them in a second, as text: it proves nothing. It prints a line for
each name or module that isn't there, and the status is 1 where there is one.
"""

import argparse
import pathlib
import re
import sys

CRATES = pathlib.Path(__file__).resolve().parents[2] / "crates"
USE = re.compile(r"^(?:pub )?use (Rattle(?:\.[\w+]+)+)\.\{([^}]*)\}", re.M)
LENT = re.compile(r"^pub use (Rattle(?:\.\w+)+)$", re.M)
# The compiler writes these modules.
MADE = re.compile(r"\.(declared|contracts)\.|\.(Goals|Given)$")


def file_of(module):
    """The file of a module of one of these crates."""
    return CRATES.joinpath(*module.split(".")[1:]).with_suffix(".antt")


def source_of(module):
    """The text of a module, or of the one that its crate lends under that name; None where there is none."""
    file = file_of(module)
    if file.exists():
        return file.read_text()
    _, crate, part, *rest = module.split(".")
    front = CRATES / crate / part / "Lib.antt"
    for lent in LENT.findall(front.read_text()) if front.exists() else []:
        if lent.split(".")[2:] == [part, *rest]:
            return source_of(lent)
    return None


def faults_of(file):
    """What a file takes that isn't there."""
    for module, names in USE.findall(file.read_text()):
        if not (CRATES / module.split(".")[1]).is_dir() or MADE.search(module):
            continue
        source = source_of(module)
        if source is None:
            yield f"no module {module}"
            continue
        for name in (word.split(" as ")[0].strip() for word in names.split(",")):
            if name and name not in source:
                yield f"no {name} in {module}"


def main():
    argparse.ArgumentParser(description=__doc__, formatter_class=argparse.RawDescriptionHelpFormatter).parse_args()
    faults = 0
    for part in ("specs", "proofs"):
        for file in sorted(CRATES.glob(f"*/{part}/**/*.antt")):
            for fault in faults_of(file):
                print(f"{file.relative_to(CRATES.parent)}: {fault}")
                faults += 1
    print(f"{faults} names missing")
    return 1 if faults else 0


if __name__ == "__main__":
    sys.exit(main())
