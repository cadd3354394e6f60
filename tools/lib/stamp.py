"""What says that a built program was proved: a file beside it, with the sources, the kit and the verdict."""

import hashlib
import pathlib
import shutil
import subprocess

REPOSITORY = pathlib.Path(__file__).resolve().parents[2]
PROGRAM = REPOSITORY / "crates/aggregator/out/aggregator"
# What a proof reads.
SOURCES = ("crates", "crates.txt", "HANDLES")


def said_by(*words):
    """What a command prints, or nothing where it fails."""
    if not shutil.which(words[0]):
        return ""
    done = subprocess.run(words, cwd=REPOSITORY, capture_output=True, text=True)
    return done.stdout.strip() if done.returncode == 0 else ""


def commit():
    """The present commit, and the names by which git knows its sources; nothing where sources were changed since."""
    if said_by("git", "status", "--porcelain", "--", *SOURCES) or not said_by("git", "rev-parse", "HEAD"):
        return "", ""
    names = [said_by("git", "rev-parse", f"HEAD:{name}") for name in SOURCES]
    return said_by("git", "rev-parse", "HEAD"), " ".join(names)


def sum_of(file):
    """The SHA-256 of a file, or nothing where it isn't there."""
    return hashlib.sha256(file.read_bytes()).hexdigest() if file.exists() else ""


def file_of(program):
    """Where a program's stamp lies."""
    return program.with_name(program.name + ".stamp")


def write(program, verdict):
    """Stamps a program that was proved just now."""
    which, names = commit()
    which = which or "none: sources differ from the last commit"
    fields = {"program": sum_of(program), "commit": which, "sources": names, "kit": said_by("rt", "version"),
              "verdict": verdict}
    file_of(program).write_text("".join(f"{name}: {value}\n" for name, value in fields.items()))


def read(program):
    """A program's stamp by its fields; nothing where there is none, or of another program."""
    if not file_of(program).exists():
        return {}
    fields = dict(line.split(": ", 1) for line in file_of(program).read_text().splitlines() if ": " in line)
    return fields if fields.get("program") == sum_of(program) != "" else {}


def why_not(program):
    """Why a program doesn't count as proved from the present commit's sources, or nothing where it does."""
    if not program.exists():
        return "it isn't built"
    fields, (which, names) = read(program), commit()
    if not fields:
        return "nothing beside it says that it was proved"
    if not which:
        return "the sources differ from the last commit"
    if fields.get("sources") != names:
        return f"it was proved from other sources: commit {fields.get('commit')}"
    kit = said_by("rt", "version")
    return "" if not kit or fields.get("kit") == kit else f"it was proved with another kit: {fields.get('kit')}"
