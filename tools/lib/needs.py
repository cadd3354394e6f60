"""What a tool wants before it starts, and how it ends when it is told to."""

import os
import pathlib
import shutil
import signal
import sys

PACKAGES = {"nc": "netcat-openbsd", "promtool": "prometheus", "pgrep": "procps", "dpkg-deb": "dpkg"}
KIT = "rt, the command of the Rattle kit that README.md names, isn't on the path"
BUILD = "./build proves and links it"


def found(name):
    """Whether a program is on the path, or where Debian has daemons."""
    return shutil.which(name, path=os.environ.get("PATH", "") + ":/usr/sbin:/sbin") is not None


def wants(*names, program=None):
    """Ends with status 2 and says what is missing, where a program isn't there, or the collector isn't built."""
    missing = [name for name in names if not found(name)]
    in_debian = [name for name in missing if name != "rt"]
    if in_debian:
        packages = sorted({PACKAGES.get(pathlib.Path(name).name, pathlib.Path(name).name) for name in in_debian})
        print(f"missing: {' '.join(in_debian)} (apt-get install {' '.join(packages)})", file=sys.stderr)
    if "rt" in missing:
        print(KIT, file=sys.stderr)
    if program is not None and not os.access(program, os.X_OK):
        print(f"{program} isn't built: {BUILD}", file=sys.stderr)
        missing.append(str(program))
    if missing:
        sys.exit(2)
    os.environ["PATH"] = os.environ.get("PATH", "") + ":/usr/sbin:/sbin"


def ends_cleanly():
    """Lets SIGTERM and SIGINT end a tool as an exception does, so that what it started ends with it."""
    signal.signal(signal.SIGTERM, lambda *_: sys.exit(143))
    # A shell that starts this in the background lets it ignore SIGINT.
    signal.signal(signal.SIGINT, lambda *_: sys.exit(130))
