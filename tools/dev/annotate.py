#!/usr/bin/env python3
"""Writes, above each `bytes` line of a replay script, a comment that says what these bytes are.

    tools/dev/annotate.py                 every script of crates/test_replay/data, in place
    tools/dev/annotate.py FILE ..         these
    tools/dev/annotate.py --check         changes nothing; ends with 1 where a comment is missing or says something else

A comment of this tool begins with `#: `, so what people wrote is left alone. It reads as a story:

    #: lb1 says hello to agg; defines t (1): ip, gpc0; update 1 of t: 10.0.0.1 gpc0=5
    bytes 1 4841507...

Scripts whose stored output tells the number of a line are passed over: a comment counts as a line there. It wants
nothing else.
"""

import argparse
import ipaddress
import pathlib
import sys

ROOT = pathlib.Path(__file__).resolve().parents[2]
DATA = ROOT / "crates/test_replay/data"
STORED = ROOT / "crates/test_replay/stdout"
MARK = "#: "
MOST = 96

CONTROL = {0: "asks for a resync", 1: "resync finished", 2: "resync partial", 3: "confirms", 4: "heartbeat"}
ERRORS = {0: "tells a protocol error", 1: "tells that a size limit was reached"}
KEY_KINDS = {2: "integer", 4: "ip", 5: "ipv6", 6: "string", 7: "binary"}
COUNTS = {
    0: "server_id", 1: "gpt0", 2: "gpc0", 4: "conn_cnt", 6: "conn_cur", 7: "sess_cnt", 9: "http_req_cnt", 11: "http_err_cnt",
    13: "bytes_in_cnt", 15: "bytes_out_cnt", 17: "gpc1", 20: "http_fail_cnt", 25: "glitch_cnt",
}
RATES = {
    3: "gpc0_rate", 5: "conn_rate", 8: "sess_rate", 10: "http_req_rate", 12: "http_err_rate", 14: "bytes_in_rate",
    16: "bytes_out_rate", 18: "gpc1_rate", 21: "http_fail_rate", 26: "glitch_rate",
}
SERVER_KEY, GPT, GPC, GPC_RATE = 19, 22, 23, 24
ARRAYS = {GPT: "gpt", GPC: "gpc", GPC_RATE: "gpc_rate"}
OTHERS = {SERVER_KEY: "server_key", **ARRAYS}
MOST_ELEMENTS = 100
UPDATE, INCREMENTAL, DEFINE, SWITCH, ACK, TIMED, TIMED_INCREMENTAL = range(0x80, 0x87)
KINDS = {UPDATE: "update", INCREMENTAL: "incremental", TIMED: "timed update", TIMED_INCREMENTAL: "timed incremental"}


class Cut(Exception):
    """The bytes end inside a field."""


class Fields:
    """Reads the fields of a payload, one after the other."""

    def __init__(self, data):
        self.data, self.at = data, 0

    def take(self, count):
        """So many bytes."""
        if self.at + count > len(self.data):
            raise Cut
        self.at += count
        return self.data[self.at - count : self.at]

    def number(self):
        """An encoded integer."""
        value = self.take(1)[0]
        if value < 240:
            return value
        shift = 4
        while True:
            byte = self.take(1)[0]
            value += byte << shift
            if byte < 128:
                return value
            shift += 7

    def fixed(self):
        """An integer of four bytes."""
        return int.from_bytes(self.take(4), "big")

    def is_over(self):
        """Whether no byte is left."""
        return self.at >= len(self.data)


def shown(text, first=33):
    """Bytes as a person reads them, from a first printable one on; long ones cut."""
    text = "".join(chr(byte) if first <= byte <= 126 else f"%{byte:02x}" for byte in text)
    return text if len(text) <= 40 else f"{text[:28]}.. ({len(text)} long)"


def rate(fields):
    """A rate, as a person reads it."""
    elapsed, current, previous = fields.number(), fields.number(), fields.number()
    return f"{current}+{previous} {elapsed} ms in"


def columns(bits):
    """The data types of a definition, in order."""
    return [kind for kind in range(64) if bits >> kind & 1]


class Table:
    """A table as its sender defined it."""

    def __init__(self, fields):
        self.number, self.name = fields.number(), fields.take(fields.number())
        self.kind, self.length, self.bits, self.expiry = (fields.number() for _ in range(4))
        self.periods, self.counts = {}, {}
        try:
            while self.takes(fields):
                pass
        except Cut:
            pass

    def takes(self, fields):
        """Whether another parameter stands behind the expiry, which is kept."""
        kind, value = fields.number(), fields.number()
        period = fields.number() if kind == GPC_RATE else 0
        if max(value, period) >= 2**64:
            return False
        if kind == GPC_RATE:
            self.periods[kind] = period
        if kind in ARRAYS:
            self.counts[kind] = value
        elif kind > 26 or kind == SERVER_KEY:
            return False
        else:
            self.periods[kind] = value
        return True

    def named(self, kind):
        """The name of a data type, with its parameters."""
        name = COUNTS.get(kind) or RATES.get(kind) or OTHERS.get(kind) or f"type {kind}"
        period = [str(self.periods.get(kind, "?"))] if kind in RATES or kind == GPC_RATE else []
        count = [str(self.counts.get(kind, "?"))] if kind in ARRAYS else []
        return f"{name}({','.join(count + period)})" if count or period else name

    def __str__(self):
        kind = KEY_KINDS.get(self.kind, f"type {self.kind}")
        if self.kind in (6, 7):
            kind = f"{kind} len {self.length}"
        names = [self.named(data) for data in columns(self.bits)]
        life = f", rows live {self.expiry} ms" if self.expiry else ""
        return f"{shown(self.name)} ({self.number}): {', '.join([kind, *names])}{life}"

    def key(self, fields):
        """A key, as commands write it."""
        if self.kind == 2:
            return str(int.from_bytes(fields.take(4), "big", signed=True))
        if self.kind == 4:
            return str(ipaddress.IPv4Address(fields.take(4)))
        if self.kind == 5:
            return str(ipaddress.IPv6Address(fields.take(16)))
        if self.kind == 6:
            return shown(fields.take(fields.number())) or "(empty)"
        return fields.take(self.length).hex()

    def values(self, fields):
        """The values behind a key, by name."""
        said = []
        for data in columns(self.bits):
            if data > 26 or data in ARRAYS and not 1 <= self.counts.get(data, 0) <= MOST_ELEMENTS:
                return [*said, ".."]
            try:
                value = self.value(data, fields)
            except Cut:
                # Whether these are needed hangs on the collector's table.
                if data < SERVER_KEY:
                    raise
                return [*said, ".."]
            said.append(f"{COUNTS.get(data) or RATES.get(data) or OTHERS[data]}={value}")
        return said

    def value(self, kind, fields):
        """The value of a data type."""
        if kind == SERVER_KEY:
            return shown(fields.take(fields.number())) or "(none)"
        if kind not in ARRAYS:
            return rate(fields) if kind in RATES else fields.number()
        elements = [str(rate(fields) if kind == GPC_RATE else fields.number()) for _ in range(self.counts[kind])]
        return ",".join(elements if len(elements) <= 4 else [*elements[:3], "..", elements[-1]])


class Talk:
    """What a connection has said so far."""

    def __init__(self):
        self.unread, self.lines, self.tables, self.table, self.last, self.is_odd = b"", [], {}, None, {}, False

    def hello(self):
        """The lines of the hello that are whole now."""
        said = []
        while len(self.lines) < 3 and b"\n" in self.unread:
            line, self.unread = self.unread.split(b"\n", 1)
            self.lines.append(line.rstrip(b"\r"))
            if len(self.lines) == 3 and self.lines[0] in (b"HAProxyS 2.1", b"HAProxyS 2.0") and not self.is_odd:
                sender = self.lines[2].split(b" ")[0]
                said.append(f"{shown(sender)} says hello to {shown(self.lines[1])}")
            elif len(self.lines) == 3 or len(self.lines) == 1 and self.lines[0] not in (b"HAProxyS 2.1", b"HAProxyS 2.0"):
                said.append(f'line {len(self.lines)} of a hello, "{shown(self.lines[-1], 32)}"')
                self.is_odd = True
        return said

    def update(self, kind, payload):
        """What an update says, and under which number."""
        fields, table = Fields(payload), self.table
        name = KINDS[kind]
        if table is None:
            return f"{name} of no table"
        try:
            here = fields.fixed() if kind in (UPDATE, TIMED) else (self.last.get(table.number, 0) + 1) % 2**32
            life = f" lives {fields.fixed()} ms" if kind in (TIMED, TIMED_INCREMENTAL) else ""
            said = [table.key(fields) + life, *table.values(fields)]
        except (Cut, ipaddress.AddressValueError):
            return f"{name} of {shown(table.name)}, cut"
        self.last[table.number] = here
        more = f" and {len(payload) - fields.at} bytes more" if not fields.is_over() and said[-1] != ".." else ""
        return f"{name} {here} of {shown(table.name)}: {' '.join(said)}{more}"

    def message(self, group, kind, payload):
        """What a message says."""
        if group == 0:
            return CONTROL.get(kind, f"message 0/{kind}")
        if group == 1:
            return ERRORS.get(kind, f"message 1/{kind}")
        if group != 10 or kind not in (*KINDS, DEFINE, SWITCH, ACK):
            return f"message {group}/{kind}"
        try:
            if kind == DEFINE:
                self.table = Table(Fields(payload))
                self.tables[self.table.number] = self.table
                return f"defines {self.table}"
            fields = Fields(payload)
            if kind == SWITCH:
                number = fields.number()
                self.table = self.tables.get(number)
                return f"goes on with {shown(self.table.name)}" if self.table else f"switches to {number}"
            if kind == ACK:
                number = fields.number()
                return f"acknowledges {number} up to {fields.fixed()}"
        except Cut:
            return {DEFINE: "a definition, cut", SWITCH: "a switch, cut", ACK: "an acknowledgement, cut"}[kind]
        return self.update(kind, payload)

    def piece(self, data):
        """What a piece of the stream says, a phrase each."""
        self.unread += data
        said = self.hello()
        if len(self.lines) < 3:
            return said or ["a part of a hello"]
        while self.unread:
            fields = Fields(self.unread)
            try:
                group, kind = fields.take(1)[0], fields.take(1)[0]
                length = fields.number() if kind >= 0x80 else 0
                if length > 16384:
                    said.append(f"message {group}/{kind} of {length} bytes")
                    self.unread = b""
                    break
                payload = fields.take(length)
            except Cut:
                said.append("a part of a message")
                break
            self.unread = self.unread[fields.at :]
            said.append(self.message(group, kind, payload))
        return said


def joined(said):
    """Phrases as lines of a comment. Where there are many, the first and the last ones."""
    if len(said) > 10:
        said = [*said[:6], f"{len(said) - 8} messages more", *said[-2:]]
    lines, line = [], ""
    for phrase in said:
        if line and len(line) + len(phrase) + 2 > MOST:
            lines.append(line + ";")
            line = phrase
        else:
            line = f"{line}; {phrase}" if line else phrase
    return [MARK + it for it in [*lines, line] if it]


def annotated(text):
    """A script with a comment above each of its `bytes` lines."""
    out, talks, opened, previous = [], {}, 0, None
    for line in text.split("\n"):
        if line.startswith(MARK):
            continue
        words = line.split()
        if words[:1] == ["connect"] and len(words) == 1:
            opened += 1
            talks[str(opened)] = Talk()
        if words[:1] == ["bytes"] and len(words) == 3:
            talk = talks.get(words[1])
            try:
                data = bytes.fromhex(words[2])
            except ValueError:
                data = None
            if data is None:
                comment = [MARK + "not hexadecimal"]
            elif talk is None:
                comment = [MARK + "a connection that isn't open"]
            else:
                comment = joined(talk.piece(data))
            if len(comment) == 1 and comment == previous:
                comment = []
            out.extend(comment)
            previous = comment or previous
        elif words and not line.startswith("#"):
            previous = None
        out.append(line)
    return "\n".join(out)


def counts_lines(stored):
    """The scripts whose stored output tells the number of a line."""
    found, name = set(), None
    for line in stored.split("\n"):
        if line.startswith("== "):
            name = line[3:].split(":")[0]
        elif line.startswith(("script line ", "config line ")):
            found.add(name)
    return found


def main():
    options = argparse.ArgumentParser(description=__doc__, formatter_class=argparse.RawDescriptionHelpFormatter)
    options.add_argument("files", nargs="*", type=pathlib.Path)
    options.add_argument("--check", action="store_true")
    given = options.parse_args()
    passed_over = counts_lines(STORED.read_text(errors="replace"))
    files = given.files or [it for it in sorted(DATA.glob("*.script")) if it.name not in passed_over]
    stale = []
    for file in files:
        text = file.read_bytes().decode("latin-1")
        new = annotated(text)
        if new != text:
            stale.append(file.name)
            if not given.check:
                file.write_bytes(new.encode("latin-1"))
    if given.check and stale:
        print("these comments don't say what the bytes are (run tools/dev/annotate.py):", *stale)
        sys.exit(1)
    print(f"{len(files)} scripts, {0 if given.check else len(stale)} changed, {len(passed_over)} passed over")


if __name__ == "__main__":
    main()
