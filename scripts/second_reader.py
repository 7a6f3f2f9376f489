#!/usr/bin/env python3
"""A second reader of scripts and plans, written from docs/FORMATS.md alone: it looks at no code of the program.

    scripts/second_reader.py script FILE..
    scripts/second_reader.py plan FILE..

For each file prints `FILE: reads, E entries` or `FILE: line L: K`, the first line that is refused and why. Whether a `deliver` or a `lose` of a script
names a message that was sent is not known without playing: of these the lines before L stand behind it, each as `L names M`.
Ends with 1 where a file is refused. scripts/changed_bytes.py asks it for each text that it tries.
"""

import re
import sys
from typing import NamedTuple

LONGEST_TEXT = 16 * 1024 * 1024
LONGEST_BODY = 1024
MOST_ENTRIES = 200_000
MOST_ROWS = 6
MOST_PLACES = 64
MOST_OF_32_BITS = 4_294_967_295
MOST_OF_18_DIGITS = 10**18 - 1
PRINTABLE = bytes(range(0x20, 0x7F))
APPLICATIONS = (b"tally", b"bank", b"kv")
HEADS = {
    "script": (b"belfast", b"seqs", b"shards", b"window", b"clients", b"consumers"),
    "plan": (b"belfast-plan", b"seqs", b"shards", b"window", b"clients", b"consumers", b"readers", b"submitters", b"faults", b"drain"),
}
INPUTS = {
    "script": (b"submit", b"deliver", b"lose", b"tick", b"restart", b"table", b"remove", b"drain"),
    "plan": (b"submit", b"episode", b"restart", b"table", b"remove"),
}
TOO_LONG = "input too long"
TOO_MANY = "too many entries"


class Refused(Exception):
    """A line is refused, by this kind."""


class Verdict(NamedTuple):
    """What is said of a text: its first line that is refused and why, or no kind; and what a player has to know of the lines before it."""

    line: int
    kind: str | None
    entries: int  # that the lines before it bring; of a plan, that it may bring
    named: list  # pairs of a line and the message that it names


def lines_of(text):
    """The lines of a text, without what ends them."""
    *ended, rest = text.split(b"\n")
    found = [it[:-1] if it.endswith(b"\r") else it for it in ended]
    return found + [rest] if rest else found


def want(condition, kind):
    if not condition:
        raise Refused(kind)


def is_number(word):
    return re.fullmatch(rb"[0-9]{1,18}", word) is not None


def number(word, least, most):
    want(is_number(word), "number")
    want(least <= int(word) <= most, "range")
    return int(word)


class Reader:
    """Reads the lines of one text in order; `kind` is `script` or `plan`."""

    def __init__(self, kind):
        self.kind = kind
        self.due = list(HEADS[kind])
        self.entries = 0
        self.count = {}  # how many sequencers, shards, clients, consumers and submitters there are
        self.homes = set()  # the shards of the first window's rows
        self.message = None  # the message that the line names

    def read(self, line):
        """Reads a line that is not passed over."""
        self.message = None
        want(not line.translate(None, PRINTABLE), "byte")
        words = line.split()
        if self.due:
            self.head(words)
        else:
            want(words and words[0] in INPUTS[self.kind], "word")
            getattr(self, "input_" + words[0].decode())(words, line)

    # The head.

    def head(self, words):
        due = self.due[0]
        want(words and words[0] == due, "header")
        first, rest = due.decode(), words[1:]
        if first in ("belfast", "belfast-plan"):
            want(rest and is_number(rest[0]) and int(rest[0]) == 1, "header")
            want(len(rest) == 1, "word")
        else:
            getattr(self, "head_" + first)(rest)
        self.due.pop(0)

    def head_seqs(self, words):
        want(len(words) == 1, "word")
        self.count["q"] = number(words[0], 1, 5)
        want(self.count["q"] in (1, 3, 5), "range")

    def head_shards(self, words):
        want(len(words) == 1, "word")
        self.count["s"] = number(words[0], 1, 6)

    def head_window(self, words):
        want(words, "word")
        self.homes = self.window(words)

    def head_clients(self, words):
        want(1 <= len(words) <= 6, "word")
        for word in words:
            home = number(word, 0, MOST_OF_32_BITS)
            want(home in self.homes, "range")
        self.count["c"] = len(words)

    def head_consumers(self, words):
        want(len(words) == 2 and words[1] in APPLICATIONS, "word")
        self.count["k"] = number(words[0], 1, 4)

    def head_readers(self, words):
        want(len(words) <= 8, "word")
        for word in words:
            number(word, 0, self.count["k"] - 1)

    def head_submitters(self, words):
        want(len(words) <= 8, "word")
        for word in words:
            number(word, 0, self.count["c"] - 1)
        self.count["submitters"] = len(words)

    def head_faults(self, words):
        want(len(words) == 5, "word")
        number(words[0], 0, MOST_OF_32_BITS)
        want(sum([number(it, 0, 100) for it in words[1:]]) <= 100, "range")

    def head_drain(self, words):
        want(len(words) == 2, "word")
        limit = number(words[0], 0, MOST_ENTRIES)
        number(words[1], 0, 10_000)
        self.bring(limit)

    # The lines that follow.

    def input_submit(self, words, line):
        want(len(words) >= 2, "word")
        most = self.count["c" if self.kind == "script" else "submitters"]
        number(words[1], 0, most - 1)
        body = re.fullmatch(rb" *submit +[^ ]+ ?(.*)", line)[1]
        want(len(body) <= LONGEST_BODY, "body")
        if self.kind == "script":
            self.bring(1)

    def input_deliver(self, words, line):
        self.input_lose(words, line)
        self.bring(1)

    def input_lose(self, words, line):
        want(len(words) == 2, "word")
        self.message = number(words[1], 0, MOST_OF_18_DIGITS)

    def input_tick(self, words, line):
        want(len(words) == 2, "word")
        self.node(words[1])
        self.bring(1)

    input_restart = input_tick

    def input_table(self, words, line):
        want(len(words) >= 3, "word")
        self.node(words[1], "q")
        self.window(words[2:])
        self.bring(1)

    def input_remove(self, words, line):
        want(len(words) == 3, "word")
        self.node(words[1], "q")
        number(words[2], 0, self.count["s"] - 1)
        self.bring(1)

    def input_drain(self, words, line):
        want(len(words) == 2, "word")
        self.bring(number(words[1], 0, MOST_ENTRIES))

    def input_episode(self, words, line):
        want(len(words) == 2, "word")
        nodes = self.count["q"] + 2 * self.count["s"] + self.count["c"] + self.count["k"]
        self.bring(nodes * number(words[1], 1, 2_000))

    # What lines share.

    def node(self, word, of="qsck"):
        found = re.fullmatch(rb"([qck])([0-9]+)|(s)([0-9]+)[pb]", word)
        want(found, "node")
        kind, at = (found[1] or found[3]).decode(), (found[2] or found[4]).decode()
        want(kind in of and at in map(str, range(self.count[kind])), "node")

    def window(self, words):
        """A number of rounds and rows; gives the shards of the rows."""
        number(words[0], 1, 1024)
        rows = []
        for word in words[1:]:
            parts = word.split(b":")
            want(len(parts) == 2 and all(is_number(it) for it in parts), "number")
            shard, quota = (int(it) for it in parts)
            want(shard < self.count["s"] and quota <= MOST_OF_32_BITS, "range")
            rows.append((shard, quota))
        shards = {shard for shard, _ in rows}
        want(1 <= len(rows) <= MOST_ROWS and len(shards) == len(rows), "rows")
        want(all(1 <= quota <= MOST_PLACES for _, quota in rows), "rows")
        return shards

    def bring(self, entries):
        want(self.entries + entries <= MOST_ENTRIES, TOO_MANY)
        self.entries += entries


def judge(text, kind):
    """The verdict on a text."""
    reader, named, lines = Reader(kind), [], lines_of(text)
    if len(text) > LONGEST_TEXT:
        return Verdict(0, TOO_LONG, 0, [])
    for at, line in enumerate(lines, 1):
        if not line or line.startswith(b"#"):
            continue
        try:
            reader.read(line)
        except Refused as refused:
            if reader.message is not None:
                named.append((at, reader.message))
            return Verdict(at, str(refused), reader.entries, named)
        if reader.message is not None:
            named.append((at, reader.message))
    if reader.due:
        return Verdict(len(lines) + 1, "header", 0, [])
    return Verdict(0, None, reader.entries, named)


def main():
    if len(sys.argv) < 3 or sys.argv[1] not in HEADS:
        sys.exit(__doc__)
    status = 0
    for path in sys.argv[2:]:
        with open(path, "rb") as file:
            found = judge(file.read(), sys.argv[1])
        said = f"line {found.line}: {found.kind}" if found.kind else f"reads, {found.entries} entries"
        names = "".join(f"; {line} names {message}" for line, message in found.named)
        print(f"{path}: {said}{names}")
        status |= found.kind is not None
    sys.exit(status)


if __name__ == "__main__":
    main()
