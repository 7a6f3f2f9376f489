#!/usr/bin/env python3
"""Refuses the program memory: makes each of its allocations fail in turn, and looks at what it answers.

    scripts/refused_memory.py [--sample N] [--jobs J] [--program PROGRAM] [FILE..]

Each FILE.script goes to `play`, each FILE.plan to `run`, or to the words of FILE.words; where none is named, those of examples/. It counts a start's
allocations (refuse_memory.c, which it builds with cc), and then starts the program anew for each of these numbers, twice: this one fails, and this
one fails and all that follow. With --sample N it is N numbers in all, spread over each file's, the first and the last among them.

The answer must be status 6, `speclog: out of memory`, and on standard output nothing or a beginning of what comes with memory; no crash, no other
status, and no start of more than two minutes. A run may also go on, to its whole answer: where memory for the start of a thread is refused, the
thread that starts it does its part. A further start without a failure must then answer as the first one did, and so must one that comes to no
allocation of that number, as it may where threads take turns.

Prints how many were refused memory, how many of these wrote a beginning, how many came to no such allocation, and the first that aren't as they should
be. Ends with 1 where there is one.
"""

import argparse
import collections
import glob
import multiprocessing
import os
import struct
import subprocess
import sys
import tempfile
from typing import NamedTuple

from program_starts import BUILT, ROOT, Program, path_of

WORDS = {".script": "play", ".plan": "run"}
REFUSED = (6, "speclog: out of memory\n")
COUNTS = struct.Struct("=qq")


class Case(NamedTuple):
    """A start that is tried: the words, the input, what comes where no memory is refused, and how many allocations it takes."""

    name: str
    words: list
    text: bytes
    answer: tuple
    allocations: int


class Refusing:
    """Starts the program with the shim before it."""

    def __init__(self, program, shim):
        self.program = Program(program)
        self.shim = shim
        self.counts = tempfile.NamedTemporaryFile()

    def start(self, words, text, first=0, last=0):
        """The answer, and how many allocations were counted and how many refused."""
        self.counts.seek(0)
        self.counts.write(COUNTS.pack(0, 0))
        self.counts.flush()
        environment = {"LD_PRELOAD": self.shim, "REFUSE_COUNTS": self.counts.name, "REFUSE_FIRST": str(first), "REFUSE_LAST": str(last)}
        answer = self.program.start(words, text, environment)
        return answer, COUNTS.unpack(os.pread(self.counts.fileno(), COUNTS.size, 0))


def built(folder):
    """The shim, built into a folder."""
    source, shim = os.path.join(ROOT, "scripts", "refuse_memory.c"), os.path.join(folder, "refuse_memory.so")
    subprocess.run(["cc", "-std=gnu11", "-O2", "-Wall", "-shared", "-fPIC", "-o", shim, source], check=True)
    return shim


def case_of(program, shim, path):
    """What a file's start gives where no memory is refused."""
    name, end = os.path.splitext(path)
    words = [WORDS[end]]
    if os.path.exists(name + ".words"):
        with open(name + ".words", encoding="utf-8") as file:
            words = file.read().split("\n")[:-1]
    with open(path, "rb") as file:
        text = file.read()
    answer, (allocations, _) = Refusing(program, shim).start(words, text)
    return Case(os.path.basename(path), words, text, answer, allocations)


def numbers_of(case, share):
    """The numbers of allocations that are tried: all, or so many of them, spread."""
    if share is None or share >= case.allocations:
        return list(range(1, case.allocations + 1))
    if share < 2:
        return [case.allocations]
    return sorted({1 + at * (case.allocations - 1) // (share - 1) for at in range(share)})


def tried(job):
    """Counts of the starts of some numbers: refused, with a beginning written, and unreached; and those that aren't as they should be."""
    program, shim, case, numbers = job
    starts, counts, wrong = Refusing(program, shim), collections.Counter(), []
    for number in numbers:
        for last in (number, 2**62):
            answer, (_, refused) = starts.start(case.words, case.text, number, last)
            status, out, errors = answer
            counts["refused" if refused else "unreached"] += 1
            counts["begun"] += (status, errors) == REFUSED and out != ""
            wanted = (status, errors) == REFUSED and case.answer[1].startswith(out) if refused else answer == case.answer
            if not wanted and not (case.words == ["run"] and answer == case.answer):
                which = "" if last == number else " and all that follow"
                wrong.append(f"{case.name}: allocation {number} of {case.allocations}{which}: status {status} {errors!r} {out[-60:]!r}")
    if starts.start(case.words, case.text)[0] != case.answer:
        wrong.append(f"{case.name}: the next start answers something else")
    return counts, wrong


def jobs_of(program, shim, cases, sample):
    """Shares of the work."""
    total = sum(case.allocations for case in cases)
    for case in cases:
        share = None if sample is None else max(1, sample * case.allocations // total)
        numbers = numbers_of(case, share)
        for at in range(0, len(numbers), 64):
            yield program, shim, case, numbers[at : at + 64]


def main():
    words = argparse.ArgumentParser(description=__doc__, formatter_class=argparse.RawDescriptionHelpFormatter)
    words.add_argument("--sample", type=int)
    words.add_argument("--jobs", type=int, default=os.cpu_count())
    words.add_argument("--program", default=BUILT)
    words.add_argument("files", nargs="*")
    given = words.parse_args()
    program = path_of(given.program)
    paths = given.files or sorted(it for end in WORDS for it in glob.glob(os.path.join(ROOT, "examples", "*" + end)))
    with tempfile.TemporaryDirectory() as folder, multiprocessing.Pool(given.jobs) as pool:
        shim = built(folder)
        cases = [case_of(program, shim, path) for path in paths]
        counts, wrong = collections.Counter(), []
        for some, some_wrong in pool.imap_unordered(tried, jobs_of(program, shim, cases, given.sample)):
            counts += some
            wrong += some_wrong
    for line in wrong[:20]:
        print(line)
    total = sum(case.allocations for case in cases)
    print(
        f"refused memory: {counts['refused']} starts over {len(cases)} files with {total} allocations, {len(wrong)} not as they should be;"
        f" {counts['begun']} wrote a beginning, {counts['unreached']} more came to no such allocation"
    )
    sys.exit(1 if wrong else 0)


if __name__ == "__main__":
    main()
