#!/usr/bin/env python3
"""Gives the program every proper prefix of each example, and every example with one byte changed, and compares its answers with a second reader's.

    scripts/changed_bytes.py [--sample N [--seed S] | --share I/N] [--jobs J] [--program PROGRAM] [FILE..]

Each FILE.script goes to `play`, each FILE.plan to `run`; where none is named, those of examples/ whose words are `play` or `run` alone. All proper
prefixes are tried, and at each byte the 255 other ones: millions of starts of the program, an hour or more on four processors.
With --share I/N it is the Ith of N shares of these, I from 1 to N. With --sample N it is about N of them, drawn by the seed: an eighth are prefixes, of
the others three quarters put in a printable byte or a newline.

The answer must be the one of second_reader.py: status 3, nothing on standard output, and the line and the kind on standard error; or status 0 and a text
that begins as it should, with as many entries. A `deliver` or a `lose` of a message that was not sent comes before a later refusal. Which messages were
sent up to the changed line the program says of the file as it stands (it is asked to deliver one that no one sent); behind the changed line the
second reader can't know, and both answers pass. A crash, a signal, any other status and a start of more than two minutes never pass.

Prints how many were tried and what came of them, and the first tries that don't pass. Ends with 1 where there is one.
"""

import argparse
import collections
import glob
import itertools
import multiprocessing
import os
import random
import re
import sys

import second_reader
from program_starts import BUILT, ROOT, Program, path_of

WORDS = {".script": "play", ".plan": "run"}
BEGINS = {"script": "belfast 1\nentries {}\n", "plan": "belfast-run 1\n"}
NOT_SENT = second_reader.MOST_OF_18_DIGITS
LIKELY = [10, 13, *range(0x20, 0x7F)]


class Example(collections.namedtuple("Example", "path kind text sent")):
    """A file, `script` or `plan`, its bytes, and how many messages were sent before each line that names one."""

    def tries(self):
        return len(self.text) * 256

    def changed(self, number):
        """The text of a try, what it is in words, and the line up to which the text is the file's. Of each byte's 256 tries the one by which nothing
        would change is the prefix that ends before it."""
        at, byte = divmod(number, 256)
        line = self.text.count(b"\n", 0, at) + 1
        if byte == self.text[at]:
            return self.text[:at], f"the first {at} bytes", line
        text = self.text[:at] + bytes([byte]) + self.text[at + 1 :]
        return text, f"byte {at}, 0x{self.text[at]:02x}, is 0x{byte:02x}", line

    def drawn(self, draw):
        """A try of the sample."""
        at = draw.randrange(len(self.text))
        if draw.randrange(8) == 0:
            return at * 256 + self.text[at]
        return at * 256 + (draw.choice(LIKELY) if draw.randrange(4) else draw.randrange(256))


def line_refused(line, kind):
    return f"speclog: line {line}: {kind}\n"


def expected(example, text, same_up_to):
    """What the second reader says: each answer that passes, as a status, how the output begins, the errors, and the counts of messages that may be told."""
    found = second_reader.judge(text, example.kind)
    passing, least = [], 0
    for line, message in found.named:
        sent = example.sent.get(line) if line <= same_up_to else None
        if sent is None:
            errors = re.compile(re.escape(line_refused(line, f"no message {message}, sent ")[:-1]) + r"(\d+)\n")
            passing.append((3, "", errors, range(least, message + 1)))
        elif message >= sent:
            return [*passing, (3, "", line_refused(line, f"no message {message}, sent {sent}"), None)]
        least = max(least, message + 1, sent or 0)
    if found.kind is None:
        return [*passing, (0, BEGINS[example.kind].format(found.entries), "", None)]
    kind = found.kind if found.kind != second_reader.TOO_LONG else None
    return [*passing, (3, "", line_refused(found.line, kind) if kind else f"speclog: {found.kind}\n", None)]


def passes(answer, wanted):
    """Whether the answer is one that passes."""
    status, out, errors = answer
    for want_status, begin, want_errors, sent in wanted:
        if status != want_status or not (out.startswith(begin) and out.endswith("\n") if status == 0 else out == ""):
            continue
        if sent is None:
            if errors == want_errors:
                return True
        else:
            match = want_errors.fullmatch(errors)
            if match and int(match[1]) in sent:
                return True
    return False


def name_of(answer):
    """What came, in short, for the count."""
    status, _, errors = answer
    found = re.fullmatch(r"speclog: line \d+: (no message|[a-z ]+)(?: \d+, sent \d+)?\n", errors)
    return "reads" if status == 0 else found[1].strip() if found else f"status {status}"


def tried(job):
    """The counts of some tries, and those that don't pass."""
    program, example, numbers = job
    started, counts, wrong = Program(program), collections.Counter(), []
    for number in numbers:
        text, words, line = example.changed(number)
        answer = started.start([WORDS["." + example.kind]], text)
        wanted = expected(example, text, line)
        counts[name_of(answer)] += 1
        if not passes(answer, wanted):
            said = ", or ".join(f"{it[0]} {getattr(it[2], 'pattern', it[2] or it[1])!r}" for it in wanted[-2:])
            wrong.append(f"{example.path}: {words}: status {answer[0]} {answer[2] or answer[1][:60]!r}, and should be {said}")
    return counts, wrong


def sent_before(program, kind, text):
    """How many messages were sent before each line that names one, as the program tells it of the lines before."""
    sent = {}
    if kind == "script":
        lines = text.split(b"\n")
        for line, _ in second_reader.judge(text, kind).named:
            asked = b"\n".join([*lines[: line - 1], b"deliver %d" % NOT_SENT])
            status, _, errors = program.start(["play"], asked)
            found = re.fullmatch(rf"speclog: line {line}: no message {NOT_SENT}, sent (\d+)\n", errors)
            if status != 3 or not found:
                break  # a line before is refused
            sent[line] = int(found[1])
    return sent


def examples_of(program, paths):
    """The files that are tried."""
    if not paths:
        paths = sorted(it for end in WORDS for it in glob.glob(os.path.join(ROOT, "examples", "*" + end)))
        paths = [it for it in paths if not os.path.exists(os.path.splitext(it)[0] + ".words")]
    found = []
    for path in paths:
        kind = os.path.splitext(path)[1][1:]
        with open(path, "rb") as file:
            text = file.read()
        found.append(Example(os.path.basename(path), kind, text, sent_before(program, kind, text)))
    return [it for it in found if it.text]


def jobs_of(program, examples, sample, seed):
    """The work in parts, of some hundreds of tries each."""
    for example in examples:
        numbers = range(example.tries())
        if sample:
            draw = random.Random(f"{seed} {example.path}")
            share = max(1, sample * len(example.text) // sum(len(it.text) for it in examples))
            numbers = sorted({example.drawn(draw) for _ in range(share)})
        for at in range(0, len(numbers), 512):
            yield program, example, numbers[at : at + 512]


def main():
    words = argparse.ArgumentParser(description=__doc__, formatter_class=argparse.RawDescriptionHelpFormatter)
    words.add_argument("--sample", type=int)
    words.add_argument("--seed", type=int, default=1)
    words.add_argument("--share", default="1/1")
    words.add_argument("--jobs", type=int, default=os.cpu_count())
    words.add_argument("--program", default=BUILT)
    words.add_argument("files", nargs="*")
    given = words.parse_args()
    program = path_of(given.program)
    examples = examples_of(Program(program), given.files)
    share, shares = (int(it) for it in given.share.split("/"))
    jobs = itertools.islice(jobs_of(program, examples, given.sample, given.seed), share - 1, None, shares)
    counts, wrong = collections.Counter(), []
    with multiprocessing.Pool(given.jobs) as pool:
        for some_counts, some_wrong in pool.imap_unordered(tried, jobs):
            counts += some_counts
            wrong += some_wrong
    for line in wrong[:20]:
        print(line)
    came = ", ".join(f"{count} {name}" for name, count in counts.most_common())
    print(f"changed bytes: {counts.total()} tried over {len(examples)} files, {len(wrong)} not as they should be ({came})")
    sys.exit(1 if wrong else 0)


if __name__ == "__main__":
    main()
