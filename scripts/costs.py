#!/usr/bin/env python3
"""What the crates cost: the table of docs/PERFORMANCE.md, by lines and by processor minutes.

    scripts/costs.py                   runs `rt ci --anew` on a copy of this checkout, watches it and prints the table
    scripts/costs.py NAME..            the same with `rt ci --anew NAME..`: these crates and those below them. The figures of the others are those
                                       that the page has
    scripts/costs.py --lines           runs nothing: new lines, and the figures that the page has
    scripts/costs.py --run COMMAND..   watches another command, here; the figures of what it doesn't do are those that the page has
    scripts/costs.py --write ..        each of these, and puts the table into docs/PERFORMANCE.md, between its two marks

How it measures. It counts processor time (user and system), not time by the clock, so other work on the machine doesn't count: it costs a few
percent at most, through caches and processors that are shared. Five times a second it reads /proc for every process below the command, and keeps for
each the time that it last had. A process of the prover names its crate; it is a try of an edit where it works in a folder rt-edit-*, a proof of tests
where it was given --test, and else a proof of the crate. So each process may lack a fifth of a second. What the kernel counted of all processes, less
these, is the rest, which stands below the table: rt itself, the compilers, the tests as they run. --anew takes nothing from earlier runs.

Lines are those of the files: src without tests, specs, proofs, and tests (src/tests.rt, src/tests/, and a module `tests` at
a file's end). Edits are counted in must-fail/, which the gate tries, and edits/, which it doesn't. A crate's chain is the
greatest sum of the proofs' minutes along crates.txt, its own included: no number of processors builds the program sooner than its chain.
"""

import os
import re
import resource
import shutil
import subprocess
import sys
import tempfile
import time

ROOT = os.path.dirname(os.path.dirname(os.path.abspath(__file__)))
PAGE = os.path.join(ROOT, "docs", "PERFORMANCE.md")
BEGIN, END = "<!-- costs.py: begin -->", "<!-- costs.py: end -->"
KINDS = ("proof", "tests", "edits")
TICK = os.sysconf("SC_CLK_TCK")


def crates():
    """The crates in the order of crates.txt, each with those of this repository that it stands on."""
    found = {}
    with open(os.path.join(ROOT, "crates.txt"), encoding="utf-8") as lines:
        for line in lines:
            name, colon, below = line.partition("#")[0].partition(":")
            if colon:
                found[name.split()[0]] = below.split()
    return {name: [it for it in below if it in found] for name, below in found.items()}


def files_below(folder, ending):
    for at, folders, files in os.walk(folder):
        folders[:] = sorted(it for it in folders if it != "out")
        for file in sorted(files):
            if file.endswith(ending):
                yield os.path.join(at, file)


def lines_of(name):
    """Lines of src, specs, proofs and tests, and how many edits the gate tries and leaves."""
    crate = os.path.join(ROOT, "crates", name)
    count = dict.fromkeys(("src", "specs", "proofs", "tests"), 0)
    for part, ending in (("src", ".rt"), ("specs", ".antt"), ("proofs", ".antt")):
        for file in files_below(os.path.join(crate, part), ending):
            with open(file, encoding="utf-8") as it:
                text = it.read()
            inner = os.path.relpath(file, os.path.join(crate, part)).split(os.sep)
            if inner[0] in ("tests", "tests.rt"):
                count["tests"] += text.count("\n")
                continue
            body, cut, tests = text.partition("#[cfg(test)]\nmod tests {\n") if part == "src" else (text, "", "")
            count[part] += body.count("\n")
            count["tests"] += (cut + tests).count("\n")
    edits = [sum(1 for _ in files_below(os.path.join(crate, it), ".edit")) for it in ("must-fail", "edits")]
    return count, edits


def processes():
    """Of each process the one above it, and its processor seconds."""
    found = {}
    for pid in filter(str.isdigit, os.listdir("/proc")):
        try:
            with open(f"/proc/{pid}/stat", encoding="utf-8", errors="replace") as it:
                fields = it.read().rpartition(")")[2].split()
        except OSError:
            continue
        found[int(pid)] = int(fields[1]), (int(fields[11]) + int(fields[12])) / TICK
    return found


def work_of(pid):
    """The crate that a process of the prover works on, and for what; None for any other process, or one that is gone."""
    try:
        with open(f"/proc/{pid}/cmdline", "rb") as it:
            words = it.read().decode(errors="replace").split("\0")
        folder = os.readlink(f"/proc/{pid}/cwd")
    except OSError:
        return None
    if "--crate-name" not in words[:-1]:
        return None
    name = words[words.index("--crate-name") + 1]
    if os.path.basename(folder).startswith("rt-edit-"):
        return name, "edits"
    return name, "tests" if "--test" in words else "proof"


def watched(command, folder):
    """Runs the command; returns the seconds of each crate and kind, those of all else, the seconds by the clock, and the status."""
    began, before = time.time(), resource.getrusage(resource.RUSAGE_CHILDREN)
    started = subprocess.Popen(command, cwd=folder, stdin=subprocess.DEVNULL)
    seconds, work = {}, {}
    while started.poll() is None:
        now = processes()
        for pid in now:
            above = pid
            while above in now and above != started.pid:
                above = now[above][0]
            if above != started.pid:
                continue
            seconds[pid] = max(seconds.get(pid, 0), now[pid][1])
            # A process that is there may become the prover later.
            work[pid] = work_of(pid) or work.get(pid)
        time.sleep(0.2)
    after = resource.getrusage(resource.RUSAGE_CHILDREN)
    spent = {}
    for pid, cost in seconds.items():
        if work[pid] is not None:
            spent[work[pid]] = spent.get(work[pid], 0) + cost
    total = after.ru_utime + after.ru_stime - before.ru_utime - before.ru_stime
    return spent, max(total - sum(spent.values()), 0), time.time() - began, started.returncode


def known_before():
    """The seconds of each crate and kind that the page has."""
    with open(PAGE, encoding="utf-8") as it:
        page = it.read()
    found = {}
    for name, *cells in re.findall(r"^\| `(\w+)` \|" + r"[^|]*\|" * 5 + r" ([\d.]*) \|" * 3, page, re.MULTILINE):
        found.update({(name, kind): float(cell) * 60 for kind, cell in zip(KINDS, cells) if cell})
    return found


def chains(below, spent):
    """Of each crate its chain in seconds, and the crate before it there."""
    found = {}

    def chain(name):
        if name not in found:
            longest = max(below[name], key=lambda it: chain(it)[0], default=None)
            found[name] = spent.get((name, "proof"), 0) + (found[longest][0] if longest else 0), longest
        return found[name]

    for name in below:
        chain(name)
    return found


def minutes(seconds):
    return f"{seconds / 60:.1f}" if seconds else ""


def table(below, spent):
    found = chains(below, spent)
    lines = [
        "| crate | src | specs | proofs | tests | edits (gate, others) | proof | its tests | its edits | chain |",
        "|---|---|---|---|---|---|---|---|---|---|",
    ]
    sums, counts = dict.fromkeys(KINDS, 0), [0] * 6
    for name in below:
        count, edits = lines_of(name)
        row = [*count.values(), *edits]
        counts = [a + b for a, b in zip(counts, row)]
        costs = [spent.get((name, kind), 0) for kind in KINDS]
        for kind, cost in zip(KINDS, costs):
            sums[kind] += cost
        shown = [str(it) for it in row[:4]] + [f"{edits[0]}, {edits[1]}"] + [minutes(it) for it in (*costs, found[name][0])]
        lines.append(f"| `{name}` | {' | '.join(shown)} |")
    shown = [str(it) for it in counts[:4]] + [f"{counts[4]}, {counts[5]}"] + [minutes(sums[it]) for it in KINDS] + [""]
    lines.append(f"| all | {' | '.join(shown)} |")
    last = max(found, key=lambda it: found[it][0])
    way = [last]
    while found[way[-1]][1]:
        way.append(found[way[-1]][1])
    lines += ["", f"The longest chain, {found[last][0] / 60:.0f} minutes: {', '.join(f'`{it}`' for it in reversed(way))}."]
    return "\n".join(lines)


def told(rest, clock, what):
    """How the figures came about."""
    return (
        f"Processor minutes, last by `{what}` on {os.cpu_count()} processors, which took {clock / 60:.0f} minutes by the clock; {rest / 60:.0f} more\n"
        "processor minutes went into all that is no proof: the compilers, the tests and programs as they run, rt itself. `scripts/costs.py` says how it\n"
        "measures."
    )


def copied(command):
    """Watches the command on a copy of this checkout."""
    with tempfile.TemporaryDirectory(prefix="speclog-costs-") as room:
        shutil.copytree(f"{ROOT}/crates", f"{room}/crates", ignore=shutil.ignore_patterns("out"))
        for file in ("crates.txt", "HANDLES"):
            shutil.copy(f"{ROOT}/{file}", room)
        return watched(command, room)


def main(words):
    write = "--write" in words[:1]
    words = words[1:] if write else words
    below = crates()
    if words[:1] == ["--lines"]:
        spent, ways, status = {}, "", 0
    elif words[:1] == ["--run"] and words[1:]:
        spent, rest, clock, status = watched(words[1:], ROOT)
        ways = told(rest, clock, " ".join(words[1:]))
    elif all(it in below for it in words):
        command = ["rt", "ci", "--anew", *words]
        spent, rest, clock, status = copied(command)
        ways = told(rest, clock, " ".join(command))
    else:
        sys.exit(__doc__)
    made = table(below, {**known_before(), **spent}) + (f"\n\n{ways}" if ways else "")
    print(made)
    if status:
        sys.exit(f"costs: the command ended with status {status}, so the table is not whole")
    if write:
        with open(PAGE, encoding="utf-8") as it:
            page = it.read()
        if page.count(BEGIN) != 1 or page.count(END) != 1:
            sys.exit(f"costs: {PAGE} lacks its marks")
        before, rest_of_page = page.split(BEGIN)
        with open(PAGE, "w", encoding="utf-8") as it:
            it.write(f"{before}{BEGIN}\n\n{made}\n\n{END}{rest_of_page.split(END)[1]}")


main(sys.argv[1:])
