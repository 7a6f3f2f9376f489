#!/usr/bin/env python3
"""Makes large scripts and plans, plays and runs them with the program as it is built, and prints instructions, times, memory and page faults.

    scripts/performance.py PROGRAM [FOLDER]

PROGRAM is crates/speclog/out/speclog after a build; the scripts are left in FOLDER where one is named. Instructions are
those that `valgrind --tool=callgrind` counts, the same at each run ('-' where valgrind is not here). A time is the least of
21 runs, memory the resident size at its greatest, faults the least minor page faults of one. Behind instructions and
memory stands their ratio to those of a plain model of the same protocol without any proof (PLAIN), which were measured once
with the same scripts and plans. It takes a plan's turns on one thread; the instructions of `run` are those of all its threads, which differ a
little at each run.
"""
import fcntl
import os
import re
import resource
import shutil
import struct
import subprocess
import sys
import tempfile
import termios
import time

RUNS = 21
PAGE = 4096
# Of the plain model: millions of instructions, and the greatest resident size in MB.
PLAIN = {
    "idle": (89, 23),
    "at_once": (128, 28),
    "whole": (163, 35),
    "tenth": (17.5, 5.4),
    "restarts_k0": (182, 30),
    "rollbacks": (114, 27),
    "plan_200": (84, 10),
    "plan_2000": (249, 25),
}
LARGEST = ["belfast 1", "seqs 5", "shards 6", "window 16 0:4 1:4 2:4 3:4 4:4 5:4", "clients 0 1 2 3 4 5", "consumers 4 tally"]
PLENTY = 400  # ticks and deliveries after each round of submissions: more than a round needs


def busy(entries):
    """Submissions of all clients in turn, each round with a drain, up to so many entries."""
    lines, made, number = list(LARGEST), 0, 0
    while made + 6 + PLENTY <= entries:
        lines += [f"submit {client} {number + client}" for client in range(6)] + [f"drain {PLENTY}"]
        made += 6 + PLENTY
        number += 6
    return lines + [f"drain {entries - made}"]


def restarts(node, count):
    """So many entries, and then as many restarts of one node."""
    return busy(count) + [f"restart {node}"] * count


def at_once(entries, rounds):
    """All submissions first, and then one drain."""
    lines = list(LARGEST)
    for number in range(rounds):
        lines += [f"submit {client} {number}" for client in range(6)]
    return lines + [f"drain {entries - 6 * rounds}"]


def scripts():
    yield "idle", at_once(200_000, 0)
    yield "at_once", at_once(200_000, 500)
    yield "tenth", busy(20_000)
    yield "whole", busy(200_000)
    for node in ["q0", "s0p", "s0b", "c0", "k0"]:
        yield f"restarts_{node}", restarts(node, 100_000)
    yield "half", busy(100_000)
    yield "rollbacks", rollbacks()


def rollbacks():
    """Windows that are granted and shards that are removed while records are under way."""
    lines, made = list(LARGEST), 0
    for shard in range(5):
        for number in range(60):
            lines += [f"submit {client} {number}" for client in range(6)]
        made += 6 * 60
        lines += ["drain 9000", f"remove q0 {shard}", "drain 9000"]
        made += 18_001
    return lines + [f"drain {200_000 - made}"]


def plans(program):
    """Generated plans of the seed 7, by their sizes."""
    for size in [200, 2_000]:
        yield f"plan_{size}", subprocess.run([program, "gen", "7", str(size)], check=True, capture_output=True).stdout


def run(program, word, path):
    with open(path, "rb") as script, open(os.devnull, "wb") as sink:
        begin = time.perf_counter()
        child = subprocess.Popen([program, word], stdin=script, stdout=sink)
        _, status, usage = os.wait4(child.pid, 0)
        took = time.perf_counter() - begin
    if status != 0:
        sys.exit(f"{path}: status {status}")
    return took, usage.ru_minflt


def memory(program, path):
    """The greatest resident size in MB, read while the program waits to write more of its report than a page.

    The figure that the system tells after the end is no less than that of this script, which started the program. A report
    that fits into a page is out before it is read; then it is that figure.
    """
    out, into = os.pipe()
    fcntl.fcntl(into, fcntl.F_SETPIPE_SZ, PAGE)
    with open(path, "rb") as script:
        child = subprocess.Popen([program, "play"], stdin=script, stdout=into)
    os.close(into)
    size = None
    while size is None and child.poll() is None:
        waiting = struct.unpack("i", fcntl.ioctl(out, termios.FIONREAD, b"    "))[0]
        if waiting == PAGE:
            with open(f"/proc/{child.pid}/status", encoding="ascii") as status:
                size = int(re.search(r"VmHWM:\s+(\d+)", status.read()).group(1)) / 1024
    while os.read(out, 1 << 20):
        pass
    os.close(out)
    child.wait()
    return size if size is not None else resource.getrusage(resource.RUSAGE_CHILDREN).ru_maxrss / 1024


def memory_of_run(program, path):
    """The greatest resident size in MB of a run, read again and again until it ends."""
    size = 0
    with open(path, "rb") as plan:
        child = subprocess.Popen([program, "run"], stdin=plan, stdout=subprocess.DEVNULL)
    while child.poll() is None:
        with open(f"/proc/{child.pid}/status", encoding="ascii") as status:
            told = re.search(r"VmHWM:\s+(\d+)", status.read())
        if told:
            size = max(size, int(told.group(1)) / 1024)
        time.sleep(0.001)
    return size


def instructions(program, word, path):
    """Millions of instructions of one run, or None where valgrind is not here."""
    if shutil.which("valgrind") is None:
        return None
    tool = ["valgrind", "--tool=callgrind", "--callgrind-out-file=/dev/null", program, word]
    with open(path, "rb") as script:
        told = subprocess.run(tool, stdin=script, stdout=subprocess.DEVNULL, stderr=subprocess.PIPE, check=True).stderr.decode()
    return int(re.search(r"Collected : (\d+)", told).group(1)) / 1e6


def ratio(figure, plain):
    return f"({figure / plain:.2f})" if plain else ""


def main():
    if len(sys.argv) not in (2, 3):
        sys.exit(__doc__)
    program = os.path.abspath(sys.argv[1])
    with tempfile.TemporaryDirectory() as made:
        folder = sys.argv[2] if len(sys.argv) == 3 else made
        os.makedirs(folder, exist_ok=True)
        figures = {}
        print(f"{'script':14} {'instructions':>20} {'time':>10} {'memory':>18} {'faults':>8}")
        texts = [(name, "play", ("\n".join(lines) + "\n").encode()) for name, lines in scripts()]
        texts += [(name, "run", plan) for name, plan in plans(program)]
        for name, word, text in texts:
            path = os.path.join(folder, f"{name}.{'plan' if word == 'run' else 'script'}")
            with open(path, "wb") as file:
                file.write(text)
            runs = [run(program, word, path) for _ in range(RUNS)]
            took, size = min(run[0] for run in runs), memory_of_run(program, path) if word == "run" else memory(program, path)
            counted = figures[name] = instructions(program, word, path)
            plain = PLAIN.get(name, (None, None))
            count = "-" if counted is None else f"{counted:.1f} M {ratio(counted, plain[0]):6}"
            print(f"{name:14} {count:>20} {took * 1000:7.1f} ms {size:7.1f} MB {ratio(size, plain[1]):6} {min(run[1] for run in runs):8}")
        if figures["whole"] is not None:
            print(f"ten times the entries take {figures['whole'] / figures['tenth']:.2f} times the instructions")


main()
