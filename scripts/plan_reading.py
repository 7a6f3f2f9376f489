#!/usr/bin/env python3
"""How many instructions `read_plan` takes for a byte of a plan, at three sizes up to 16 MiB.

    scripts/plan_reading.py [FOLDER]

It writes a program into FOLDER, or into one that it removes again, which stands on a copy of the crates up to script_text and is
proved and built by `rt run`. The program makes a plan of one line again and again, and reads it once for each further word on its
command line. What `valgrind --tool=callgrind` counts with one such word less what it counts with none is the reading's.
Status 1 where a byte of 16 MiB takes more than a tenth above what it takes at a sixteenth of that.
"""
import os
import re
import shutil
import subprocess
import sys
import tempfile

MOST = 1.1
LIMIT = 16 * 1024 * 1024
SIZES = (LIMIT // 16, LIMIT // 4, LIMIT)
LINES = ("submit 0 5", "submit 0 " + "x" * 90, "submit 0 " + "x" * 1024, "# a comment")
ROOT = os.path.dirname(os.path.dirname(os.path.abspath(__file__)))
LOWER = ["quota_table", "spec_base", "record_codec", "msg_wire", "script_text"]

RATTLE = """//! Makes a plan of so many times one line, and reads it once for each further word.
#![tactic(auto)]

use quota_table::{Bytes, OutOfMemory};
use script_text::read_plan;
use std::alloc::Global;
use std::env;
use std::rt::Env;

const HEAD: &[u8] =
    b"belfast-plan 1\\nseqs 1\\nshards 1\\nwindow 2 0:1\\nclients 0\\nconsumers 1 tally\\n\\
readers 0\\nsubmitters 0\\nfaults 1 0 0 0 0\\ndrain 1000 10\\n";

fn main(rt: HostRuntime) {
    match reads(&rt) {
        Ok((bytes, lines)) => {
            let _ = println!(rt; "{bytes} {lines}");
        }
        Err(OutOfMemory) => {
            let _ = println!(rt; "out of memory");
        }
    }
}

fn reads<R: AllocGlobal + Env>(rt: &R) -> Result<(usize, usize), OutOfMemory> {
    let Ok(mut words) = env::args(rt) else {
        return Err(OutOfMemory);
    };
    let _program = words.next();
    let (Some(size), Some(line)) = (words.next(), words.next()) else {
        return Ok((0, 0));
    };
    let text = plan(rt.alloc(), size.parse::<usize>().unwrap_or(0), line.as_bytes())?;
    let mut lines = 0;
    for _word in words {
        lines = read(rt.alloc(), text.as_slice());
    }
    Ok((text.len(), lines))
}

fn plan(alloc: Global, size: usize, line: &[u8]) -> Result<Bytes, OutOfMemory> {
    let mut text = Bytes::new(alloc);
    text.extend_from_slice(HEAD)?;
    for _byte in 0..size {
        if text.len().saturating_add(line.len()) >= size {
            break;
        }
        text.extend_from_slice(line)?;
        text.push(b'\\n')?;
    }
    Ok(text)
}

/// How many lines a plan has after its head; one more than a text can have where it is none.
fn read(alloc: Global, text: &[u8]) -> usize {
    if text.len() > 16_777_216 {
        return 16_777_217;
    }
    match read_plan(alloc, text) {
        Ok(plan) => plan.lines.len(),
        Err(_) => 16_777_217,
    }
}
"""


def proved(folder):
    """The program, proved and built."""
    crates = os.path.join(folder, "crates")
    for name in LOWER:
        shutil.copytree(os.path.join(ROOT, "crates", name), os.path.join(crates, name), ignore=shutil.ignore_patterns("out"), dirs_exist_ok=True)
    shutil.copy(os.path.join(ROOT, "HANDLES"), folder)
    with open(os.path.join(ROOT, "crates.txt"), encoding="utf-8") as listed:
        lines = [line for line in listed if line.split(":")[0].split(" ")[0] in LOWER]
    below = lines[-1].split(":")[1].strip()
    source = os.path.join(crates, "plan_reading", "src")
    os.makedirs(source, exist_ok=True)
    with open(os.path.join(folder, "crates.txt"), "w", encoding="utf-8") as listed:
        listed.write("".join(lines) + f"plan_reading: script_text {below}\n")
    with open(os.path.join(source, "main.rt"), "w", encoding="utf-8") as main_file:
        main_file.write(RATTLE)
    subprocess.run(["rt", "run"], cwd=os.path.join(crates, "plan_reading"), check=True, stdout=subprocess.PIPE)
    return os.path.join(crates, "plan_reading", "out", "plan_reading")


def counted(folder, program, words):
    """The instructions of a run, and the two numbers that it told."""
    told = subprocess.run(
        ["valgrind", "--tool=callgrind", f"--callgrind-out-file={folder}/callgrind.out", program] + words, capture_output=True, text=True, check=True)
    return int(re.search(r"Collected : (\d+)", told.stderr).group(1)), [int(word) for word in told.stdout.split()]


def main():
    if len(sys.argv) > 2:
        sys.exit(__doc__)
    greatest = 0
    with tempfile.TemporaryDirectory() as made:
        folder = os.path.abspath(sys.argv[1]) if len(sys.argv) == 2 else made
        program = proved(folder)
        for line in LINES:
            each = []
            for size in SIZES:
                idle, _ = counted(folder, program, [str(size), line])
                busy, (length, lines) = counted(folder, program, [str(size), line, "read"])
                if lines > LIMIT:
                    sys.exit(f"{size} bytes of {line[:20]} are no plan")
                each.append((busy - idle) / length)
                print(f"{line[:12]:12} {len(line) + 1:5} bytes a line, {length:9} bytes, {lines:8} lines: "
                      f"{busy - idle:12} instructions, {each[-1]:6.2f} a byte", flush=True)
            greatest = max(greatest, each[-1] / each[0])
    sys.exit(greatest > MOST)


main()
