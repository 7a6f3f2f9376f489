#!/usr/bin/env python3
"""How long `merge` takes beside a plain k-way merge in Rust: 20 journals of 10,000 entries each, in one run.

    scripts/merge_ratio.py [FOLDER]

It writes two programs into FOLDER, or into one that it removes again: one stands on a copy of the crates up to net_model and
is proved and built by `rt run`, the other is plain Rust over a heap of the next entries and is built by `rustc -O`. Both
make the same journals and merge them as often as they have words on the command line. Times are processor times, the least
of 15 runs, taken in turns: of the first merge by the difference of 1 word to none, of a later one by that of 6 words to 1.
Status 1 where a ratio is above 3.
"""
import os
import shutil
import subprocess
import sys
import tempfile

RUNS = 15
MOST = 3.0
ROOT = os.path.dirname(os.path.dirname(os.path.abspath(__file__)))
LOWER = ["quota_table", "spec_base", "record_codec", "msg_wire", "net_model"]

RATTLE = """//! Merges 20 journals of 10,000 entries, once for each word.
#![tactic(auto)]

use msg_wire::{Event, Mark, Marks, Message, Messages, What};
use net_model::{HistoryEntry, Journal, Stamped, merge, nodes_are_distinct};
use quota_table::OutOfMemory;
use record_codec::{Body, Record};
use spec_base::{NodeId, Side};
use std::alloc::Global;
use std::env;
use std::rt::Env;

fn main(rt: HostRuntime) {
    match merges(&rt) {
        Ok((entries, messages)) => {
            let _ = println!(rt; "{entries} {messages}");
        }
        Err(OutOfMemory) => {
            let _ = println!(rt; "out of memory");
        }
    }
}

fn merges<R: AllocGlobal + Env>(rt: &R) -> Result<(usize, usize), OutOfMemory> {
    let journals = journals(rt.alloc())?;
    let Ok(mut words) = env::args(rt) else {
        return Err(OutOfMemory);
    };
    let _program = words.next();
    let mut last = (0, 0);
    for _word in words {
        last = merged(rt.alloc(), journals.as_slice())?;
    }
    Ok(last)
}

fn merged(alloc: Global, journals: &[Journal]) -> Result<(usize, usize), OutOfMemory> {
    if !nodes_are_distinct(journals) {
        return Ok((0, 0));
    }
    let history = merge(alloc, journals)?;
    Ok((history.len(), history.messages().len()))
}

fn journals(alloc: Global) -> Result<Vec<Journal>, OutOfMemory> {
    let mut journals = Vec::new(alloc);
    for number in 0..20u8 {
        journals.push(journal(alloc, number)?)?;
    }
    Ok(journals)
}

fn node_of(number: u8) -> NodeId {
    match number {
        0..=4 => NodeId::Seq(number),
        5..=10 => NodeId::Shard(number - 5, Side::Primary),
        11..=16 => NodeId::Shard(number - 11, Side::Backup),
        _ => NodeId::Client(number - 17),
    }
}

fn journal(alloc: Global, number: u8) -> Result<Journal, OutOfMemory> {
    let mut journal = Journal::new(alloc, node_of(number));
    for index in 0..10_000u64 {
        let stamp = 3 * index + (index * (number as u64 + 1)) % 3;
        let step = Stamped {
            stamp,
            entry: entry(alloc, journal.node(), index)?,
        };
        if journal.goes_on(&step) {
            journal.push(step)?;
        }
    }
    Ok(journal)
}

fn record(alloc: Global, number: u64) -> Result<Record, OutOfMemory> {
    Ok(Record::Data {
        client: 0,
        number,
        body: Body::of(alloc, b"12345678")?,
    })
}

fn message(node: NodeId, what: What) -> Message {
    Message {
        from: node,
        to: NodeId::Shard(0, Side::Backup),
        what,
    }
}

fn entry(alloc: Global, node: NodeId, index: u64) -> Result<HistoryEntry, OutOfMemory> {
    let mut sends = Messages::new(alloc);
    let mut marks = Marks::new(alloc);
    let event = match index % 4 {
        0 => Event::Tick,
        _ => Event::Deliver(message(node, What::Replicate { local: index, rec: record(alloc, index)? })),
    };
    for round in 0..index % 4 {
        sends.push(message(node, What::Deliver { local: round, rec: record(alloc, index)? }))?;
    }
    if index % 2 == 1 {
        marks.push(Mark::Promise { position: index, rec: record(alloc, index)? })?;
    }
    Ok(HistoryEntry { node, event, sends, marks })
}
"""

PLAIN = """// Merges 20 journals of 10,000 entries, once for each word.
use std::cmp::Reverse;
use std::collections::BinaryHeap;
use std::sync::Arc;

#[derive(Clone, Copy, PartialEq, Eq, PartialOrd, Ord)]
enum Side {
    Primary,
    Backup,
}

#[derive(Clone, Copy, PartialEq, Eq, PartialOrd, Ord)]
enum NodeId {
    Seq(u8),
    Shard(u8, Side),
    Client(u8),
}

#[allow(dead_code)]
#[derive(Clone)]
enum Body {
    Short([u8; 15], u8),
    Long(Arc<[u8]>),
}

#[allow(dead_code)]
#[derive(Clone)]
enum Record {
    Data { client: u8, number: u64, body: Body },
    Noop,
}

#[allow(dead_code)]
#[derive(Clone)]
enum What {
    Replicate { local: u64, rec: Record },
    Deliver { local: u64, rec: Record },
    Cut { slot: u32, count: u32, rows: [(u8, u8); 6] },
}

#[allow(dead_code)]
#[derive(Clone)]
struct Message {
    from: NodeId,
    to: NodeId,
    what: What,
}

#[allow(dead_code)]
#[derive(Clone)]
enum Event {
    Deliver(Message),
    Tick,
}

#[allow(dead_code)]
#[derive(Clone)]
enum Mark {
    Promise { position: u64, rec: Record },
    Undo { first: u64 },
}

#[allow(dead_code)]
#[derive(Clone)]
struct Entry {
    node: NodeId,
    event: Event,
    sends: Vec<Message>,
    marks: Vec<Mark>,
}

struct Stamped {
    stamp: u64,
    entry: Entry,
}

struct Journal {
    node: NodeId,
    steps: Vec<Stamped>,
}

fn merge(journals: &[Journal]) -> Vec<Entry> {
    let mut heads = BinaryHeap::new();
    for (number, journal) in journals.iter().enumerate() {
        if let Some(first) = journal.steps.first() {
            heads.push(Reverse((first.stamp, journal.node, number, 0)));
        }
    }
    let mut all = Vec::with_capacity(journals.iter().map(|journal| journal.steps.len()).sum());
    while let Some(Reverse((_, node, number, place))) = heads.pop() {
        let steps = &journals[number].steps;
        all.push(steps[place].entry.clone());
        if let Some(next) = steps.get(place + 1) {
            heads.push(Reverse((next.stamp, node, number, place + 1)));
        }
    }
    all
}

fn node_of(number: u8) -> NodeId {
    match number {
        0..=4 => NodeId::Seq(number),
        5..=10 => NodeId::Shard(number - 5, Side::Primary),
        11..=16 => NodeId::Shard(number - 11, Side::Backup),
        _ => NodeId::Client(number - 17),
    }
}

fn record(number: u64) -> Record {
    let mut bytes = [0; 15];
    bytes[..8].copy_from_slice(b"12345678");
    Record::Data { client: 0, number, body: Body::Short(bytes, 8) }
}

fn message(node: NodeId, what: What) -> Message {
    Message { from: node, to: NodeId::Shard(0, Side::Backup), what }
}

fn entry(node: NodeId, index: u64) -> Entry {
    let event = match index % 4 {
        0 => Event::Tick,
        _ => Event::Deliver(message(node, What::Replicate { local: index, rec: record(index) })),
    };
    let sends = (0..index % 4).map(|round| message(node, What::Deliver { local: round, rec: record(index) })).collect();
    let marks = (0..index % 2).map(|_| Mark::Promise { position: index, rec: record(index) }).collect();
    Entry { node, event, sends, marks }
}

fn journal(number: u8) -> Journal {
    let node = node_of(number);
    let steps = (0..10_000)
        .map(|index| Stamped { stamp: 3 * index + (index * (number as u64 + 1)) % 3, entry: entry(node, index) })
        .collect();
    Journal { node, steps }
}

fn main() {
    let journals: Vec<Journal> = (0..20).map(journal).collect();
    let mut last = (0, 0);
    for _word in std::env::args().skip(1) {
        let all = merge(&journals);
        last = (all.len(), all.iter().map(|entry| entry.sends.len()).sum());
    }
    println!("{} {}", last.0, last.1);
}
"""


def put(path, text):
    os.makedirs(os.path.dirname(path), exist_ok=True)
    with open(path, "w", encoding="utf-8") as file:
        file.write(text)


def proved(folder):
    """The program over the crates of this checkout: a copy of them, and one crate more."""
    crates = os.path.join(folder, "crates")
    for name in LOWER:
        shutil.copytree(os.path.join(ROOT, "crates", name), os.path.join(crates, name), ignore=shutil.ignore_patterns("out"), dirs_exist_ok=True)
    shutil.copy(os.path.join(ROOT, "HANDLES"), folder)
    with open(os.path.join(ROOT, "crates.txt"), encoding="utf-8") as listed:
        lines = [line for line in listed if line.split(":")[0].split(" ")[0] in LOWER]
    put(os.path.join(folder, "crates.txt"), "".join(lines) + "merge_times: " + " ".join(reversed(LOWER)) + " arrayvec thiserror\n")
    put(os.path.join(crates, "merge_times", "src", "main.rt"), RATTLE)
    subprocess.run(["rt", "run"], cwd=os.path.join(crates, "merge_times"), check=True, stdout=subprocess.PIPE)
    return os.path.join(crates, "merge_times", "out", "merge_times")


def plain(folder):
    source = os.path.join(folder, "plain.rs")
    put(source, PLAIN)
    subprocess.run(["rustc", "-O", "--edition", "2021", "-o", os.path.join(folder, "plain"), source], check=True)
    return os.path.join(folder, "plain")


def took(program, words):
    """Seconds of the processor for so many merges, and what the program told."""
    child = subprocess.Popen([program] + ["again"] * words, stdout=subprocess.PIPE)
    told = child.stdout.read()
    _, status, usage = os.wait4(child.pid, 0)
    if status != 0:
        sys.exit(f"{program}: status {status}")
    return usage.ru_utime + usage.ru_stime, told


def main():
    if len(sys.argv) > 2:
        sys.exit(__doc__)
    with tempfile.TemporaryDirectory() as made:
        folder = os.path.abspath(sys.argv[1]) if len(sys.argv) == 2 else made
        programs = {"merge": proved(folder), "plain": plain(folder)}
        least = {(name, words): float("inf") for name in programs for words in (0, 1, 6)}
        answers = set()
        for _ in range(RUNS):
            for name, words in least:
                seconds, told = took(programs[name], words)
                least[name, words] = min(least[name, words], seconds)
                answers.add((words > 0, told))
    if len(answers) != 2:
        sys.exit(f"the programs differ: {answers}")
    ratios = []
    for which, fewer, more in (("first", 0, 1), ("later", 1, 6)):
        each = [(least[name, more] - least[name, fewer]) / (more - fewer) for name in programs]
        ratios.append(each[0] / each[1])
        print(f"{which}: merge {each[0] * 1000:6.1f} ms, plain {each[1] * 1000:6.1f} ms, ratio {ratios[-1]:.2f}")
    sys.exit(max(ratios) > MOST)


main()
