#!/usr/bin/env python3
"""Compares a push and a pop of a lane with those of the plain queue that it stands on, on one thread.

It needs the kit. It writes a program over copies of the crates below a lane into a folder of its own, proves and builds it, and
runs it with each queue RUNS times, in turn; the least time counts.
"""
import pathlib
import shutil
import subprocess
import sys
import tempfile
import time

RUNS = 5
COUNT = "20000000"
TOP = pathlib.Path(__file__).resolve().parent.parent
LOWER = ["lean_fixed", "feed_queue"]

LINE = "queue_times may_wait=2: feed_queue lean_fixed crossbeam_queue"

MAIN = """//! Sends numbers through a lane or through the plain queue, and prints how many came back in order.
#![tactic(auto)]
ghost use Rattle.std.specs.Prelude.{◌<◌, ◌^◌};

use crossbeam_queue::ArrayQueue;
use feed_queue::lane;
use lean_fixed::{NoMemory, read_digits};
use std::alloc::{AllocError, Global};
use std::env;
use std::sync::Wait;

fn through_lane<R: Wait>(rt: &R, alloc: Global, count: u64) -> Result<u64, NoMemory>
    requires { count < 2 ^ 62 }
{
    let (mut writer, mut reader) = lane(alloc, 128)?;
    let mut right = 0u64;
    for item in 0..count {
        let _ = writer.push(rt, item);
        if reader.pop(rt) == Some(item) {
            right = right.wrapping_add(1);
        }
    }
    Ok(right)
}

fn through_queue<R: Wait>(rt: &R, alloc: Global, count: u64) -> Result<u64, AllocError> {
    let queue = ArrayQueue::new(alloc, 128)?;
    let mut right = 0u64;
    for item in 0..count {
        let _ = queue.push(rt, item);
        if queue.pop(rt) == Some(item) {
            right = right.wrapping_add(1);
        }
    }
    Ok(right)
}

fn main(rt: HostRuntime) -> std::io::Result<()> {
    let mut lane = false;
    let mut count = 0;
    for word in env::args(&rt)? {
        if word.as_str() == "lane" {
            lane = true;
        }
        if let Some(number) = read_digits(word.as_bytes()) {
            count = number;
        }
    }
    if count >= 1 << 60 {
        return Ok(());
    }
    let right = if lane {
        through_lane(&rt, rt.alloc(), count).unwrap_or(0)
    } else {
        through_queue(&rt, rt.alloc(), count).unwrap_or(0)
    };
    println!(rt; "{right}")
}
"""

INVARIANTS = """use Rattle.std.proofs.Common.{◌≤◌, length}
use Rattle.feed_queue.specs.Lanes.{sent_of}
use Rattle.queue_times.proofs.through_lane.Given as goal

abbrev pub invariant-loop-item : goal.invariant-loop-item
invariant-loop-item g l = length (sent_of l.writer) ≤ l.item
"""


def write(top):
    """Writes the repository of the program, and gives its folder."""
    lines = (TOP / "crates.txt").read_text().splitlines()
    kept = [line for line in lines if line.split(":")[0].split(" ")[0] in LOWER]
    (top / "crates.txt").write_text("\n".join([*kept, LINE]) + "\n")
    shutil.copy(TOP / "HANDLES", top / "HANDLES")
    for name in LOWER:
        shutil.copytree(TOP / "crates" / name, top / "crates" / name, ignore=shutil.ignore_patterns("out", "must-fail"))
    crate = top / "crates/queue_times"
    (crate / "src").mkdir(parents=True)
    (crate / "proofs/through_lane").mkdir(parents=True)
    (crate / "src/main.rt").write_text(MAIN)
    (crate / "proofs/through_lane/Invariants.antt").write_text(INVARIANTS)
    subprocess.run(["git", "init", "-q", top], check=True)
    return crate


def timed(program, queue):
    start = time.monotonic()
    done = subprocess.run([program, queue, COUNT], check=True, capture_output=True, text=True)
    if done.stdout.strip() != COUNT:
        sys.exit(f"not all items came back: {done.stdout}")
    return time.monotonic() - start


def main():
    with tempfile.TemporaryDirectory() as name:
        crate = write(pathlib.Path(name))
        subprocess.run(["rt", "run", "--", "lane", "1"], cwd=crate, check=True)
        program = crate / "out/queue_times"
        lane, plain = [], []
        for _ in range(RUNS):
            lane.append(timed(program, "lane"))
            plain.append(timed(program, "plain"))
        count = int(COUNT)
        print(f"a push and a pop: {min(lane) / count * 1e9:.0f} ns through a lane, {min(plain) / count * 1e9:.0f} ns through the queue")
        print(f"a lane takes {min(lane) / min(plain):.2f} times the time of the plain queue")


if __name__ == "__main__":
    main()
