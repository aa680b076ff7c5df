#!/usr/bin/env python3
"""Measures what the truth of `close > sma(4) and position == 0` costs.

It needs the kit. A small program is built over copies of the crates that the rule language stands on, with what the
checkout has kept of their proofs: run `rt check` in crates/rule_lang first, which proves what is not proved yet. Between two
truths it changes the position, so that one in two is true. The least of REPEATS times counts, less that of no rounds.
"""
import pathlib
import shutil
import subprocess
import tempfile
import time

TOP = pathlib.Path(__file__).resolve().parent.parent
COUNT = 50_000_000
REPEATS = 5
PROGRAM = r"""
//! Computes a truth many times.
#![tactic(auto)]

use lean_fixed::{Moment, Money, Price, Shares, read_digits};
use lean_items::Bar;
use rule_lang::{Expr, View, Want, WindowValues};
use std::alloc::Global;
use std::env;

fn view_of(windows: WindowValues) -> View {
    View {
        bar: Bar {
            start: Moment(23_018_969),
            end: Moment(23_018_970),
            opening: Price(11),
            high: Price(19),
            low: Price(7),
            closing: Price(13),
            volume: Shares(5),
            real: true,
        },
        at: Moment(23_018_970),
        price: Price(17),
        position: Shares(0),
        cash: Money(1_000_000),
        equity: Money(1_000_000),
        orders: 2,
        windows,
    }
}

// How many of so many truths are true.
fn truths(expression: &Expr, view: &mut View, count: u64) -> u64 {
    let mut found = 0u64;
    for round in 0..count {
        view.position = Shares((round % 2) as i64);
        if expression.truth(view) {
            found = found.wrapping_add(1);
        }
    }
    found
}

fn count_truths(alloc: Global, count: u64) -> Option<u64> {
    let text = b"close > sma(4) and position == 0".as_slice();
    let expression = Expr::read(alloc, text, Want::Truth).ok()?;
    let mut values = Vec::new(alloc);
    values.push(Some(12)).ok()?;
    let mut view = view_of(WindowValues(values));
    Some(truths(&expression, &mut view, count))
}

fn main(rt: HostRuntime) -> std::io::Result<()> {
    let mut count = 0;
    for word in env::args(&rt)? {
        count = read_digits(word.as_bytes()).unwrap_or(0);
    }
    let found = count_truths(rt.alloc(), count).unwrap_or(0);
    println!(rt; "{found}")
}
"""


def needed(lines, crate):
    """The lines of crates.txt of a crate and of all that it stands on."""
    found, waiting = {}, [crate]
    while waiting:
        name = waiting.pop()
        if name in lines and name not in found:
            found[name] = lines[name]
            waiting += lines[name].split(":")[1].split()
    return found


def build(folder):
    """Builds the program in this folder, and gives its path."""
    lines = {line.split(":")[0].split()[0]: line for line in (TOP / "crates.txt").read_text().splitlines() if ":" in line}
    crates_needed = needed(lines, "rule_lang")
    crates = folder / "crates"
    for crate in crates_needed:
        shutil.copytree(TOP / "crates" / crate, crates / crate, ignore=shutil.ignore_patterns("must-fail"))
    program = crates / "rule_times/src"
    program.mkdir(parents=True)
    (program / "main.rt").write_text(PROGRAM.lstrip())
    (folder / "crates.txt").write_text("\n".join([*crates_needed.values(), "rule_times: rule_lang lean_items lean_fixed"]) + "\n")
    shutil.copy(TOP / "HANDLES", folder / "HANDLES")
    subprocess.run(["git", "init", "-q", folder], check=True)
    subprocess.run(["rt", "run", "--", "0"], cwd=crates / "rule_times", check=True)
    return crates / "rule_times/out/rule_times"


def timed(program, count):
    start = time.monotonic()
    done = subprocess.run([program, str(count)], check=True, capture_output=True, text=True)
    if done.stdout.strip() != str(count // 2):
        raise SystemExit(f"another number of truths: {done.stdout}")
    return time.monotonic() - start


def main():
    with tempfile.TemporaryDirectory() as name:
        program = build(pathlib.Path(name))
        least = min(timed(program, COUNT) for _ in range(REPEATS)) - min(timed(program, 0) for _ in range(REPEATS))
        print(f"{least / COUNT * 1e9:.1f} ns a truth")


if __name__ == "__main__":
    main()
