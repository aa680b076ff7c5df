#!/usr/bin/env python3
"""Measures what a match costs where no order, 1,000 and 100,000 orders are live, of the symbol that was marked or of another.

It needs the kit. A small program is built over copies of the crates that a book stands on, with what the checkout has kept
of their proofs: run `rt check` in crates/order_book first, which proves what is not proved yet. It submits limit orders that
never fill, and then marks a symbol by a real bar and matches, ROUNDS times or fewer. The time of a match is that of such a
run less that of the same run with marks alone, over its rounds; that of an idle match is of a run with no marks, less that
of one with no rounds. The least of REPEATS times counts.
"""
import pathlib
import shutil
import subprocess
import tempfile
import time

TOP = pathlib.Path(__file__).resolve().parent.parent
LIVE = [0, 1_000, 100_000]
ROUNDS = 5_000_000
REPEATS = 3
PROGRAM = r"""
//! Submits orders to a book, and marks and matches them.
#![tactic(auto)]
ghost use Rattle.clock_book.specs.Fitting.{IsPriceBar};

use exchange_hours::Hours;
use lean_fixed::{Moment, Money, Price, Shares, Symbol, read_digits};
use lean_orders::{Command, Kind, PriceBar, Reply, Request};
use order_book::Book;
use std::alloc::Global;
use std::env;
use std::sync::Arc;
use trade_costs::Costs;

// Monday to Friday, 09:30 to 16:00.
const HOURS: &str = r#"{"entries":{"Equity-usa-[*]":{
"monday":[{"start":"09:30:00","end":"16:00:00","state":"market"}],
"tuesday":[{"start":"09:30:00","end":"16:00:00","state":"market"}],
"wednesday":[{"start":"09:30:00","end":"16:00:00","state":"market"}],
"thursday":[{"start":"09:30:00","end":"16:00:00","state":"market"}],
"friday":[{"start":"09:30:00","end":"16:00:00","state":"market"}]}}}"#;

fn new_book(alloc: Global) -> Option<Book> {
    let hours = Hours::read(alloc, HOURS.as_bytes()).ok()?;
    let hours = Arc::new(alloc, hours).ok()?;
    let costs = Costs {
        per_share: Money(0),
        least: Money(0),
        slip: 0,
    };
    Some(Book::new(alloc, Money(10_000_000_000), costs, 2, hours))
}

// A bar of the minute before 10:01 of Monday, 2013-10-07.
fn bar() -> PriceBar
    ensures { IsPriceBar result }
{
    PriceBar {
        start: Moment(23_019_000),
        end: Moment(23_019_001),
        opening: Price(1_000_000),
        high: Price(1_000_000),
        low: Price(1_000_000),
        closing: Price(1_000_000),
        volume: Shares(1),
        real: true,
    }
}

fn mark(book: &mut Book, symbol: &Symbol, out: &mut Vec<Reply>) -> Option<()> {
    out.clear();
    let command = Command::Mark(Moment(23_019_001), *symbol, bar());
    book.handle(&command, out).ok()
}

fn match_orders(book: &mut Book, out: &mut Vec<Reply>) -> Option<()> {
    out.clear();
    book.handle(&Command::Match(Moment(23_019_001)), out).ok()
}

fn submit(book: &mut Book, symbol: &Symbol, out: &mut Vec<Reply>) -> Option<()> {
    out.clear();
    if book.orders().len() >= 1_000_000 {
        return None;
    }
    let request = Request {
        symbol: *symbol,
        kind: Kind::Limit,
        quantity: Shares(1),
        price: Some(Price(1)),
        limit: None,
    };
    let command = Command::Submit(Moment(23_019_001), request);
    book.handle(&command, out).ok()
}

fn submit_all(book: &mut Book, symbol: &Symbol, live: u64, out: &mut Vec<Reply>) -> Option<()> {
    for _ in 0..live {
        submit(book, symbol, out)?;
    }
    Some(())
}

// What is done in each round.
#[derive(Drop)]
struct Work {
    marks: bool,
    matches: bool,
}

fn go_round(book: &mut Book, symbol: &Symbol, work: &Work, out: &mut Vec<Reply>) -> Option<()> {
    if work.marks {
        mark(book, symbol, out)?;
    }
    if work.matches {
        match_orders(book, out)?;
    }
    Some(())
}

// The number of replies to the last command.
fn rounds(alloc: Global, same: bool, live: u64, count: u64, work: &Work) -> Option<usize> {
    let marked = Symbol::read(b"A".as_slice())?;
    let ordered = Symbol::read(if same { b"A".as_slice() } else { b"B".as_slice() })?;
    let mut book = new_book(alloc)?;
    let mut out = Vec::new(alloc);
    mark(&mut book, &ordered, &mut out)?;
    match_orders(&mut book, &mut out)?;
    submit_all(&mut book, &ordered, live, &mut out)?;
    for _ in 0..count {
        go_round(&mut book, &marked, work, &mut out)?;
    }
    Some(out.len())
}

fn main(rt: HostRuntime) -> std::io::Result<()> {
    let mut same = false;
    let mut live = 0;
    let mut count = 0;
    let mut work = Work {
        marks: false,
        matches: false,
    };
    for word in env::args(&rt)? {
        match word.as_str() {
            "same" => same = true,
            "mark" => work.marks = true,
            "match" => work.matches = true,
            _ => {
                live = count;
                count = read_digits(word.as_bytes()).unwrap_or(0);
            }
        }
    }
    let replies = rounds(rt.alloc(), same, live, count, &work).unwrap_or(0);
    println!(rt; "{replies}")
}
"""


def needed(lines, crate):
    """The lines of crates.txt of a crate and of all that it stands on."""
    found, waiting = {}, [crate]
    while waiting:
        name = waiting.pop()
        if name in lines and name not in found:
            found[name] = lines[name]
            waiting += lines[name].split(":")[1].split()
    return found


def build(folder):
    """Builds the program in this folder, and gives its path."""
    lines = {line.split(":")[0].split()[0]: line for line in (TOP / "crates.txt").read_text().splitlines() if ":" in line}
    crates_needed = needed(lines, "order_book")
    crates = folder / "crates"
    for crate in crates_needed:
        shutil.copytree(TOP / "crates" / crate, crates / crate, ignore=shutil.ignore_patterns("must-fail"))
    program = crates / "book_times/src"
    program.mkdir(parents=True)
    (program / "main.rt").write_text(PROGRAM.lstrip())
    line = "book_times: order_book clock_book lean_orders trade_costs exchange_hours lean_fixed"
    (folder / "crates.txt").write_text("\n".join([*crates_needed.values(), line]) + "\n")
    shutil.copy(TOP / "HANDLES", folder / "HANDLES")
    subprocess.run(["git", "init", "-q", folder], check=True)
    subprocess.run(["rt", "run", "--", "0", "0"], cwd=crates / "book_times", check=True)
    return crates / "book_times/out/book_times"


def timed(program, words):
    """The least seconds of a run with these words."""
    least = []
    for _ in range(REPEATS):
        start = time.monotonic()
        done = subprocess.run([program, *words], check=True, capture_output=True, text=True)
        least.append(time.monotonic() - start)
        if done.stdout.strip() == "0":
            raise SystemExit("the book did not take its commands")
    return min(least)


def main():
    with tempfile.TemporaryDirectory() as name:
        program = build(pathlib.Path(name))
        for symbols in ["other", "same"]:
            for live in LIVE:
                count = ROUNDS // (1 + live // 5) if symbols == "same" else ROUNDS
                words = [symbols, str(live), str(count)]
                marked = timed(program, [*words, "mark"])
                both = timed(program, [*words, "mark", "match"])
                idle = timed(program, [*words, "match"]) - timed(program, [symbols, str(live), "0"])
                each = (both - marked) / count * 1e9
                print(f"{live} live orders of {'the same symbol' if symbols == 'same' else 'another symbol'}: "
                      f"{each:.0f} ns a match after a mark, {idle / count * 1e9:.0f} ns an idle one", flush=True)


if __name__ == "__main__":
    main()
