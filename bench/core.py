#!/usr/bin/env python3
"""Measures what a bar costs a core, with 1, 64 and 256 securities, with and without a period, and behind many closed orders.

It needs the kit. A small program is built over copies of the crates that a core stands on, with what the checkout has kept
of their proofs: run `rt check` in crates/backtest_core first, which proves what is not proved yet. At each moment a bar of
each security arrives, all commands of the moment are taken, and it is closed; one rule looks at an average of 20 closes and
never asks for anything. Before the first moment the core hears of so many orders that were submitted and then canceled. The
time of a bar is that of a run less that of one without moments, over its bars; the least of REPEATS runs counts. With
valgrind its instructions are told as well, of fewer bars.
"""
import pathlib
import shutil
import subprocess
import tempfile
import time

TOP = pathlib.Path(__file__).resolve().parent.parent
BARS = 3_000_000
COUNTED = 60_000
REPEATS = 3
PROGRAM = r"""
//! Lets bars arrive at a core.
#![tactic(auto)]

use backtest_core::{Core, Phase};
use exchange_hours::Hours;
use lean_fixed::{Moment, Price, Shares, Symbol, read_digits};
use lean_items::{Arrival, Bar, FeedNo, Item};
use lean_orders::{Heard, Kind, OrderEvent, Reply, Ticket, What};
use rule_strategy::Plan;
use std::alloc::Global;
use std::env;
use std::fmt::Write;
use std::sync::Arc;

// Monday to Friday, 09:30 to 16:00.
const HOURS: &str = r#"{"entries":{"Equity-usa-[*]":{
"monday":[{"start":"09:30:00","end":"16:00:00","state":"market"}],
"tuesday":[{"start":"09:30:00","end":"16:00:00","state":"market"}],
"wednesday":[{"start":"09:30:00","end":"16:00:00","state":"market"}],
"thursday":[{"start":"09:30:00","end":"16:00:00","state":"market"}],
"friday":[{"start":"09:30:00","end":"16:00:00","state":"market"}]}}}"#;

const HEAD: &str = "start = '20131007'\nend = '20291007'\ncash = '1000000'\n";

const RULE: &str = "[[rules]]\nwhen = 'close > sma(20) and close < 0'\ndo = 'order'\nkind = 'market'\nquantity = '1'\n";

// An algorithm file of so many securities, whose bars have a period of 5 minutes where there is one.
fn plan_text(alloc: Global, count: u64, period: bool) -> Option<String> {
    let mut text = String::from_str(alloc, HEAD).ok()?;
    for number in 0..count {
        write!(text, "[[securities]]\nsymbol = 'S{number}'\nresolution = 'minute'\n").ok()?;
        if period {
            text.push_str("period = 5\n").ok()?;
        }
    }
    text.push_str(RULE).ok()?;
    Some(text)
}

fn hours(alloc: Global) -> Option<Arc<Hours>> {
    let hours = Hours::read(alloc, HOURS.as_bytes()).ok()?;
    Arc::new(alloc, hours).ok()
}

fn listed(plan: &Plan, out: &mut Vec<Symbol>) -> Option<()> {
    for security in &plan.securities.0 {
        out.push(security.symbol).ok()?;
    }
    Some(())
}

fn name_all(core: &mut Core, symbols: &[Symbol]) -> Option<()> {
    let mut number = 0u64;
    for symbol in symbols {
        number = number.wrapping_add(1);
        core.named(*symbol, FeedNo(number)).ok()?;
    }
    Some(())
}

fn begin(alloc: Global, count: u64, period: bool) -> Option<Core> {
    let text = plan_text(alloc, count, period)?;
    let plan = match Plan::read(alloc, text.as_bytes()) {
        Ok(plan) => plan,
        Err(_) => return None,
    };
    let mut symbols = Vec::new(alloc);
    listed(&plan, &mut symbols)?;
    let mut core = Core::begin(alloc, plan, hours(alloc)?).ok()?;
    name_all(&mut core, &symbols)?;
    Some(core)
}

fn hear(core: &mut Core, id: u32, symbol: Symbol, what: What) -> Option<()> {
    let event = OrderEvent {
        at: Moment(23_018_400),
        id,
        symbol: Some(symbol),
        what,
    };
    let heard = Heard {
        ticket: Ticket(1),
        reply: Reply::Event(event),
    };
    core.hear(&heard).ok()?;
    Some(())
}

fn close_order(core: &mut Core, id: u32, symbol: Symbol) -> Option<()> {
    hear(core, id, symbol, What::Submitted(Kind::Limit, Shares(1), Some(Price(1)), None))?;
    hear(core, id, symbol, What::Canceled)
}

fn close_orders(core: &mut Core, symbol: Symbol, closed: u32) -> Option<()> {
    for id in 0..closed {
        close_order(core, id + 1, symbol)?;
    }
    Some(())
}

// The bar of one minute of a security.
fn arrival(number: u64, minute: u32) -> Arrival {
    let bar = Bar {
        start: Moment(23_018_400 + minute as i64),
        end: Moment(23_018_401 + minute as i64),
        opening: Price(1_000_000),
        high: Price(1_000_000),
        low: Price(1_000_000),
        closing: Price(1_000_000),
        volume: Shares(1),
        real: true,
    };
    Arrival {
        feed: FeedNo(number.wrapping_add(1)),
        item: Item::Bar(bar),
    }
}

fn fill(slice: &mut Vec<Arrival>, count: u64, minute: u32) -> Option<()> {
    slice.clear();
    for number in 0..count {
        slice.extend_from_slice(&[arrival(number, minute)]).ok()?;
    }
    Some(())
}

// How many commands a phase has.
fn take(core: &mut Core, phase: Phase) -> u64 {
    for number in 0..1000u64 {
        match core.next_command(phase) {
            Ok(Some(_)) => {}
            Ok(None) => return number,
            Err(_) => return number,
        }
    }
    1000
}

fn play(core: &mut Core, slice: &[Arrival], minute: u32) -> Option<u64> {
    let at = Moment(23_018_401 + (minute % 10_000_000) as i64);
    if core.arrive(at, slice).is_err() {
        return Some(0);
    }
    let mut commands = 0u64;
    for phase in [Phase::Prices, Phase::Rules, Phase::Close] {
        commands = commands.wrapping_add(take(core, phase));
    }
    core.close_moment().ok()?;
    Some(commands)
}

fn play_all(core: &mut Core, alloc: Global, count: u64, moments: u32) -> Option<u64> {
    let mut slice = Vec::new(alloc);
    let mut commands = 0u64;
    for minute in 0..moments {
        fill(&mut slice, count, minute)?;
        commands = commands.wrapping_add(play(core, &slice, minute)?);
    }
    Some(commands)
}

fn run(alloc: Global, count: u32, moments: u32, closed: u32, period: bool) -> Option<u64> {
    let count = count as u64;
    let mut core = begin(alloc, count, period)?;
    if let Some(symbol) = Symbol::read(b"S0") {
        close_orders(&mut core, symbol, closed)?;
    }
    play_all(&mut core, alloc, count, moments)
}

fn number(word: &str) -> u32 {
    (read_digits(word.as_bytes()).unwrap_or(0) % 1_000_000_000) as u32
}

fn main(rt: HostRuntime) -> std::io::Result<()> {
    let mut numbers = [0u32; 5];
    let mut place = 0usize;
    for word in env::args(&rt)? {
        numbers[place % 5] = number(word.as_str());
        place = place.wrapping_add(1);
    }
    let commands = run(rt.alloc(), numbers[1], numbers[2], numbers[3], numbers[4] == 1).unwrap_or(0);
    println!(rt; "{commands}")
}
"""


def needed(lines, crate):
    """The lines of crates.txt of a crate and of all that it stands on."""
    found, waiting = {}, [crate]
    while waiting:
        name = waiting.pop()
        if name in lines and name not in found:
            found[name] = lines[name]
            waiting += lines[name].split(":")[1].split()
    return found


def build(folder):
    """Builds the program in this folder, and gives its path."""
    lines = {line.split(":")[0].split()[0]: line for line in (TOP / "crates.txt").read_text().splitlines() if ":" in line}
    crates_needed = needed(lines, "backtest_core")
    crates = folder / "crates"
    for crate in crates_needed:
        shutil.copytree(TOP / "crates" / crate, crates / crate, ignore=shutil.ignore_patterns("must-fail"))
    program = crates / "core_times/src"
    program.mkdir(parents=True)
    (program / "main.rt").write_text(PROGRAM.lstrip())
    line = "core_times: backtest_core rule_strategy lean_orders exchange_hours lean_items lean_fixed"
    (folder / "crates.txt").write_text("\n".join([*crates_needed.values(), line]) + "\n")
    shutil.copy(TOP / "HANDLES", folder / "HANDLES")
    subprocess.run(["git", "init", "-q", folder], check=True)
    subprocess.run(["rt", "run", "--", "1", "1", "0", "0"], cwd=crates / "core_times", check=True)
    return crates / "core_times/out/core_times"


def timed(program, words):
    """The least seconds of a run with these words."""
    least = []
    for _ in range(REPEATS):
        start = time.monotonic()
        done = subprocess.run([program, *map(str, words)], check=True, capture_output=True, text=True)
        least.append(time.monotonic() - start)
        if words[1] and done.stdout.strip() == "0":
            raise SystemExit("the core gave no commands")
    return min(least)


def instructions(program, words):
    """The instructions of a run with these words, by callgrind."""
    done = subprocess.run(["valgrind", "--tool=callgrind", "--callgrind-out-file=/dev/null", program, *map(str, words)],
                          check=True, capture_output=True, text=True)
    return int(done.stderr.split("Collected :")[1].split()[0])


def main():
    with tempfile.TemporaryDirectory() as name:
        program = build(pathlib.Path(name))
        for period in [0, 1]:
            for count, closed in [(1, 0), (64, 0), (256, 0), (64, 100_000)]:
                moments = BARS // count
                took = timed(program, [count, moments, closed, period]) - timed(program, [count, 0, closed, period])
                text = f"{count} securities{', a period of 5 minutes' if period else ''}{f', {closed} closed orders' if closed else ''}: "
                text += f"{took / moments / count * 1e9:.0f} ns a bar"
                if shutil.which("valgrind") and not closed:
                    few = COUNTED // count
                    used = instructions(program, [count, few, 0, period]) - instructions(program, [count, 0, 0, period])
                    text += f", {used / few / count:.0f} instructions"
                print(text, flush=True)


if __name__ == "__main__":
    main()
