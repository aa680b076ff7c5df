#!/usr/bin/env python3
"""Measures whether reading an algorithm file takes time in proportion to its bytes.

It needs the kit. A small program is built over copies of the crates that it stands on, with what the checkout has kept of
their proofs: run `rt check` in crates/rule_strategy first, which proves what is not proved yet. It makes files in memory:
of different unknown keys, of one long array, of one long text, and of tables of securities. Of each it prints the least
time of five readings in nanoseconds a byte, which must not rise with the size. The sizes are the words of the script, in bytes, and
64 KiB, 256 KiB and 1 MiB where there are none.
"""
import pathlib
import shutil
import subprocess
import sys
import tempfile

TOP = pathlib.Path(__file__).resolve().parent.parent
SIZES = ["65536", "262144", "1048576"]
PROGRAM = r"""
#![tactic(auto)]
ghost use Rattle.std.specs.Prelude.{◌<◌};

use anyhow::Result;
use lean_fixed::read_digits;
use rule_strategy::Plan;
use std::alloc::Global;
use std::env;
use std::fmt::Write;
use std::time::Instant;

const START: &str = "start = '20131007'\nend = '20131008'\ncash = '1000'\n";

fn append(shape: u32, number: u32, file: &mut String) -> Result<()> {
    match shape {
        0 => writeln!(file, "key-{number} = {number}")?,
        1 => write!(file, "{number}, ")?,
        2 => write!(file, "{number} < ")?,
        _ => writeln!(file, "[[securities]]\nsymbol = 'S{number}'\nresolution = 'daily'")?,
    }
    Ok(())
}

fn file_of(alloc: Global, shape: u32, size: usize) -> Result<String> {
    let mut file = String::from_str(alloc, START)?;
    match shape {
        1 => file.push_str("rules = [")?,
        2 => file.push_str("universe = '")?,
        _ => {}
    }
    for number in 0..200_000u32 {
        if file.len() >= size {
            break;
        }
        append(shape, number, &mut file)?;
    }
    match shape {
        1 => file.push_str("0]\n")?,
        2 => file.push_str("'\n")?,
        _ => {}
    }
    Ok(file)
}

fn measure(rt: &HostRuntime, shape: u32, size: usize) -> Result<()>
    requires { shape < 4 }
{
    let file = file_of(rt.alloc(), shape, size)?;
    let mut least = u128::MAX;
    for _ in 0..5 {
        let start = Instant::now(rt)?;
        let read = Plan::read(rt.alloc(), file.as_bytes());
        least = least.min(start.elapsed(rt)?.as_nanos());
        if read.is_ok() {
            println!(rt; "a plan")?;
        }
    }
    let bytes = file.len();
    let each = least / (bytes as u128).max(1);
    let names = ["unknown keys", "long array", "long text", "securities"];
    println!(rt; "{} {bytes} bytes: {each} ns a byte", names[shape as usize])?;
    Ok(())
}

fn main(rt: HostRuntime) -> Result<()> {
    for word in env::args(&rt)? {
        if let Some(size) = read_digits(word.as_bytes()) {
            for shape in 0..4u32 {
                measure(&rt, shape, size as usize)?;
            }
        }
    }
    Ok(())
}
"""


def needed(lines, crate):
    """The lines of crates.txt of a crate and of all that it stands on."""
    found, waiting = {}, [crate]
    while waiting:
        name = waiting.pop()
        if name in lines and name not in found:
            found[name] = lines[name]
            waiting += lines[name].split(":")[1].split()
    return found


def main():
    lines = {line.split(":")[0].split()[0]: line for line in (TOP / "crates.txt").read_text().splitlines() if ":" in line}
    crates_needed = needed(lines, "rule_strategy")
    with tempfile.TemporaryDirectory() as name:
        folder = pathlib.Path(name)
        crates = folder / "crates"
        for crate in crates_needed:
            shutil.copytree(TOP / "crates" / crate, crates / crate, ignore=shutil.ignore_patterns("must-fail"))
        program = crates / "plan_bench/src"
        program.mkdir(parents=True)
        (program / "main.rt").write_text(PROGRAM.lstrip())
        text = "\n".join(crates_needed.values()) + "\nplan_bench: rule_strategy lean_fixed anyhow\n"
        (folder / "crates.txt").write_text(text)
        shutil.copy(TOP / "HANDLES", folder / "HANDLES")
        subprocess.run(["rt", "run", "--", *(sys.argv[1:] or SIZES)], cwd=crates / "plan_bench", check=True)


if __name__ == "__main__":
    main()
