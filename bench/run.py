#!/usr/bin/env python3
"""Compares `lean tape` with a plain Rust program on a folder made for it: the same bytes, and the ratio of the times.

It needs rustc, and the program that `rt ci` or `./run` built. The made folder has SYMBOLS daily files of just under a
mebibyte. Each program runs RUNS times, in turn, and its least time counts.
"""
import datetime
import pathlib
import random
import subprocess
import sys
import tempfile
import time

SYMBOLS = 64
RUNS = 7
MOST = 1_048_576
TOP = pathlib.Path(__file__).resolve().parent.parent
LEAN = TOP / "crates/lean/out/lean"


def make(folder):
    """Writes the files, of rows on days that are the next or a later one, and gives the symbols."""
    numbers = random.Random(20131007)
    daily = folder / "equity/usa/daily"
    daily.mkdir(parents=True)
    symbols = [f"S{n}" for n in range(SYMBOLS)]
    for symbol in symbols:
        day, price, lines, size = datetime.date(1970, 1, 1), 1_000_000, [], 0
        while day.year < 2199:
            close = max(10_000, price + numbers.randint(-9_000, 9_000))
            high, low = max(price, close) + 500, min(price, close) - 500
            line = f"{day:%Y%m%d} 00:00,{price},{high},{low},{close},{numbers.randint(1, 10**8)}\n"
            size += len(line)
            if size > MOST:
                break
            lines.append(line)
            day += datetime.timedelta(days=numbers.choice((1, 1, 1, 1, 3)))
            price = close
        (daily / f"{symbol.lower()}.csv").write_text("".join(lines))
    return symbols


def timed(command, folder, to):
    with open(to, "wb") as out:
        start = time.monotonic()
        subprocess.run(command, cwd=folder, stdout=out, check=True)
        return time.monotonic() - start


def main():
    if not LEAN.exists():
        sys.exit("no crates/lean/out/lean: run ./run tape SPY first")
    with tempfile.TemporaryDirectory() as name:
        folder = pathlib.Path(name)
        plain = folder / "tape"
        subprocess.run(["rustc", "-O", "--edition", "2021", "-o", plain, TOP / "bench/tape.rs"], check=True)
        symbols = make(folder)
        proved_times, plain_times = [], []
        for _ in range(RUNS):
            proved_times.append(timed([LEAN, "tape", *symbols], folder, folder / "proved.txt"))
            plain_times.append(timed([plain, *symbols], folder, folder / "plain.txt"))
        proved = (folder / "proved.txt").read_bytes()
        if proved != (folder / "plain.txt").read_bytes():
            sys.exit("the bytes differ")
        print(proved.splitlines()[-1].decode())
        print(f"lean {min(proved_times) / min(plain_times):.2f} times the time of the plain program")


if __name__ == "__main__":
    main()
