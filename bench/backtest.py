#!/usr/bin/env python3
"""Measures backtests of `lean` on a folder made for it: processor time for each row that is read, and peak memory.

It needs the program that `rt ci` or `./run` built. Four algorithm files run over the folder and over the first half of its
days: `plain` (minute bars in buckets of 15, four rules), `heavy` (every minute, windows of 1,000 closes), `universe` (the 20
most traded of 100 each day) and `daily` (few bars and long idle times). The rows of `universe` are those of its coarse files
and, for each day, of the minute files of 20 securities. Each run is made RUNS times, and its least time counts. The time a
row should be the same over both halves, and the memory that of half the rows.
"""
import datetime
import os
import pathlib
import random
import sys
import tempfile
import time

LISTED = 16
POOL = 100
TOP_TRADED = 20
DAYS = 40
DAILY_ROWS = 2_000
RUNS = 3
TOP = pathlib.Path(__file__).resolve().parent.parent
LEAN = TOP / "crates/lean/out/lean"
WEEK = ["monday", "tuesday", "wednesday", "thursday", "friday"]

CROSS = """
[[rules]]
when = "sma(4) > sma(12) and position == 0 and orders == 0"
do = "order"
kind = "market"
quantity = "100"

[[rules]]
when = "sma(4) < sma(12) and position > 0"
do = "order"
kind = "market"
quantity = "0 - position"

[[rules]]
when = "position > 0 and orders == 0"
do = "order"
kind = "limit"
quantity = "0 - position"
price = "close + 1"

[[rules]]
when = "position == 0 and orders > 0"
do = "cancel"
"""
HEAVY = """
[[rules]]
when = "close >= highest(1000) and close > sma(1000) and position == 0 and orders == 0"
do = "order"
kind = "market"
quantity = "100"

[[rules]]
when = "close <= lowest(1000) and position > 0"
do = "order"
kind = "market"
quantity = "0 - position"

[[rules]]
when = "change(1000) < 0 - 1 and position > 0 and orders == 0"
do = "order"
kind = "limit"
quantity = "0 - position"
price = "sma(1000) + 1"
"""


def weekdays(day, count):
    days = []
    while len(days) < count:
        if day.weekday() < 5:
            days.append(f"{day:%Y%m%d}")
        day += datetime.timedelta(days=1)
    return days


def bars(numbers, count):
    """Bars of a random walk that stays above a dollar, as the five numbers of a row."""
    price = numbers.randint(200_000, 2_000_000)
    for _ in range(count):
        close = max(10_000, price + numbers.randint(-900, 900))
        high, low = max(price, close) + 100, min(price, close) - 100
        yield f"{price},{high},{low},{close},{numbers.randint(1, 10**5)}\n"
        price = close


def make_files(folder):
    numbers = random.Random(20131007)
    days = weekdays(datetime.date(2013, 10, 7), DAYS)
    hours = ",".join(
        f'"{day}":[{{"start":"09:30:00","end":"16:00:00","state":"market"}}]' for day in WEEK)
    path = folder / "market-hours"
    path.mkdir()
    (path / "market-hours-database.json").write_text(f'{{"entries":{{"Equity-usa-[*]":{{{hours}}}}}}}\n')
    minute = folder / "equity/usa/minute"
    symbols = [f"S{n}" for n in range(LISTED)] + [f"U{n}" for n in range(POOL)]
    for symbol in symbols:
        (minute / symbol.lower()).mkdir(parents=True)
        rows = bars(numbers, DAYS * 390)
        for day in days:
            text = "".join(f"{34_200_000 + 60_000 * n},{next(rows)}" for n in range(390))
            (minute / symbol.lower() / f"{day}_{symbol.lower()}_minute_trade.csv").write_text(text)
    coarse = folder / "equity/usa/fundamental/coarse"
    coarse.mkdir(parents=True)
    for day in days[:-1]:
        text = "".join(
            f"ID{n},U{n},{numbers.randint(10, 200)}.50,{numbers.randint(10**5, 10**7)},{numbers.randint(10**7, 10**9)}\n"
            for n in range(POOL))
        (coarse / f"{day}.csv").write_text(text)
    daily = folder / "equity/usa/daily"
    daily.mkdir()
    for n in range(LISTED):
        dates = weekdays(datetime.date(1970, 1, 5), DAILY_ROWS)
        text = "".join(f"{day} 00:00,{row}" for day, row in zip(dates, bars(numbers, DAILY_ROWS)))
        (daily / f"d{n}.csv").write_text(text)
    return days


def listed(letter, resolution, period=None):
    more = f"period = {period}\n" if period else ""
    return "".join(
        f'\n[[securities]]\nsymbol = "{letter}{n}"\nresolution = "{resolution}"\n{more}' for n in range(LISTED))


def write_plans(folder, days):
    """Writes each algorithm file for all days and for the first half of them, and gives the rows of both."""
    trading = weekdays(datetime.date(1970, 1, 5), DAILY_ROWS)
    universe = (f'\n[universe]\nresolution = "minute"\nperiod = 15\ntop = {TOP_TRADED}\nmin-price = "5"\n')
    plans = {
        "plain": (days, listed("S", "minute", 15) + CROSS, 390 * LISTED),
        "heavy": (days, listed("S", "minute") + HEAVY, 390 * LISTED),
        "universe": (days, universe + CROSS, 390 * TOP_TRADED + POOL),
        "daily": (trading, listed("D", "daily") + CROSS, LISTED),
    }
    rows = {}
    for name, (dates, text, of_a_day) in plans.items():
        for part, count in (("whole", len(dates)), ("half", len(dates) // 2)):
            head = (f'start = "{dates[0]}"\nend = "{dates[count - 1]}"\ncash = "1000000"\n'
                    'fee-per-share = "0.005"\nfee-minimum = "1"\nslippage = 10\n')
            (folder / f"{name}-{part}.toml").write_text(head + text)
            rows[name, part] = count * of_a_day
    return rows


def started(folder, plan):
    """Starts one run, whose output is dropped, and gives its process."""
    child = os.fork()
    if child == 0:
        os.chdir(folder)
        os.dup2(os.open(os.devnull, os.O_WRONLY), 1)
        os.execv(LEAN, ["lean", "backtest", plan])
    return child


def seconds(folder, plan):
    """Processor seconds of one run."""
    _, status, used = os.wait4(started(folder, plan), 0)
    if status != 0:
        sys.exit(f"{plan}: the program ended with {os.waitstatus_to_exitcode(status)}")
    return used.ru_utime + used.ru_stime


def peak(folder, plan):
    """Peak memory in KiB of one run, by looking every millisecond: what wait4 tells counts this script's own pages."""
    child = started(folder, plan)
    most = 0
    while os.waitpid(child, os.WNOHANG)[0] == 0:
        status = pathlib.Path(f"/proc/{child}/status").read_text()
        name = status.split("\n", 1)[0].split()[-1]
        found = [int(line.split()[1]) for line in status.splitlines() if line.startswith("VmHWM")]
        if name == "lean" and found:
            most = found[0]
        time.sleep(0.001)
    return most


def main():
    if not LEAN.exists():
        sys.exit("no crates/lean/out/lean: run ./run tape SPY first")
    with tempfile.TemporaryDirectory() as name:
        folder = pathlib.Path(name)
        rows = write_plans(folder, make_files(folder))
        for (plan, part), count in rows.items():
            took = min(seconds(folder, f"{plan}-{part}.toml") for _ in range(RUNS))
            memory = peak(folder, f"{plan}-{part}.toml")
            print(f"{plan:8} {part:5} {count:8} rows {took:7.3f} s {took / count * 1e9:7.0f} ns a row {memory:7} KiB")


if __name__ == "__main__":
    main()
