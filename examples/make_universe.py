#!/usr/bin/env python3
"""Makes daily files of three more securities and the coarse universe files of the folder examples/market.

A coarse file has a line for each security with a daily row of its date: an identifier, the symbol, the close in dollars,
the volume and the dollar volume. The prices are made up, and the same on every machine. Run it in a market folder of
your own with --coarse-only to make coarse files out of its daily files.
"""

import os
import sys

DATES = ["20131007", "20131008", "20131009", "20131010", "20131011", "20131014", "20131015", "20131016", "20131017", "20131018"]
# The symbol, its first price in 1/10000 dollar, and about how many shares of it are traded on a day.
MADE = [("BAC", 140500, 130_000_000), ("IBM", 1840000, 10_500_000), ("MSFT", 333000, 57_000_000)]


def randoms(x):
    """Numbers from 0 to 2000, one after the other."""
    while True:
        x = (1103515245 * x + 12345) % 2**31
        yield x // 65536 % 2001


def daily_rows(price, shares, numbers):
    for date in DATES:
        opening = round(price * (1 + (next(numbers) - 1000) / 200000), -2)
        closing = round(opening * (1 + (next(numbers) - 1000) / 50000), -2)
        high = round(max(opening, closing) * (1 + next(numbers) / 300000), -2)
        low = round(min(opening, closing) * (1 - next(numbers) / 300000), -2)
        volume = round(shares * (0.6 + next(numbers) / 2500))
        yield f"{date} 00:00,{opening:.0f},{high:.0f},{low:.0f},{closing:.0f},{volume}\n"
        price = closing


def make_daily(folder):
    for number, (symbol, price, shares) in enumerate(MADE):
        with open(f"{folder}/{symbol.lower()}.csv", "w") as out:
            out.writelines(daily_rows(price, shares, randoms(7 + number)))


def make_coarse(daily, coarse):
    days = {}
    for name in sorted(os.listdir(daily)):
        symbol = name.removesuffix(".csv").upper()
        with open(f"{daily}/{name}") as rows:
            for row in rows:
                time, _, _, _, close, volume = row.strip().split(",")[:6]
                dollars = int(close) * int(volume) // 10000
                line = f"{symbol} 1,{symbol},{int(close) / 10000:.4f},{volume},{dollars}\n"
                days.setdefault(time[:8], []).append(line)
    os.makedirs(coarse, exist_ok=True)
    for date, lines in days.items():
        with open(f"{coarse}/{date}.csv", "w") as out:
            out.writelines(lines)


if __name__ == "__main__":
    alone = "--coarse-only" in sys.argv[1:]
    market = "." if alone else os.path.join(os.path.dirname(os.path.abspath(__file__)), "market")
    if not alone:
        make_daily(f"{market}/equity/usa/daily")
    make_coarse(f"{market}/equity/usa/daily", f"{market}/equity/usa/fundamental/coarse")
