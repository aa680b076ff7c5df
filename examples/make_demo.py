#!/usr/bin/env python3
"""Writes the folder out that `lean demo N` makes in memory, so that it can be looked at.

    examples/make_demo.py N FOLDER

N is a number of at most six digits. FOLDER gets the hours file, a minute file for each of sixteen securities on each of
ten days, and the algorithm file demo.toml, byte for byte as docs/FORMATS.md describes them under "The made folder". Behind
the last close line of `LEAN_FOLDER=FOLDER ./run backtest FOLDER/demo.toml` stands what `./run demo N` prints behind its line.
"""

import os
import sys

DATES = ["20131007", "20131008", "20131009", "20131010", "20131011", "20131014", "20131015", "20131016", "20131017", "20131018"]
WEEKDAYS = ["monday", "tuesday", "wednesday", "thursday", "friday"]

SETTINGS = """\
start = "20131007"
end = "20131018"
cash = "1000000"
fee-per-share = "0.005"
fee-minimum = "1"
slippage = 10
"""

SECURITY = """\
[[securities]]
symbol = "S{}"
resolution = "minute"
period = 15
"""

RULES = """\
[[rules]]
when = "sma(4) > sma(12) and position == 0 and orders == 0"
do = "order"
kind = "market"
quantity = "100"
[[rules]]
when = "sma(4) < sma(12) and position > 0"
do = "order"
kind = "market"
quantity = "0 - position"
[[rules]]
when = "position > 0 and orders == 0"
do = "order"
kind = "limit"
quantity = "0 - position"
price = "close + 1"
[[rules]]
when = "position == 0 and orders > 0"
do = "cancel"
"""


def hours():
    market = '[{"start": "09:30:00", "end": "16:00:00", "state": "market"}]'
    days = ",\n".join(f'      "{weekday}": {market}' for weekday in WEEKDAYS)
    return '{\n  "entries": {\n    "Equity-usa-[*]": {\n' + days + "\n    }\n  }\n}\n"


def rows(number, security):
    """The columns behind the time of each row of a security, over all days."""
    x = (16 * number + security) % 2**31
    price = 1_000_000 + 10_000 * security
    while True:
        x = (1_103_515_245 * x + 12_345) % 2**31
        opening, price = price, max(10_000, price + x // 65_536 % 2_001 - 1_000)
        high, low = max(opening, price) + x % 100, min(opening, price) - x % 100
        yield f"{opening},{high},{low},{price},{100 + x % 900}"


def write(folder, path, text):
    path = os.path.join(folder, path)
    os.makedirs(os.path.dirname(path), exist_ok=True)
    with open(path, "w", newline="") as out:
        out.write(text)


def main(number, folder):
    write(folder, "market-hours/market-hours-database.json", hours())
    write(folder, "demo.toml", SETTINGS + "".join(SECURITY.format(i) for i in range(16)) + RULES)
    for i in range(16):
        walk = rows(number, i)
        for date in DATES:
            lines = [f"{60_000 * minute},{next(walk)}\n" for minute in range(570, 960)]
            write(folder, f"equity/usa/minute/s{i}/{date}_s{i}_minute_trade.csv", "".join(lines))


if __name__ == "__main__":
    if len(sys.argv) != 3 or not (sys.argv[1].isascii() and sys.argv[1].isdigit() and len(sys.argv[1]) <= 6):
        sys.exit(__doc__)
    main(int(sys.argv[1]), sys.argv[2])
