#!/usr/bin/env python3
"""Draws the report of a backtest: the equity at each close, the drawdown below it, and the fills as marks.

    ./run backtest examples/universe.toml | examples/plot_equity.py equity.png

It reads the report on the standard input and writes the picture to the file that is named, or to equity.png. It needs
matplotlib; the program itself needs no Python.
"""

import sys
from datetime import datetime


def read_report(lines):
    """The closes as (moment, equity) and the fills as (moment, quantity)."""
    closes, fills = [], []
    for line in lines:
        words = line.split()
        if words[2:4] == ["close", "cash"] and len(words) == 7:
            closes.append((moment_of(words), float(words[6])))
        elif words[2:3] == ["order"] and words[5:6] == ["filled"]:
            fills.append((moment_of(words), int(words[6])))
    return closes, fills


def moment_of(words):
    return datetime.strptime(words[0] + words[1], "%Y%m%d%H:%M")


def drawdowns(equities):
    """How far each equity lies below the greatest before it. The peak begins with the first close, since a report
    doesn't say the starting cash."""
    peak, falls = equities[0], []
    for equity in equities:
        peak = max(peak, equity)
        falls.append(equity - peak)
    return falls


def marks(closes, fills):
    """Each fill at the equity of the first close from its moment on. Fills behind the last close have no mark."""
    for moment, quantity in fills:
        equity = next((equity for at, equity in closes if at >= moment), None)
        if equity is not None:
            yield moment, equity, quantity


def draw(closes, fills, file):
    try:
        import matplotlib
    except ImportError:
        sys.exit("plot_equity.py needs matplotlib: on Debian, apt-get install python3-matplotlib; elsewhere, pip install matplotlib")
    matplotlib.use("Agg")
    import matplotlib.dates
    import matplotlib.pyplot as plt

    figure, (top, below) = plt.subplots(2, 1, sharex=True, figsize=(8, 5), height_ratios=[3, 1])
    days, equities = [at for at, _ in closes], [equity for _, equity in closes]
    top.plot(days, equities, color="tab:blue", label="equity at the close")
    for label, sign, marker, color in [("buy", 1, "^", "tab:green"), ("sell", -1, "v", "tab:red")]:
        points = [(at, equity) for at, equity, quantity in marks(closes, fills) if quantity * sign > 0]
        if points:
            top.scatter(*zip(*points), marker=marker, color=color, label=label, zorder=3)
    top.set_ylabel("dollars")
    top.legend()
    top.grid(alpha=0.3)
    below.fill_between(days, drawdowns(equities), 0, color="tab:red", alpha=0.4)
    below.set_ylabel("drawdown")
    below.grid(alpha=0.3)
    dates = matplotlib.dates.AutoDateLocator()
    below.xaxis.set_major_locator(dates)
    below.xaxis.set_major_formatter(matplotlib.dates.ConciseDateFormatter(dates))
    figure.tight_layout()
    figure.savefig(file, dpi=100)


def main():
    closes, fills = read_report(sys.stdin)
    if not closes:
        sys.exit("plot_equity.py: the report has no close line")
    file = sys.argv[1] if len(sys.argv) > 1 else "equity.png"
    draw(closes, fills, file)
    print(f"{file}: {len(closes)} closes, {len(fills)} fills")


if __name__ == "__main__":
    main()
