#!/usr/bin/env python3
"""Refuses each allocation of a worked backtest in turn, and tells what came of it.

    bench/allocations.py [PROGRAM]             every allocation, by the built program
    bench/allocations.py --try NUMBER ..       these allocations, by `rt try`, which also watches every access to memory

The backtest is that of five days of 390 rows. PROGRAM is `crates/lean/out/lean` where none is said; `rt run` in `crates/lean`
builds it. It runs with a library in front of the C library's allocator, which refuses one call; the library is compiled by
`cc`. `rt try` compiles the program anew for each number, and takes minutes.

Where memory is refused the status is to be 6, and a front of the report printed. Each other end is told with the number of its
allocation, and the script then ends with status 1.
"""
import collections
import os
import pathlib
import re
import subprocess
import sys
import tempfile

TOP = pathlib.Path(__file__).resolve().parent.parent
NO_MEMORY = 6
WORDS = ["backtest", "a.toml"]
PLAN = """start = "20131007"
end = "20131011"
cash = "100000"
fee-per-share = "0.005"
fee-minimum = "1"
[[securities]]
symbol = "SPY"
resolution = "minute"
period = 15
[[rules]]
when = "close > sma(4) and position == 0"
do = "order"
kind = "market"
quantity = "100"
[[rules]]
when = "close < sma(4) and position > 0"
do = "order"
kind = "market"
quantity = "0 - position"
"""
PRICES = {"20131007": 1670000, "20131008": 1680000, "20131009": 1660000, "20131010": 1650000, "20131011": 1690000}
REPORT = """20131007 16:00 close cash 100000.0000 equity 100000.0000
20131008 09:45 order 1 SPY submitted market 100 -
20131008 09:45 order 1 SPY filled 100 168.0000 fee 1.0000
20131008 16:00 close cash 83199.0000 equity 99999.0000
20131009 09:45 order 2 SPY submitted market -100 -
20131009 09:45 order 2 SPY filled -100 166.0000 fee 1.0000
20131009 16:00 close cash 99798.0000 equity 99798.0000
20131010 16:00 close cash 99798.0000 equity 99798.0000
20131011 09:45 order 3 SPY submitted market 100 -
20131011 09:45 order 3 SPY filled 100 169.0000 fee 1.0000
20131011 16:00 close cash 82897.0000 equity 99797.0000
end 3 orders 3 fills 0 open
fees 3.0000
realised -200.0000
cash 82897.0000
equity 99797.0000
drawdown 203.0000
hold SPY 100 169.0000
"""
# At the end of the program its count of calls goes to the descriptor of the variable TOLD.
REFUSING = r"""
#define _GNU_SOURCE
#include <dlfcn.h>
#include <errno.h>
#include <stddef.h>
#include <stdio.h>
#include <stdlib.h>
#include <unistd.h>

extern void *__libc_malloc(size_t);
extern void *__libc_calloc(size_t, size_t);
extern void *__libc_realloc(void *, size_t);
extern void *__libc_memalign(size_t, size_t);

static long calls;
static long refused;
static int started;

static int refuses(void) {
    if (!started) {
        const char *number = getenv("REFUSED");
        started = 1;
        refused = number ? atol(number) : 0;
    }
    calls += 1;
    if (calls != refused) return 0;
    errno = ENOMEM;
    return 1;
}

void *malloc(size_t size) { return refuses() ? NULL : __libc_malloc(size); }
void *calloc(size_t count, size_t size) { return refuses() ? NULL : __libc_calloc(count, size); }
void *realloc(void *old, size_t size) { return refuses() ? NULL : __libc_realloc(old, size); }
void *memalign(size_t align, size_t size) { return refuses() ? NULL : __libc_memalign(align, size); }
void *aligned_alloc(size_t align, size_t size) { return refuses() ? NULL : __libc_memalign(align, size); }
int posix_memalign(void **out, size_t align, size_t size) {
    if (refuses()) return ENOMEM;
    *out = __libc_memalign(align, size);
    return *out ? 0 : ENOMEM;
}

__attribute__((destructor)) static void tell(void) {
    char text[32];
    int length = snprintf(text, sizeof text, "%ld\n", calls);
    const char *told = getenv("TOLD");
    if (told && write(atoi(told), text, length) != length) _exit(99);
}
"""


def hours():
    segment = '[{"start": "09:30:00", "end": "16:00:00", "state": "market"}]'
    days = ", ".join(f'"{day}": {segment}' for day in ("monday", "tuesday", "wednesday", "thursday", "friday"))
    return f'{{"entries": {{"Equity-usa-[*]": {{{days}}}}}}}'


def minutes(price):
    return "".join(f"{minute * 60000},{price},{price},{price},{price},1000\n" for minute in range(570, 960))


def files():
    """The files of the backtest, by their paths."""
    found = {"a.toml": PLAN, "market-hours/market-hours-database.json": hours()}
    for day, price in PRICES.items():
        found[f"equity/usa/minute/spy/{day}_spy_minute_trade.csv"] = minutes(price)
    return found


def write_files(folder):
    for path, text in files().items():
        (folder / path).parent.mkdir(parents=True, exist_ok=True)
        (folder / path).write_text(text)


def refused_by_library(program, library, folder, number):
    """The status, the output and the number of allocations where one of these is refused."""
    counts, counted = os.pipe()
    environment = {**os.environ, "LD_PRELOAD": str(library), "REFUSED": str(number), "TOLD": str(counted)}
    done = subprocess.run(
        [program, *WORDS], cwd=folder, env=environment, pass_fds=[counted], capture_output=True, text=True
    )
    os.close(counted)
    with os.fdopen(counts) as told:
        return done.returncode, done.stdout, int(told.read().split()[-1])


def refused_by_try(folder, number):
    """The status and the output under `rt try`."""
    data = [word for path in files() for word in ("--data", f"{path}={folder / path}")]
    command = ["rt", "try", "--fail-alloc", str(number), *data, "--", *WORDS]
    done = subprocess.run(command, cwd=TOP / "crates/lean", capture_output=True, text=True)
    ended = re.search(r"status=(\d+)", done.stderr)
    if ended is None:
        raise SystemExit(done.stderr)
    return int(ended[1]), done.stdout


def judged(number, status, printed):
    """Whether a refusal came to what it is to come to."""
    if status == NO_MEMORY and REPORT.startswith(printed):
        return True
    print(f"allocation {number}: status {status}, {printed!r}")
    return False


def every(program, folder):
    """Refuses each allocation in turn by a library."""
    source, library = folder / "refusing.c", folder / "refusing.so"
    source.write_text(REFUSING)
    subprocess.run(["cc", "-O1", "-shared", "-fPIC", "-o", library, source], check=True)
    status, printed, count = refused_by_library(program, library, folder, 0)
    if (status, printed) != (0, REPORT):
        raise SystemExit(f"nothing refused: status {status}, {printed!r}")
    fronts, well = collections.Counter(), 0
    for number in range(1, count + 1):
        status, printed, _ = refused_by_library(program, library, folder, number)
        well += judged(number, status, printed)
        fronts[printed.count("\n")] += 1
    print(f"{count} allocations, of which {well} end with status {NO_MEMORY} and a front of the report when they are refused")
    for lines, times in sorted(fronts.items()):
        print(f"{times} with {lines} lines")
    return well == count


def some(numbers, folder):
    """Refuses some allocations by `rt try`."""
    well = 0
    for number in numbers:
        status, printed = refused_by_try(folder, number)
        good = judged(number, status, printed)
        well += good
        if good:
            print(f"allocation {number}: status {status}, {len(printed.splitlines())} lines")
    return well == len(numbers)


def main(words):
    with tempfile.TemporaryDirectory() as name:
        folder = pathlib.Path(name)
        write_files(folder)
        if words[:1] == ["--try"]:
            well = some([int(word) for word in words[1:]], folder)
        else:
            program = pathlib.Path(words[0] if words else TOP / "crates/lean/out/lean").resolve()
            well = every(program, folder)
    raise SystemExit(0 if well else 1)


if __name__ == "__main__":
    main(sys.argv[1:])
