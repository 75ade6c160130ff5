"""Times a year of hours of the largest case on one core, from bin files and from CSV, and a larger book by
slices. Not a test: run it by hand.

Usage: year.py [FOLDER]   where the year's files are made and kept (a temporary folder, if none is named)
"""

import random
import sys
import tempfile
import time
from array import array
from datetime import date, timedelta
from pathlib import Path

from support import SEED, command, draw_book, draw_grid, draw_prices
import crr
from crr.case import Case, Names, PricedHour
from crr.clock import hours_in
from crr.files import Contract
from crr.packed import read_packed
from crr.slices import cut, settle_sliced

AS_GIVEN = ("--time-of-use", "as-given")  # periods are drawn


def make(folder):
    """8,760 price files, 200 nodes, 64 constraints, 1,000 contracts."""
    rng = random.Random(SEED)
    (folder / "prices").mkdir(parents=True)
    (folder / "grid.bin").write_bytes(draw_grid(rng, 200, 64)[0])
    (folder / "book.bin").write_bytes(draw_book(rng, 200, 1000)[0])
    for n in range(365):
        day = (date(2026, 1, 1) + timedelta(days=n)).isoformat()
        (folder / "prices" / day).mkdir()
        for hour in range(1, hours_in(day) + 1):
            (folder / "prices" / day / f"HE{hour:02}.bin").write_bytes(draw_prices(rng, 64)[0])


def timed(what, function, rounds=5):
    best = cpu = float("inf")
    for _ in range(rounds):
        start, cpu_start = time.perf_counter(), time.process_time()
        result = function()
        best, cpu = min(best, time.perf_counter() - start), min(cpu, time.process_time() - cpu_start)
    print(f"{what}: {best:.2f} s by the clock, {cpu:.2f} s of one core (best of {rounds})", flush=True)
    return result


def larger(nodes, constraints, contracts, hours, priced):
    """A case beyond the library's sizes. Seven sinks in ten are one of 20 hubs, as books have them."""
    rng = random.Random(SEED)
    hubs = rng.sample(range(nodes), 20)
    book = []
    for _ in range(contracts):
        source, sink = rng.sample(range(nodes), 2)
        if rng.random() < 0.7:
            sink = rng.choice([hub for hub in hubs if hub != source])
        book.append(
            Contract(
                int(rng.random() < 0.1), int(rng.random() < 0.6), 0, source, sink, rng.randint(1, 50_000)
            )
        )
    factors = array("q", [rng.randint(-60_000, 60_000) for _ in range(nodes * constraints)])
    out = []
    for hour in range(hours):
        prices = array("Q", bytes(8 * constraints))
        for k in rng.sample(range(constraints), priced):
            prices[k] = rng.randint(1, 20_000)
        out.append(PricedHour("2026-01-01", 1 + hour, 1, prices))
    names = Names(
        [str(n) for n in range(nodes)],
        [str(k) for k in range(constraints)],
        [str(i) for i in range(contracts)],
        {},
    )
    return Case(names, array("Q", bytes(8 * constraints)), factors, book, out)


def main(folder):
    case = larger(2000, 500, 20_000, 24, 40)
    print(
        f"20,000 contracts, 2,000 nodes, 500 constraints of which 40 are priced: {len(cut(case.book))} slices"
    )
    timed("settle_sliced on 24 hours of these", lambda: settle_sliced(case), 3)
    if not (folder / "grid.bin").exists():
        make(folder)

    def settle():
        files = read_packed(folder)
        return crr.settle_hours(files.grid, files.book, files.hours)

    settled = timed("settle_hours on a folder of 8,760 price files", settle)
    assert len(settled.hours) == 8760 and settled.sum == sum(settled.cents)
    if not (folder / "csv").exists():
        timed("crr unpack", lambda: command("unpack", folder, "-o", folder / "csv"), 1)
    rows = sum(1 for _ in open(folder / "csv" / "prices.csv")) - 1
    on_csv = (folder / "csv", *AS_GIVEN)
    timed(f"crr check on CSV files with {rows:,} rows of prices", lambda: command("check", *on_csv), 2)
    timed("crr settle on these CSV files", lambda: command("settle", *on_csv), 2)
    timed(
        "crr pack on these CSV files, read back and compared",
        lambda: command("pack", *on_csv, "-o", folder / "bin"),
        1,
    )


if __name__ == "__main__":
    if len(sys.argv) > 1:
        main(Path(sys.argv[1]))
    else:
        with tempfile.TemporaryDirectory() as held:
            main(Path(held))
