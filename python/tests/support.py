"""What the tests share: inputs drawn at random and packed by a second, plain implementation; the rules by
fractions; the command run in this process."""

from __future__ import annotations

import io
import os
import random
import signal
import stat
import subprocess
import sys
import tempfile
import unittest
from contextlib import redirect_stderr, redirect_stdout
from fractions import Fraction
from pathlib import Path

ROOT = Path(__file__).resolve().parents[2]
sys.path[:0] = [str(ROOT / "python" / "src")]
SEED = int(os.environ.get("CRR_SEED", "1"))
CASE_L = ROOT / "examples" / "case-l"
IEEE14 = ROOT / "examples" / "ieee14"
# What is told of its hours: 31 July and 1 August, a Friday and a Saturday.
IEEE14_HOURS = (
    "2026-07: 16 of 416 on-peak and 8 of 328 off-peak hours; not whole\n"
    "2026-08: 16 of 416 on-peak and 8 of 328 off-peak hours; not whole\n"
)
MIGRATION = ROOT / "examples" / "migration"
ENVIRONMENT = {**os.environ, "PYTHONPATH": str(ROOT / "python" / "src")}


def bits(fields):
    """Fields (width, value) packed most significant bit first, zero bits to the byte's end."""
    number = length = 0
    for width, value in fields:
        number, length = number << width | value & (1 << width) - 1, length + width
    padding = -length % 8
    return (number << padding).to_bytes((length + padding) // 8, "big")


def draw_grid(rng, nodes, constraints):
    """(file, limits, factors)"""
    limits = [rng.randint(0, 100_000_000) for _ in range(constraints)]
    factors = [rng.randint(-100_000, 100_000) for _ in range(nodes * constraints)]
    header = [(8, nodes), (7, constraints), (1, 0)]
    return (
        bits(header + [(27, limit) for limit in limits] + [(18, factor) for factor in factors]),
        limits,
        factors,
    )


def draw_book(rng, nodes, contracts):
    """(file, rows): source and sink differ."""
    rows = []
    for _ in range(contracts):
        source, sink = rng.sample(range(nodes), 2)
        rows.append(
            (
                rng.randint(0, 1),
                rng.randint(0, 1),
                rng.randint(0, 1023),
                source,
                sink,
                rng.randint(1, 1_000_000),
            )
        )
    fields = [field for row in rows for field in zip((1, 1, 10, 8, 8, 20), row)]
    return bits([(10, contracts), (6, 0)] + fields), rows


def draw_prices(rng, constraints):
    """(file, period, prices), most of them 0."""
    prices = [0 if rng.random() < 0.7 else rng.randint(0, 500_000) for _ in range(constraints)]
    period = rng.randint(0, 1)
    return bits([(1, period), (7, constraints)] + [(19, price) for price in prices]), period, prices


def half_away(number):
    """A fraction to the nearest whole number, a half away from zero."""
    over, under = number.numerator, number.denominator
    size = (2 * abs(over) + under) // (2 * under)
    return size if over >= 0 else -size


def amounts(rows, factors, constraints, period, prices):
    """The exact amount in cents of each contract in an hour; 0 for the other period's. Sums are in 10^-8
    cents, and nothing is lost in them."""
    nodes = (
        len(factors) // constraints
        if constraints
        else 1 + max([0] + [end for row in rows for end in row[3:5]])
    )
    posted = [k for k in range(constraints) if prices[k]]
    mcc = [-sum(factors[n * constraints + k] * prices[k] for k in posted) for n in range(nodes)]
    out = []
    for kind, time_of_use, _, source, sink, quantity in rows:
        amount = (mcc[sink] - mcc[source]) * quantity if time_of_use == period else 0
        out.append(Fraction(max(0, amount) if kind else amount, 10**8))
    return out


def flows(rows, factors, constraints, period):
    """The flow on each constraint in 10^-8 MW, as contracts count."""
    out = [0] * constraints
    for kind, time_of_use, _, source, sink, quantity in rows:
        for k in range(constraints):
            flow = (factors[source * constraints + k] - factors[sink * constraints + k]) * quantity
            if time_of_use == period and (flow > 0 or not kind):
                out[k] += flow
    return out


def command(*arguments):
    """(exit status, standard output, standard error) of the command, run here."""
    from crr.cli import main

    out, err = io.StringIO(), io.StringIO()
    with redirect_stdout(out), redirect_stderr(err):
        try:
            status = main([str(argument) for argument in arguments])
        except SystemExit as left:
            status = left.code
    return status, out.getvalue(), err.getvalue()


def started(*arguments, **options):
    """The command in a process of its own."""
    given = dict(stdout=subprocess.PIPE, stderr=subprocess.PIPE, env=ENVIRONMENT)
    # a job in the background ignores it
    given["preexec_fn"] = lambda: signal.signal(signal.SIGINT, signal.SIG_DFL)
    return subprocess.Popen([sys.executable, "-m", "crr", *map(str, arguments)], **{**given, **options})


def everything(folder):
    """What stands below a folder, with what it is: a link's text, a file's bytes."""
    contents_of = {}
    for path in sorted(folder.rglob("*")):
        name = str(path.relative_to(folder))
        if path.is_symlink():
            contents_of[name] = ("link", os.readlink(path))
        else:
            contents_of[name] = path.read_bytes() if path.is_file() else stat.S_IFMT(path.stat().st_mode)
    return contents_of


def contents(folder):
    """Every file below a folder, by name."""
    return {
        str(path.relative_to(folder)): path.read_bytes()
        for path in sorted(Path(folder).rglob("*"))
        if path.is_file()
    }


class FolderTest(unittest.TestCase):
    """A test with a folder of its own."""

    def setUp(self):
        held = tempfile.TemporaryDirectory()
        self.addCleanup(held.cleanup)
        self.folder = Path(held.name)
        self.rng = random.Random(SEED)
