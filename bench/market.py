#!/usr/bin/env python3
"""A market's size: makes a seeded case of 10,000 nodes, 5,000 constraints and 100,000 contracts, and times
the test of it by slices, beside what numpy and scipy take for the same flows. Needs numpy and scipy; dask
where it is installed.

market_engines.py beside it times `crr test` on the CSV files by engine.

Usage: market.py beside [NODES CONSTRAINTS CONTRACTS]        the test, beside numpy and scipy
       market.py grow                                        growth with contracts and with constraints
       market.py make FOLDER [NODES CONSTRAINTS CONTRACTS]   the case's CSV files
       market.py pack FOLDER [NODES CONSTRAINTS CONTRACTS]   the case packed, as crr pack has it, without them
       market.py time FOLDER                                 the commands on them

Contracts are of 100 MW, so that every flow is a whole number of thousandths of a MW, and each limit is the
on-peak flow itself (10 MW where that is negative): on-peak and monthly, the book stands at its limits and
passes; one thousandth of a MW more fails. CRR_SEED draws another case.
"""

import os
import resource
import subprocess
import sys
import time
from array import array
from dataclasses import replace
from pathlib import Path

import numpy as np

ROOT = Path(__file__).resolve().parents[1]
sys.path.insert(0, str(ROOT / "python" / "src"))
from crr.blocks import MEMORY, Blocks  # noqa: E402
from crr.case import Case, Names  # noqa: E402
from crr.dense import write_dense  # noqa: E402
from crr.files import Contract  # noqa: E402
from crr.sliced_test import test_sliced  # noqa: E402

SEED = int(os.environ.get("CRR_SEED", "1"))
MARKET = (10_000, 5_000, 100_000)  # nodes, constraints, contracts
ON, MONTHLY, HUBS = 1, 2, 1000
ENVIRONMENT = {**os.environ, "PYTHONPATH": str(ROOT / "python" / "src")}


def draw(nodes, constraints, contracts):
    """Factors, two in five of them 0, and a book: one in ten an option, six in ten on-peak, seven sinks in
    ten one of 1,000 hubs."""
    rng = np.random.default_rng(SEED)
    factors = np.rint(np.clip(rng.normal(0, 0.15, (nodes, constraints)), -1, 1) * 1e5).astype(np.int32)
    factors[rng.random((nodes, constraints), dtype=np.float32) < 0.4] = 0
    kind = (rng.random(contracts) < 0.1).astype(np.int64)
    period = (rng.random(contracts) < 0.6).astype(np.int64)
    source = rng.integers(0, nodes, contracts)
    hubs = rng.choice(nodes, min(nodes, HUBS), replace=False)
    anywhere = rng.integers(0, nodes, contracts)
    sink = np.where(rng.random(contracts) < 0.7, rng.choice(hubs, contracts), anywhere)
    sink = np.where(sink == source, (sink + 1) % nodes, sink)
    quantity = np.full(contracts, 100_000)
    return factors, (kind, period, source, sink, quantity)


def chunks(kind, source, sink, quantity):
    """The options, a thousand at a time: their flows count one by one."""
    some = np.flatnonzero(kind)
    for at in range(0, len(some), 1000):
        few = some[at : at + 1000]
        yield source[few], sink[few], quantity[few]


def net(kind, source, sink, quantity, nodes):
    """What obligations put in at each node."""
    amount = np.where(kind == 0, quantity, 0)
    put = np.zeros(nodes, dtype=np.int64)
    np.add.at(put, source, amount)
    np.subtract.at(put, sink, amount)
    return put


def flows_int(factors, book):
    """The on-peak flows in whole numbers: int64 matmul."""
    kind, period, source, sink, quantity = book
    on = period == ON
    kind, source, sink, quantity = kind[on], source[on], sink[on], quantity[on]
    total = net(kind, source, sink, quantity, len(factors)) @ factors.astype(np.int64)
    for start, end, amount in chunks(kind, source, sink, quantity):
        total += amount @ np.maximum(factors[start] - factors[end], 0).astype(np.int64)
    return total


def flows_float(factors, book):
    """The same in MW and floating point, by BLAS."""
    kind, period, source, sink, quantity = book
    on = period == ON
    kind, source, sink, quantity = kind[on], source[on], sink[on], quantity[on] / 1000
    shift = factors / 1e5
    put = np.zeros(len(factors))
    amount = np.where(kind == 0, quantity, 0.0)
    np.add.at(put, source, amount)
    np.subtract.at(put, sink, amount)
    total = put @ shift
    for start, end, amount in chunks(kind, source, sink, quantity):
        total += amount @ np.maximum(shift[start] - shift[end], 0)
    return total


def flows_sparse(factors, book):
    """The same with scipy.sparse: the obligations by a matrix of their ends."""
    from scipy import sparse

    kind, period, source, sink, quantity = book
    on = period == ON
    kind, source, sink, quantity = kind[on], source[on], sink[on], quantity[on] / 1000
    table = sparse.csr_matrix(factors / 1e5)
    some, rows = kind == 0, np.arange(np.count_nonzero(kind == 0))
    size = (len(rows), len(factors))
    ends = sparse.csr_matrix((np.ones(len(rows)), (rows, source[some])), size)
    ends = ends - sparse.csr_matrix((np.ones(len(rows)), (rows, sink[some])), size)
    total = table.T @ (ends.T @ quantity[some])
    for start, end, amount in chunks(kind, source, sink, quantity):
        total += (table[start] - table[end]).maximum(0).T @ amount
    return total


def limits_of(flows):
    """Limits in thousandths of a MW: the flows themselves."""
    return np.where(flows > 0, np.minimum(flows // 10**5, 10**8), 10_000)


def make(folder, sizes):
    """Writes the case's CSV files."""
    factors, book = draw(*sizes)
    limits = limits_of(flows_int(factors, book))
    folder.mkdir(parents=True)
    names = [f"K{k}" for k in range(sizes[1])]
    rows = "".join(f"{name},{limit / 1000:.3f}\n" for name, limit in zip(names, limits))
    (folder / "constraints.csv").write_text("CONSTRAINT_ID,LIMIT_MW\n" + rows)
    texts = [f"{number / 1e5:.5f}" for number in range(-100_000, 100_001)]
    with open(folder / "factors.csv", "w") as file:
        file.write(",".join(["NODE_ID", *names]) + "\n")
        for node, row in enumerate(factors):
            file.write(f"N{node}," + ",".join(map(texts.__getitem__, (row + 100_000).tolist())) + "\n")
    with open(folder / "book.csv", "w") as file:
        file.write("CRR_ID,OWNER,HEDGE_TYPE,TIME_OF_USE,SOURCE,SINK,MW\n")
        for at, (kind, period, source, sink, quantity) in enumerate(zip(*(part.tolist() for part in book))):
            hedge, time_of_use = ("OPT" if kind else "OBL"), ("ON" if period else "OFF")
            ends = f"N{source},N{sink},{quantity // 1000}"
            file.write(f"C{at},Owner {at % 500},{hedge},{time_of_use},{ends}\n")


def used():
    """Seconds of a core that this process and those that it ended took."""
    own, others = (resource.getrusage(who) for who in (resource.RUSAGE_SELF, resource.RUSAGE_CHILDREN))
    return own.ru_utime + own.ru_stime + others.ru_utime + others.ru_stime


def told(what, task):
    """Runs a task and prints its seconds of a core and by the clock."""
    core, start = used(), time.perf_counter()
    result = task()
    taken = (used() - core, time.perf_counter() - start)
    print(f"{what}: {taken[0]:.2f} s of a core, {taken[1]:.2f} s by the clock", flush=True)
    return result


MEASURED = """
import resource, sys
from crr.cli import main
main(sys.argv[1:])
peaks = [resource.getrusage(who).ru_maxrss for who in (resource.RUSAGE_SELF, resource.RUSAGE_CHILDREN)]
print("peak {} MB, of the largest worker {} MB".format(*(peak // 1000 for peak in peaks)), file=sys.stderr)
"""


def command(*arguments):
    """The command in a process of its own; its peak memory is printed."""
    words = [sys.executable, "-c", MEASURED, *map(str, arguments)]
    done = subprocess.run(words, env=ENVIRONMENT, stdout=subprocess.PIPE, stderr=subprocess.PIPE, text=True)
    print("  " + done.stderr.strip().replace("\n", "\n  "), flush=True)
    return done.stdout


def case_of(factors, limits, book, memory=MEMORY):
    """A case of drawn tables, without names that matter, its factors in blocks, held or in a file."""
    nodes, constraints = factors.shape
    names = Names([""] * nodes, [""] * constraints, [""] * len(book[0]))
    rows = [Contract(k, p, 0, s, e, q) for k, p, s, e, q in zip(*(part.tolist() for part in book))]
    cells = array("Q", limits.astype(np.uint64).tobytes())
    blocks = Blocks(cells, memory)
    for row in factors:
        blocks.add(array("q", row.astype(np.int64).tobytes()))
    blocks.close()
    return Case(names, cells, array("q"), rows, blocks=blocks)


def pack(folder, sizes):
    """Writes the case as `crr pack` would of its CSV files."""
    factors, book = draw(*sizes)
    case = case_of(factors, limits_of(flows_int(factors, book)), book)
    names = [[f"{letter}{number}" for number in range(size)] for letter, size in zip("NKC", sizes)]
    write_dense(replace(case, names=Names(*names)), folder, False)


def shared(case):
    """The test of a case by one process, two, and two dask workers; all give the same."""
    from concurrent.futures import ProcessPoolExecutor

    alone = told("test_sliced, one process, two periods, three processes", lambda: test_sliced(case))

    def by_pool():
        with ProcessPoolExecutor(2) as pool:
            return test_sliced(case, executor=pool)

    def by_dask():
        with Client(n_workers=2, threads_per_worker=1, dashboard_address=None) as client:
            # A pure task would be named by a hash of all that is handed to it.
            return test_sliced(case, executor=client.get_executor(pure=False), parts=8)

    assert told("test_sliced, two processes, started and ended", by_pool) == alone
    try:
        from distributed import Client
    except ImportError:
        print("dask's distributed is not installed")
        return alone
    assert told("test_sliced, two dask workers, started and ended", by_dask) == alone
    return alone


def beside(sizes):
    """The test of a drawn case, and the same flows with numpy and scipy: their times, and how many
    constraints floating point judges wrongly where each flow stands at its limit."""
    factors, book = draw(*sizes)
    exact = told("numpy, int64, one period", lambda: flows_int(factors, book))
    limits = limits_of(exact)
    for what, task in (("numpy, float64 by BLAS", flows_float), ("scipy.sparse, float64", flows_sparse)):
        near = told(f"{what}, one period", lambda: task(factors, book))
        wrong = int(np.count_nonzero((near > limits / 1000) != (exact > limits * 10**5)))
        off = float(np.abs(near - exact / 1e8).max())
        print(f"  {wrong:,} of {len(limits):,} constraints judged wrongly; largest error {off:.1e} MW")
    # In a file, as crr test -j has it: processes are handed places, and read what they need.
    case = told("the case in blocks", lambda: case_of(factors, limits, book, memory=0))
    print(f"  {case.blocks.spilled / 1e6:,.0f} MB of factors", flush=True)
    del factors
    tested = shared(case)
    assert tested.flows[ON] == exact.tolist() and tested.verdicts[ON, MONTHLY].passed
    who = (resource.RUSAGE_SELF, resource.RUSAGE_CHILDREN)
    peaks = [resource.getrusage(each).ru_maxrss // 1000 for each in who]
    print(f"peak {peaks[0]:,} MB with the tables of numpy and scipy, of the largest worker {peaks[1]:,} MB")


def timed(folder):
    """The commands on a folder of CSV files: the test, packing, and the test of what was packed."""
    packed = folder.parent / f"{folder.name}-packed"
    first = told("crr test on the CSV files", lambda: command("test", folder))
    told("crr pack", lambda: command("pack", folder, "-o", packed, "--force"))
    assert told("crr test on the packed case", lambda: command("test", packed)) == first
    assert told("crr test -j 2 on the packed case", lambda: command("test", packed, "-j", "2")) == first


def grow():
    """Seconds of a core for the test alone: contracts, then constraints, doubled."""
    factors, book = draw(10_000, 1_280, 100_000)
    sizes = [(320, contracts) for contracts in (25_000, 50_000, 100_000)]
    for constraints, contracts in [*sizes, (640, 100_000), (1_280, 100_000)]:
        some = [part[:contracts] for part in book]
        case = case_of(factors[:, :constraints], np.full(constraints, 10**8), some)
        told(f"{constraints:,} constraints, {contracts:,} contracts", lambda: test_sliced(case))


def main(asked):
    if asked[:1] == ["make"] and len(asked) in (2, 5):
        make(Path(asked[1]), [int(size) for size in asked[2:]] or MARKET)
    elif asked[:1] == ["pack"] and len(asked) in (2, 5):
        pack(Path(asked[1]), [int(size) for size in asked[2:]] or MARKET)
    elif asked[:1] == ["time"] and len(asked) == 2:
        timed(Path(asked[1]))
    elif asked[:1] == ["beside"] and len(asked) in (1, 4):
        beside([int(size) for size in asked[1:]] or MARKET)
    elif asked == ["grow"]:
        grow()
    else:
        sys.exit(__doc__)


if __name__ == "__main__":
    main(sys.argv[1:])
