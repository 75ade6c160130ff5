#!/usr/bin/env python3
"""`crr test` on a market's CSV files, by engine: a row of a table for each, with the seconds of a core of all
its processes, those by the clock, the largest process and the machine's load. The files are those of
market.py. dask's distributed and mpi4py where they are asked for.

Usage: market_engines.py test FOLDER [ENGINE ..]                  on a folder of CSV files, or a packed case
       market_engines.py row ENGINE NODES CONSTRAINTS CONTRACTS   on a case made in TMPDIR and removed again
Engines: one, two (processes, -j 2), dask (two workers), mpi (two, and the process that hands out).

All engines must print the same table. `crr test` knows processes alone: for dask and MPI the pool that it
shares blocks among is put in the processes' place, in the process that is measured.
"""

import os
import subprocess
import sys
import tempfile
import time
from contextlib import contextmanager
from pathlib import Path

ROOT = Path(__file__).resolve().parents[1]
SOURCES = ROOT / "python" / "src"
ENGINES = ("one", "two", "dask", "mpi")
# Open MPI asks for leave to run as root, and for more processes than cores. Each process has one thread.
ENVIRONMENT = {
    **os.environ,
    "PYTHONPATH": str(SOURCES),
    "OMPI_ALLOW_RUN_AS_ROOT": "1",
    "OMPI_ALLOW_RUN_AS_ROOT_CONFIRM": "1",
    "OMPI_MCA_rmaps_base_oversubscribe": "1",
}


@contextmanager
def by_dask(_jobs):
    """Two workers. A pure task would be named by a hash of all that is handed to it."""
    from distributed import Client

    with Client(n_workers=2, threads_per_worker=1, dashboard_address=None) as client:
        yield client.get_executor(pure=False)


@contextmanager
def by_mpi(_jobs):
    """The processes that mpiexec started, but the first."""
    from mpi4py.futures import MPIPoolExecutor

    with MPIPoolExecutor() as engine:
        yield engine


def run_shared(engine, arguments):
    """The command, its blocks shared out by another engine than processes. A book that fails is no failure
    here: mpiexec would end the other processes before their seconds are counted."""
    import crr.large
    from crr.cli import main as crr_main

    crr.large.workers = {"dask": by_dask, "mpi": by_mpi}[engine]
    status = crr_main(arguments)
    return 0 if status == 1 else status


def words(engine, folder):
    """The command line that tests a folder by an engine."""
    test = ["test", str(folder)]
    if engine in ("one", "two"):
        return [sys.executable, "-m", "crr", *test, *(["-j", "2"] if engine == "two" else [])]
    shared = [__file__, "shared", engine, *test, "--memory", "0"]  # blocks by their places in a file
    if engine == "mpi":
        return ["mpiexec", "-n", "3", sys.executable, "-m", "mpi4py.futures", *shared]
    return [sys.executable, *shared]


def measured(command):
    """What a command printed, the seconds of a core that it and its processes took, those by the clock, and
    the memory of the largest of them in MB."""
    start = time.perf_counter()
    with tempfile.TemporaryFile() as out, tempfile.TemporaryFile() as err:
        started = subprocess.Popen(command, env=ENVIRONMENT, stdout=out, stderr=err)
        _, status, used = os.wait4(started.pid, 0)
        taken = time.perf_counter() - start
        started.returncode = os.waitstatus_to_exitcode(status)
        for file in (out, err):
            file.seek(0)
        printed, said = out.read(), err.read()
    if started.returncode not in (0, 1):
        sys.exit(f"{' '.join(map(str, command))}\n{said.decode()}")
    return printed, used.ru_utime + used.ru_stime, taken, used.ru_maxrss // 1000


def test(folder, engines, what=""):
    """A row for each engine."""
    tables = set()
    for engine in engines:
        load = os.getloadavg()[0]
        printed, core, clock, peak = measured(words(engine, folder))
        tables.add(printed)
        print(f"| {what}{engine} | {core:.1f} | {clock:.1f} | {peak:,} MB | {load:.1f} |", flush=True)
    assert len(tables) == 1, "the engines differ"


def row(engine, sizes):
    """One row, on a case of these sizes."""
    import market

    with tempfile.TemporaryDirectory(prefix="crr-market-") as folder:
        market.make(Path(folder) / "case", sizes)
        test(Path(folder) / "case", [engine], " × ".join(f"{size:,}" for size in sizes) + ", ")


def main(asked):
    if asked[:1] == ["shared"]:
        return run_shared(asked[1], asked[2:])
    if asked[:1] == ["test"] and len(asked) > 1 and set(asked[2:]) <= set(ENGINES):
        test(Path(asked[1]), asked[2:] or ENGINES)
    elif asked[:1] == ["row"] and len(asked) == 5 and asked[1] in ENGINES:
        row(asked[1], [int(size) for size in asked[2:]])
    else:
        sys.exit(__doc__)
    return 0


if __name__ == "__main__":
    sys.exit(main(sys.argv[1:]))
