"""A year of hours, and a test by slices, by engines of several processes, dask's cluster and MPI's pool: what
one thread gives."""

import importlib.util
import pickle
import random
import shutil
import subprocess
import sys
import unittest
from datetime import date, timedelta

from support import ENVIRONMENT, SEED, FolderTest, draw_book, draw_grid, draw_prices
from test_large import drawn
import crr
from crr.dense import read_dense, write_dense
from crr.sliced_test import test_sliced as sliced

# Run by a Python of its own, since the engines' processes look at the script that started them; MPI's are all
# started beforehand, and lent to the pool of the first.
SCRIPT = """
import os, pickle, sys

def by_dask(task, arguments, folder):
    from distributed import Client, LocalCluster

    place = dict(local_directory=folder, dashboard_address=None)
    with LocalCluster(n_workers=2, threads_per_worker=1, processes=True, **place) as cluster:
        with Client(cluster) as client:
            workers = set(client.run(os.getpid).values()) - {os.getpid()}
            return len(workers), task(*arguments, executor=client.get_executor(), parts=12)

def by_mpi(task, arguments, folder):
    from mpi4py.MPI import COMM_WORLD
    from mpi4py.futures import MPIPoolExecutor

    with MPIPoolExecutor() as engine:
        return COMM_WORLD.Get_size() - 1, task(*arguments, executor=engine, parts=12)

if __name__ == "__main__":
    engine, folder = sys.argv[1:]
    with open(os.path.join(folder, "asked"), "rb") as file:
        asked = pickle.load(file)
    given = globals()[engine](*asked, folder)
    with open(os.path.join(folder, "given"), "wb") as file:
        pickle.dump(given, file)
"""
# Open MPI asks for leave to run as root, and for more processes than cores.
MPI = {
    "OMPI_ALLOW_RUN_AS_ROOT": "1",
    "OMPI_ALLOW_RUN_AS_ROOT_CONFIRM": "1",
    "OMPI_MCA_rmaps_base_oversubscribe": "1",
}


def lacking(*modules):
    return ", ".join(name for name in modules if importlib.util.find_spec(name) is None)


NO_DASK = lacking("distributed") and "dask's distributed is not installed"
NO_MPI = "" if shutil.which("mpiexec") and not lacking("mpi4py") else "mpi4py or mpiexec is not installed"


def make_year():
    """(grid, book, 8,760 price files), the files few and often the same, which nobody can tell."""
    rng = random.Random(SEED)
    grid, book = draw_grid(rng, 20, 8)[0], draw_book(rng, 20, 50)[0]
    drawn = [draw_prices(rng, 8)[0] for _ in range(100)]
    days = [(date(2026, 1, 1) + timedelta(days=n)).isoformat() for n in range(365)]
    hours = [crr.PriceFile(day, hour, rng.choice(drawn)) for day in days for hour in range(1, 25)]
    return grid, book, hours


class Engines(FolderTest):
    """Tasks that a Python of its own shares out, and what they give."""

    def given_by(self, engine, command, task, *arguments):
        (self.folder / "asked").write_bytes(pickle.dumps((task, arguments)))
        (self.folder / "script.py").write_text(SCRIPT)
        done = subprocess.run(
            [*command, self.folder / "script.py", engine, self.folder],
            env={**ENVIRONMENT, **MPI},
            stdout=subprocess.PIPE,
            stderr=subprocess.STDOUT,
            timeout=300,
        )
        self.assertEqual(done.returncode, 0, done.stdout.decode())
        return pickle.loads((self.folder / "given").read_bytes())

    def by_dask(self, task, *arguments):
        return self.given_by("by_dask", [sys.executable], task, *arguments)

    def by_mpi(self, task, *arguments):
        python = ["mpiexec", "-n", "3", sys.executable, "-m", "mpi4py.futures"]
        return self.given_by("by_mpi", python, task, *arguments)


class Year(Engines):
    @classmethod
    def setUpClass(cls):
        cls.year = make_year()
        cls.alone = crr.settle_hours(*cls.year)

    def test_it_is_a_year(self):
        self.assertEqual((len(self.alone.hours), len(self.alone.months)), (8760, 12))
        self.assertEqual(len({hour.sum for hour in self.alone.hours}) > 50, True)

    @unittest.skipIf(NO_DASK, NO_DASK)
    def test_dask(self):
        self.assertEqual(self.by_dask(crr.settle_hours, *self.year), (2, self.alone))

    @unittest.skipIf(NO_MPI, NO_MPI)
    def test_mpi(self):
        self.assertEqual(self.by_mpi(crr.settle_hours, *self.year), (2, self.alone))


class Market(Engines):
    """More constraints and contracts than a call takes, tested by slices: blocks handed over as bytes, and by
    their places in a packed case."""

    @classmethod
    def setUpClass(cls):
        cls.case = drawn(random.Random(SEED), 40, 900, 1500)
        cls.alone = sliced(cls.case)

    def packed(self):
        write_dense(self.case, self.folder / "packed", False)
        return read_dense(self.folder / "packed")

    def test_it_is_larger(self):
        self.assertEqual(len(self.alone.flows[1]), 900)
        self.assertEqual({verdict.passed for verdict in self.alone.verdicts.values()}, {False})

    @unittest.skipIf(NO_DASK, NO_DASK)
    def test_dask(self):
        self.assertEqual(self.by_dask(sliced, self.case), (2, self.alone))
        self.assertEqual(self.by_dask(sliced, self.packed()), (2, self.alone))

    @unittest.skipIf(NO_MPI, NO_MPI)
    def test_mpi(self):
        self.assertEqual(self.by_mpi(sliced, self.case), (2, self.alone))
        self.assertEqual(self.by_mpi(sliced, self.packed()), (2, self.alone))


if __name__ == "__main__":
    unittest.main()
