"""Cases of any size: slices give what the whole gives, every engine the same, streamed files what held ones
give, and a packed case what its CSV files give."""

import json
import random
import unittest
from array import array
from concurrent.futures import ProcessPoolExecutor, ThreadPoolExecutor
from dataclasses import replace
from unittest import mock

from support import IEEE14, SEED, FolderTest, command, flows
import crr
from crr import blocks, sliced_test, slices, streamed
from crr.case import Case, Names
from crr.files import Contract
from crr.from_csv import load
from crr.large import judged, large_cuts
from crr.sliced_test import test_sliced as sliced
from crr.to_csv import write_csv
from crr.words import Period, Process


def drawn(rng, nodes, constraints, contracts, tight=True):
    """A case whose limits are near its flows, so that some are exceeded."""
    factors = array("q", [rng.randint(-100_000, 100_000) for _ in range(nodes * constraints)])
    book = [
        Contract(rng.randint(0, 1), rng.randint(0, 1), 0, *rng.sample(range(nodes), 2), rng.randint(1, 10**6))
        for _ in range(contracts)
    ]
    full = [flows(book, factors, constraints, period) for period in Period] if tight else []
    limits = [max(0, *(flow[k] for flow in full)) // 10**5 for k in range(constraints)] if tight else []
    limits = [min(10**8, limit + rng.choice((-1, 0, 1, 5000))) for limit in limits] or [5000] * constraints
    names = Names(
        [f"N{n}" for n in range(nodes)],
        [f"K{k}" for k in range(constraints)],
        [str(i) for i in range(contracts)],
    )
    return Case(names, array("Q", [max(0, limit) for limit in limits]), factors, book)


class Slices(FolderTest):
    def test_as_the_whole(self):
        """A small case cut into random slices and blocks gives what the library gives of the whole."""
        for _ in range(40):
            sizes = (self.rng.randint(2, 30), self.rng.randint(0, 20), self.rng.randint(0, 60))
            case = drawn(self.rng, *sizes)
            with mock.patch.object(slices, "MAX_CONTRACTS", self.rng.randint(1, 20)), mock.patch.object(
                blocks, "MAX_CONSTRAINTS", self.rng.randint(1, 9)
            ), mock.patch.object(blocks, "PIECE_NODES", self.rng.randint(1, 9)):
                tested = sliced(case)
            book = crr.write_book(sizes[0], case.book)
            for (period, process), verdict in tested.verdicts.items():
                self.assertEqual(verdict, crr.test_book(case.grid, book, process, period))
            for period in Period:
                found = crr.find_flows(case.grid, book, period)
                self.assertEqual((tested.flows[period], tested.counted[period]), (found.flows, found.counted))

    def test_larger_than_the_library(self):
        case = drawn(self.rng, 300, 150, 2300)
        tested = sliced(case)
        for period in Period:
            self.assertEqual(tested.flows[period], flows(case.book, case.factors, 150, period))
        for (period, process), verdict in tested.verdicts.items():
            percent = crr.released_percent(process)
            over = [f - limit * percent * 1000 for f, limit in zip(tested.flows[period], case.limits)]
            listed = [k for k, excess in enumerate(over) if excess > 0]
            self.assertEqual((list(verdict.overloaded), verdict.count), (listed, len(listed)))
            self.assertEqual(verdict.passed, not listed)
            if listed:
                self.assertEqual((verdict.lowest, verdict.excess), (listed[0], over[listed[0]]))

    def test_engines_agree(self):
        case = drawn(self.rng, 60, 200, 1500)
        alone = sliced(case)
        steps = []
        for engine in (ThreadPoolExecutor(2), ProcessPoolExecutor(2)):
            with engine:
                for parts in (1, 3, 100):
                    told = sliced(case, executor=engine, parts=parts, progress=lambda *at: steps.append(at))
                    self.assertEqual(told, alone)
        self.assertEqual(steps[-1], (4, 4))

    def test_dask(self):
        try:
            from distributed import Client
        except ImportError:
            self.skipTest("dask's distributed is not installed")
        case = drawn(self.rng, 30, 130, 1200)
        with Client(n_workers=1, threads_per_worker=2, processes=False, dashboard_address=None) as client:
            self.assertEqual(sliced(case, executor=client.get_executor(), parts=3), sliced(case))

    def test_no_contract_and_no_constraint(self):
        for constraints, contracts in ((70, 0), (0, 1100)):
            tested = sliced(drawn(self.rng, 5, constraints, contracts))
            self.assertTrue(all(verdict.passed for verdict in tested.verdicts.values()))


class Cuts(FolderTest):
    def test_as_the_library_s(self):
        listed = 0
        for _ in range(60):
            case = drawn(self.rng, self.rng.randint(2, 12), self.rng.randint(1, 12), self.rng.randint(1, 25))
            if self.rng.random() < 0.7:  # one constraint that is overloaded a little
                case = replace(case, limits=array("Q", [10**8] * len(case.limits)))
                k, period = self.rng.randrange(len(case.limits)), self.rng.choice(list(Period))
                flow = flows(case.book, case.factors, len(case.limits), period)[k]
                case.limits[k] = max(0, flow // 10**5 - self.rng.randint(1, 300))
            book = crr.write_book(len(case.names.nodes), case.book)
            for line, verdict in judged(case, list(Period), list(Process)).items():
                if not verdict.passed:
                    cuts = crr.find_cuts(case.grid, book, line[1], line[0])
                    self.assertEqual(large_cuts(case, line, verdict), cuts)
                    listed += len(cuts)
        self.assertGreater(listed, 50)


class Factors(FolderTest):
    """The factors of a grid in blocks, held and in a temporary file."""

    def test_columns_and_rows(self):
        case = drawn(self.rng, 1005, 70, 0, tight=False)
        for memory in (10**9, 200_000, 0):
            made = blocks.blocks_of(case.limits, case.factors, 1005, memory)
            self.assertEqual(made.held <= memory, True)
            self.assertEqual(made.held + made.spilled, sum(self.sizes(made)))
            numbers = (0, 3, 63, 64, 69)
            columns = made.columns(numbers)
            self.assertEqual({k: case.factors[k::70] for k in numbers}, columns)
            rows = made.blocks[1].rows()
            self.assertEqual(array("q", rows[1004]), case.factors[1004 * 70 + 64 : 1005 * 70])

    def sizes(self, made):
        return [len(blocks.bytes_of(piece)) for block in made.blocks for piece in block.pieces]

    def test_a_worker_reads_the_file(self):
        case = drawn(self.rng, 30, 140, 1100)
        large = replace(case, blocks=blocks.blocks_of(case.limits, case.factors, 30, 0), factors=array("q"))
        self.assertGreater(large.blocks.spilled, 0)
        with ProcessPoolExecutor(1) as pool:
            self.assertEqual(sliced(large, executor=pool), sliced(case))


class Command(FolderTest):
    """A folder of CSV files larger than the library's sizes."""

    def setUp(self):
        super().setUp()
        self.case = drawn(random.Random(SEED), 20, 70, 1100)
        self.where = self.folder / "case"
        write_csv(self.case, self.where)
        (self.where / "names.csv").unlink()

    def streamed(self):
        """As if factors.csv were large."""
        return mock.patch.object(streamed, "STREAM_BYTES", 10)

    def test_the_table(self):
        status, out, err = command("test", self.where)
        tested = sliced(self.case)
        rows = [line.split(",") for line in out.splitlines()[1:]]
        self.assertEqual(status, 1)
        for row, verdict in zip(rows, tested.verdicts.values()):
            said = [f"K{k}" for k in verdict.overloaded]
            self.assertEqual((row[2], int(row[3])), ("fail" if said else "pass", len(said)))
            if said:
                self.assertEqual((row[4], row[8].split("; ")), (said[0], said))
        self.assertEqual(
            err,
            "tested by slices: 2 blocks of at most 64 constraints; "
            "what an hour costs at worst is told up to 64 constraints\n",
        )

    def test_streamed_and_shared(self):
        held = command("test", self.where)
        shared = command("test", self.where, "-j", "2")
        self.assertEqual(shared, held)
        with self.streamed():
            for memory, where in (("1000", "0 MB in memory"), ("0", "0 MB in a temporary file")):
                status, out, err = command("test", self.where, "--memory", memory)
                self.assertEqual((status, out), held[:2])
                self.assertIn(f"; factors: {where}; ", err)
            self.assertEqual(command("test", self.where, "-j", "2")[:2], held[:2])

    def test_streamed_is_held(self):
        with self.streamed():
            large, _ = load(self.where, any_size=True)
        self.assertEqual((large.names.nodes, large.limits), (self.case.names.nodes, self.case.limits))
        self.assertEqual(large.columns([5, 69]), self.case.columns([5, 69]))
        self.assertEqual(large.inputs, load(self.where, any_size=True)[0].inputs)

    def test_faults_of_a_streamed_file(self):
        path = self.where / "factors.csv"
        text = path.read_text()
        lines = text.splitlines()
        cells = lines[3].split(",")
        for changed in (
            text.replace(lines[3], lines[3] + ",1"),
            text.replace(lines[3], ",".join([*cells[:2], "1.000001", *cells[3:]])),
            text.replace(lines[3], ",".join([*cells[:2], "x", *cells[3:]])),
            text.replace(lines[3], ",".join([*cells[:2], '"1"2', *cells[3:]])),
            text.replace("NODE_ID", "OTHER"),
            text.replace(",K1,", ",K0,"),
            text.replace(lines[3], lines[2]),
        ):
            path.write_text(changed)
            held = command("test", self.where)
            self.assertEqual(held[0], 2, held)
            with self.streamed():
                self.assertEqual(command("test", self.where), held)
        path.write_bytes(text.replace("N3,", "N\xe9,").encode("latin-1"))
        with self.streamed():
            self.assertIn("factors.csv:5:NODE_ID: not UTF-8: the byte 0xe9", command("test", self.where)[2])
        path.write_bytes(text.encode("utf-16"))
        with self.streamed():
            self.assertIn("factors.csv:1:NODE_ID: UTF-16", command("test", self.where)[2])

    def test_cuts_and_settle_and_report(self):
        status, out, err = command("cuts", self.where)
        self.assertEqual(status, 1)
        self.assertIn("ON annual: the book fails at ", err)
        prices = "OPR_DT,OPR_HR,TIME_OF_USE,CONSTRAINT_ID,SHADOW_PRICE\n2026-07-01,8,ON,K69,10\n"
        (self.where / "prices.csv").write_text(prices + "2026-07-01,9,ON,K1,2.5\n")
        held = command("settle", self.where, "--process", "monthly")
        self.assertEqual(held[0], 0)
        self.assertEqual(command("settle", self.where, "--process", "monthly", "-j", "2"), held)
        page = command("report", self.where, "-o", self.folder / "a.html")
        self.assertEqual(page[0], 0, page)
        with self.streamed():
            self.assertEqual(command("settle", self.where, "--process", "monthly", "-j", "2"), held)
            self.assertEqual(command("cuts", self.where)[:2], (status, out))
            self.assertEqual(command("report", self.where, "-o", self.folder / "b.html")[0], 0)
        self.assertEqual((self.folder / "a.html").read_text(), (self.folder / "b.html").read_text())

    def test_packed(self):
        out = self.folder / "packed"
        status, said, _ = command("pack", self.where, "-o", out)
        written = "grid.blocks, book.cells, large.json written and read back, for crr test\n"
        self.assertEqual((status, said), (0, f"{out}: larger than the library's sizes: {written}"))
        self.assertEqual(command("test", out)[:2], command("test", self.where)[:2])
        self.assertEqual(command("test", out, "-j", "2")[:2], command("test", self.where)[:2])
        self.assertEqual(command("cuts", out)[:2], command("cuts", self.where)[:2])
        for name in ("settle", "check", "report", "unpack"):
            status, _, err = command(name, out)
            self.assertEqual(status, 2, name)
        self.assertIn("packed without prices: crr test and crr cuts take it", command("settle", out)[2])

    def test_faults_of_a_packed_case(self):
        out = self.folder / "packed"
        command("pack", self.where, "-o", out)
        sound = {name: (out / name).read_bytes() for name in ("grid.blocks", "book.cells", "large.json")}
        about = json.loads(sound["large.json"])
        for name, data, expected in (
            ("large.json", b"{", "large.json: it can't be read: "),
            ("large.json", json.dumps({**about, "form": 2}).encode(), "large.json: it can't be read: "),
            ("large.json", json.dumps({**about, "limits": [1]}).encode(), "large.json: limits that "),
            ("large.json", json.dumps({**about, "pieces": 5}).encode(), "large.json: a part of it "),
            ("book.cells", sound["book.cells"][:-4], "book.cells: 6,599 numbers for 1,100 contracts: "),
            ("book.cells", sound["book.cells"][:-1], "book.cells: a part of a number at its end: "),
            ("book.cells", b"\xff" * len(sound["book.cells"]), "book.cells: contract 0 is none: "),
            ("grid.blocks", sound["grid.blocks"][:-1], "grid.blocks: "),
            ("grid.blocks", bytes(len(sound["grid.blocks"])), f"crr: {out}/grid.blocks: "),
        ):
            (out / name).write_bytes(data)
            status, _, err = command("test", out)
            self.assertEqual(status, 2, (name, err))
            self.assertTrue(err.startswith(expected), err)
            (out / name).write_bytes(sound[name])
            if name != "large.json":
                (out / name).unlink()
                self.assertEqual(command("test", out)[0], 2)
                (out / name).write_bytes(sound[name])

    def test_a_small_case_goes_as_ever(self):
        with mock.patch.object(sliced_test, "test_sliced", side_effect=AssertionError):
            self.assertEqual(command("test", IEEE14)[0], 1)


if __name__ == "__main__":
    unittest.main()
