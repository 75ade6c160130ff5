"""The running test: the class beside awards summed afresh, the paper's run, and the command: what each
operation gives, names, the case that is written."""

import json
import random
import shutil
import unittest
from array import array

from support import IEEE14, ROOT, SEED, FolderTest, command, contents, draw_grid, flows
from crr.native import Entry, Lent
import crr

TIERS = ROOT / "examples" / "tiers"
GRID = crr.Grid(3, 2, [6_000, 50_000], [60_000, -20_000, 0, 0, -10_000, 40_000])
RELEASED = (65, 60, 100)


def answer(act, *arguments):
    """The refusal's number, or 0."""
    try:
        act(*arguments)
    except crr.Refused as refused:
        return refused.number
    return 0


class Runs(unittest.TestCase):
    def test_a_run(self):
        """The paper's, from the lines that the example in C reads."""
        running, lines = crr.RunningTest(GRID, process=2, period=1), []
        acts = {"add": lambda *row: running.add(row), "mark": running.mark, "return": running.return_to}
        for line in (TIERS / "operations.txt").read_text().splitlines():
            what, *numbers = line.split()
            lines.append(f"{answer(acts[what], *map(int, numbers))},{len(running.held)},{running.counted}\n")
        self.assertEqual("".join(lines), (ROOT / "tests" / "examples" / "tiers.stdout").read_text())
        self.assertEqual(running.book(), (ROOT / "tests" / "examples" / "awards.bin").read_bytes())
        self.assertEqual((running.flows, running.marks), ([600_000_000, -200_000_000], {2: 2, 3: 2}))
        self.assertEqual(running.held[1], crr.Contract(0, 0, 9, 0, 1, 1_000_000))

    def test_drawn(self):
        """Awards and marks in lists, and everything afresh from them after each operation."""
        rng, refused = random.Random(SEED), {}
        for _ in range(120):
            nodes, constraints = rng.randint(1, 6), rng.randint(0, 4)
            _, limits, factors = draw_grid(rng, nodes, constraints)
            limits = [rng.choice((limit, 1, 6_000, 100_000)) for limit in limits]
            process, period = rng.randint(0, 2), rng.randint(0, 1)
            running = crr.open_running(crr.Grid(nodes, constraints, limits, factors), process, period)
            held, marks = [], {}
            for _ in range(40):
                tier = rng.choice((1, 2, 3, 4, 4, rng.choice((0, 5, 2**64 - 1))))
                what = rng.choice(("add", "add", "add", "mark", "return"))
                if what == "add":
                    quantity = rng.choice((1, 10, rng.randint(1, 1_000_000)))
                    row = (
                        rng.randint(0, 1),
                        rng.randint(0, 1),
                        rng.randint(0, 1023),
                        rng.randrange(nodes),
                        rng.randrange(nodes),
                        quantity,
                    )
                    carried = flows([*held, row], factors, constraints, period)
                    expected = (
                        21
                        if any(
                            flow > limit * RELEASED[process] * 1000 for flow, limit in zip(carried, limits)
                        )
                        else 0
                    )
                    refusal = answer(crr.add_award, running, row)
                    held += [] if expected else [row]
                elif what == "mark":
                    expected, refusal = 0 if 1 <= tier <= 4 else 20, answer(crr.mark_tier, running, tier)
                    marks.update({} if expected else {tier: len(held)})
                else:
                    expected, refusal = 0 if tier in marks else 20, answer(crr.return_to_tier, running, tier)
                    held = held if expected else held[: marks[tier]]
                    marks = {marked: count for marked, count in marks.items() if count <= len(held)}
                refused[expected] = refused.get(expected, 0) + 1
                self.assertEqual((refusal, running.held, running.marks), (expected, held, marks))
                counted = [row for row in held if row[1] == period]
                self.assertEqual(
                    (running.counted, running.flows),
                    (len(counted), flows(counted, factors, constraints, period)),
                )
            grid = crr.Grid(nodes, constraints, limits, factors)
            for form in (0, 1):
                self.assertTrue(crr.test_book(grid, running.book(form), process, period).passed)
                self.assertEqual(
                    crr.find_flows(grid, running.book(form), period), (running.flows, running.counted)
                )
        self.assertGreater(min(refused[number] for number in (0, 20, 21)), 100)

    def test_tables_are_its_own(self):
        limits, factors = array("Q", GRID.limits), array("q", GRID.factors)
        running = crr.RunningTest(crr.Grid(3, 2, limits, factors), 2, 1)
        limits[0], factors[0] = 0, 100_001
        running.add((0, 1, 7, 0, 1, 10_000))
        self.assertEqual(running.flows, [600_000_000, -200_000_000])

    def test_short_buffers(self):
        """The class lends buffers that are long enough: 9 is asked of the entries themselves, and nothing is
        written."""
        tables = (Lent(array("Q", GRID.limits), "Q"), Lent(array("q", GRID.factors), "q"))
        for short in range(4):
            rooms = [room - (at == short) for at, room in enumerate((6000, 14, 320, 6))]
            cells = [array(code, [7] * room) for code, room in zip("QQqQ", rooms)]
            awards, numbers, carried = (Lent(table, table.typecode, True) for table in cells[:3])
            if short < 3:
                self.assertEqual(
                    answer(Entry("crr_open_running"), 3, 2, 2, 1, *tables, awards, numbers, carried), 9
                )
            self.assertEqual(
                answer(
                    Entry("crr_add_award"), 3, 2, 2, 1, *tables, Lent(cells[3], "Q"), awards, numbers, carried
                ),
                9,
            )
            for name in ("crr_mark_tier", "crr_return_to_tier"):
                self.assertEqual(answer(Entry(name), 5, numbers, carried), 9 if short in (1, 2) else 20)
            self.assertEqual({cell for table in cells for cell in table}, {7})


class Tiers(FolderTest):
    HEADING = "OPERATION,TIER,CRR_ID,OWNER,HEDGE_TYPE,TIME_OF_USE,SOURCE,SINK,MW\n"
    ROWS = (
        "mark,1,,,,,,,\nadd,,A-1,Alder Power,OBL,ON,Bus 1,Bus 4,30\nadd,,A-2,Ash,OPT,OFF,Bus 2,Bus 9,1000\n"
        "mark,2,,,,,,,\nmark,LT,,,,,,,\nadd,,A-3,Ash,OBL,ON,Bus 1,Bus 4,1000\n"
        "add,,A-3,Ash,OBL,ON,Bus 1,Bus 4,1\nreturn,2,,,,,,,\nadd,,A-3,Ash,OPT,ON,Bus 9,Bus 2,0.001\n"
        "return,3,,,,,,,\n"
    )
    TOLD = (
        "OPERATION,NAME,ANSWER,HELD,COUNTED,OVERLOADED,LOWEST_NUMBERED,EXCESS_MW\n"
        "mark,1,marked,0,0,,,\nadd,A-1,held,1,1,,,\nadd,A-2,held,2,1,,,\n"
        "mark,2,marked,2,1,,,\nmark,LT,marked,2,1,,,\nadd,A-3,refused 21,2,1,{over}\nadd,A-3,held,3,2,,,\n"
        "return,2,returned,2,1,,,\n"
        "add,A-3,held,3,2,,,\nreturn,3,refused 20,3,2,,,\n"
    )

    def played(self, folder, *arguments, rows=ROWS):
        (self.folder / "awards.csv").write_text(self.HEADING + rows)
        return command(
            "tiers", folder, self.folder / "awards.csv", "--period", "on", "--process", "monthly", *arguments
        )

    def over(self):
        """Where A-3 of 1,000 MW exceeds, by the test on a book of what would be held."""
        case = self.folder / "over"
        shutil.copytree(IEEE14, case)
        (case / "book.csv").write_text(
            "CRR_ID,OWNER,HEDGE_TYPE,TIME_OF_USE,SOURCE,SINK,MW\n1,A,OBL,ON,Bus 1,Bus 4,30\n"
            "2,A,OBL,ON,Bus 1,Bus 4,1000\n"
        )
        return command(
            "test", case, "--period", "on", "--process", "monthly"
        )[1].splitlines()[1].split(",")[3:6]

    def test_by_names(self):
        status, said, err = self.played(IEEE14)
        self.assertEqual((status, said), (1, self.TOLD.format(over=",".join(self.over()))))
        self.assertEqual(err, "3 awards held, 2 of them ON; 2 operations of 10 refused\n")

    def test_written(self):
        """The whole case with the awards held for its book, in the form that it had; it passes."""
        out = self.folder / "out"
        status, said, err = self.played(IEEE14, "-o", out)
        self.assertEqual(
            (status, err), (1, f"{out}: 3 awards held, 2 of them ON; 2 operations of 10 refused\n")
        )
        rows = (
            "A-1,Alder Power,OBL,ON,Bus 1,Bus 4,30.000\nA-2,Ash,OPT,OFF,Bus 2,Bus 9,1000.000\n"
            "A-3,Ash,OPT,ON,Bus 9,Bus 2,0.001\n"
        )
        self.assertEqual((out / "book.csv").read_text(), f"{self.HEADING[15:]}{rows}")
        for name in ("constraints.csv", "factors.csv", "prices.csv"):
            self.assertEqual((out / name).read_bytes(), (IEEE14 / name).read_bytes())
        self.assertEqual(command("test", out, "--period", "on", "--process", "monthly")[0], 0)
        command("pack", IEEE14, "-o", self.folder / "bin")
        self.assertEqual(self.played(self.folder / "bin", "-o", self.folder / "bin out")[:2], (status, said))
        command("pack", out, "-o", self.folder / "packed")
        packed, written = contents(self.folder / "packed"), contents(self.folder / "bin out")
        self.assertEqual(
            {name: packed[name] for name in written if name != "names.csv"},
            {name: written[name] for name in written if name != "names.csv"},
        )

    def test_the_book_itself(self):
        """Without a file the book's contracts are added in their order: all are held where the book passes
        whatever its order."""
        status, said, err = command("tiers", IEEE14, "--period", "on", "--process", "monthly")
        rows = said.splitlines()[1:]
        self.assertEqual((status, len(rows), {row.split(",")[2] for row in rows}), (0, 16, {"held"}))
        self.assertEqual(err, "16 awards held, 10 of them ON; 0 operations of 16 refused\n")
        self.assertEqual(
            command("tiers", IEEE14, "--period", "on", "--process", "annual")[0],
            command("test", IEEE14, "--period", "on", "--process", "annual")[0],
        )

    def test_a_wide_book_where_it_is_needed(self):
        case, out = self.folder / "case", self.folder / "out"
        case.mkdir()
        (case / "constraints.csv").write_text("CONSTRAINT_ID,LIMIT_MW\nK,1\n")
        (case / "factors.csv").write_text("NODE_ID,K\n" + "".join(f"N{n},{n % 2}\n" for n in range(300)))
        (case / "book.csv").write_text(f"{self.HEADING[15:]}1,Ash,OBL,ON,N0,N1,1\n")
        command("pack", case, "-o", self.folder / "bin")
        for rows, form in (
            ("", 0),
            ("add,,A,Ash,OBL,ON,N0,N255,2\n", 0),
            ("add,,A,Ash,OBL,ON,N299,N0,1\nadd,,B,Ash,OPT,ON,N299,N0,0.001\n", 1),
        ):
            shutil.rmtree(out, ignore_errors=True)
            status, said, _ = self.played(self.folder / "bin", "-o", out, rows=rows)
            book = (out / "book.bin").read_bytes()
            self.assertEqual(
                (status, crr.read_book_form(300, book), len(crr.read_book(300, book))),
                (form, form, min(1, rows.count("add"))),
            )
        self.assertEqual(said.splitlines()[-1], "add,B,refused 21,1,1,1,K,0.00100000")

    def test_json(self):
        status, out, err = self.played(IEEE14, "--json")
        data = json.loads(out)
        self.assertEqual(
            (status, err, data["marks"], data["process"], data["time_of_use"]),
            (1, "", {"1": 0, "2": 2, "LT": 2}, "monthly", "ON"),
        )
        self.assertEqual(
            [each["answer"] for each in data["operations"]][5:],
            ["refused 21", "held", "returned", "held", "refused 20"],
        )
        self.assertEqual(
            (len(data["flows_mw"]), [each["crr_id"] for each in data["held"]]), (40, ["A-1", "A-2", "A-3"])
        )

    def test_a_thousand(self):
        many = "".join(f"add,,{i},Ash,OBL,OFF,Bus 1,Bus 2,1\n" for i in range(1001))
        status, said, err = self.played(IEEE14, rows=many)
        self.assertEqual((status, said.splitlines()[-1]), (1, "add,1000,refused 10,1000,0,,,"))
        self.assertEqual(err, "1,000 awards held, 0 of them ON; 1 operation of 1,001 refused\n")

    def test_usage(self):
        self.assertEqual(command("tiers", IEEE14)[0], 2)  # which period, and which process?
        self.assertEqual(command("tiers", IEEE14, "--period", "both", "--process", "monthly")[0], 2)
        self.assertEqual(command("tiers", IEEE14, "--period", "on", "--process", "all")[0], 2)


if __name__ == "__main__":
    unittest.main()
