"""Faults of files that are given by themselves: demands, hubs, contracts from hubs, migrations, awards."""

import shutil
import unittest

from support import IEEE14, MIGRATION, FolderTest, command

# What is wrong with a balance or a file of demands, and what is said, line by line.
SHARES = [
    ("1.005", "Alder,1", ["BALANCE: 1.005 has more than 2 decimals"]),
    ("1,000", "Alder,1", ["BALANCE: '1,000': a decimal point and no thousands separators, please"]),
    ("", "Alder,1", ["BALANCE: empty"]),
    ("10000000.01", "Alder,1", ["BALANCE: 10000000.01 is outside -10000000.00 to 10000000.00 (refusal 26)"]),
    (
        "-10000000.01",
        "Alder,1",
        ["BALANCE: -10000000.01 is outside -10000000.00 to 10000000.00 (refusal 26)"],
    ),
    (
        "-99999999999999999999",
        "Alder,1",
        ["BALANCE: -99999999999999999999 is outside -10000000.00 to 10000000.00 (refusal 26)"],
    ),
    (
        "1",
        "Alder,1000000001",
        ["demands.csv:2:MEASURED_DEMAND: 1000000001 is outside 0 to 1000000000 (refusal 26)"],
    ),
    (
        "1",
        "Alder,0.001\nBirch,1000001",
        ["demands.csv:3:MEASURED_DEMAND: 1000001 is outside 0.000 to 1000000.000 (refusal 26)"],
    ),
    ("1", "Alder,-1", ["demands.csv:2:MEASURED_DEMAND: -1 is outside 0 to 1000000000 (refusal 26)"]),
    ("1", "Alder,", ["demands.csv:2:MEASURED_DEMAND: empty"]),
    ("1", "Alder,1 MWh\nBirch,2", ["demands.csv:2:MEASURED_DEMAND: '1 MWh' is not a decimal number"]),
    ("1", "Alder,1\nAlder,2", ["demands.csv:3:COORDINATOR: Alder occurs twice"]),
    ("1", ",1", ["demands.csv:2:COORDINATOR: empty"]),
    ("1", "", ["demands.csv:1:COORDINATOR: no coordinator (refusal 26)"]),
    (
        "1",
        "\n".join(f"S{i},1" for i in range(257)),
        ["demands.csv:258:COORDINATOR: more than 256 coordinators (refusal 26)"],
    ),
    ("1", "Alder,0\nBirch,0.00", ["demands.csv:3:MEASURED_DEMAND: the demands total 0 (refusal 27)"]),
    ("1", "Alder,0\nBirch", ["demands.csv:3:MEASURED_DEMAND: 1 fields where the heading has 2"]),
    ("x", "Alder,y\nBirch\nAlder,1", [
        "BALANCE: 'x' is not a decimal number",
        "demands.csv:2:MEASURED_DEMAND: 'y' is not a decimal number",
        "demands.csv:3:MEASURED_DEMAND: 1 fields where the heading has 2",
        "demands.csv:4:COORDINATOR: Alder occurs twice",
    ]),
]


def given(folder, faults):
    """Faults of files that were given by their paths, which are told as they were given."""
    return [f"{folder}/{fault}" if fault.split(":")[0].endswith(".csv") else fault for fault in faults]


def told_of(folder, faults):
    """The faults of files that were given beside a folder, and the line behind them, which names these files
    and not the folder."""
    files = dict.fromkeys(f"{folder}/{fault.split(':')[0]}" for fault in faults)
    count = f"{len(faults)} fault{'s' * (len(faults) > 1)}"
    return [*given(folder, faults), f"crr: {count} in {' and '.join(files)}; nothing was written"]


class DamagedDemands(FolderTest):
    def said(self, balance, text):
        (self.folder / "demands.csv").write_text(text)
        status, out, err = command("share", balance, self.folder / "demands.csv")
        self.assertEqual((status, out), (2, ""))
        return err.splitlines()

    def test_each_is_told_where_it_is(self):
        for balance, rows, faults in SHARES:
            with self.subTest(faults=faults):
                end = f"crr: {len(faults)} fault{'s' * (len(faults) > 1)}; nothing was written"
                self.assertEqual(
                    self.said(balance, f"COORDINATOR,MEASURED_DEMAND\n{rows}\n"),
                    [*given(self.folder, faults), end],
                )

    def test_whole_files(self):
        self.assertEqual(
            self.said("1", "")[0],
            given(
                self.folder, ["demands.csv:1:COORDINATOR: the file is empty: its first line is the heading"]
            )[0],
        )
        self.assertEqual(
            self.said("1", "COORDINATOR,MW\nAlder,1\n")[0],
            given(self.folder, ["demands.csv:1:MEASURED_DEMAND: the column is missing"])[0],
        )
        missing = self.folder / "nowhere.csv"
        self.assertEqual(
            command("share", "1", missing)[2].splitlines()[0], f"{missing}: No such file or directory"
        )


# What is wrong with a file of hubs or of contracts from hubs, and what is said, line by line.
NORTH = "North,Bus 2,50\nNorth,Bus 3,50"
CONTRACT = "H,Ash,OBL,ON,North,Bus 4,1"
HUBS = [
    (
        "North,Bus 2,50\nNorth,Bus 3,49.999",
        CONTRACT,
        ["hubs.csv:3:PERCENT: the percents of North total 99.999 and not 100.000 (refusal 24)"],
    ),
    (
        "North,Bus 2,50\nNorth,Bus 3,50.001",
        CONTRACT,
        ["hubs.csv:3:PERCENT: the percents of North total 100.001 and not 100.000 (refusal 24)"],
    ),
    (
        "North,Bus 2,50\nWest,Bus 3,50\nNorth,Bus 4,50",
        CONTRACT,
        ["hubs.csv:3:PERCENT: the percents of West total 50.000 and not 100.000 (refusal 24)"],
    ),
    (
        "North,Bus 2,50\nNorth,Bus 2,50",
        CONTRACT,
        ["hubs.csv:3:NODE_ID: Bus 2 occurs twice in this hub (refusal 25)"],
    ),
    ("North,Bus 15,50\nNorth,Bus 16,50", CONTRACT, [
        "hubs.csv:2:NODE_ID: no node 'Bus 15' in the grid (refusal 11)",
        "hubs.csv:3:NODE_ID: no node 'Bus 16' in the grid (refusal 11)",
    ]),
    (
        "North,Bus 2,0\nNorth,Bus 3,100",
        CONTRACT,
        ["hubs.csv:2:PERCENT: 0 is outside 0.001 to 100.000 (refusal 24)"],
    ),
    (
        "North,Bus 2,100.001",
        CONTRACT,
        ["hubs.csv:2:PERCENT: 100.001 is outside 0.001 to 100.000 (refusal 24)"],
    ),
    ("North,Bus 2,99.9995\nNorth,Bus 3,0.0005", CONTRACT, [
        "hubs.csv:2:PERCENT: 99.9995 has more than 3 decimals",
        "hubs.csv:3:PERCENT: 0.0005 has more than 3 decimals",
    ]),
    (f",Bus 2,50\n{NORTH}", CONTRACT, ["hubs.csv:2:HUB: empty"]),
    ("", CONTRACT, ["hubs.csv:1:HUB: no hub"]),
    (NORTH, "H,Ash,OBL,ON,South,Bus 4,1", ["contracts.csv:2:SOURCE: no such hub: 'South'"]),
    (NORTH, "H,Ash,OBL,ON,Bus 2,Bus 4,1", ["contracts.csv:2:SOURCE: no such hub: 'Bus 2'"]),
    (NORTH, "H,Ash,OBL,ON,North,North,1", ["contracts.csv:2:SINK: no node 'North' in the grid (refusal 11)"]),
    (NORTH, "H,Ash,FWD,24H,North,Bus 4,1", [
        "contracts.csv:2:HEDGE_TYPE: 'FWD' is neither OBL nor OPT (refusal 17)",
        (
            "contracts.csv:2:TIME_OF_USE: '24H' is neither ON nor OFF; split such a contract into an ON and "
            "an OFF row (refusal 17)"
        ),
    ]),
    (
        NORTH,
        "H,Ash,OBL,ON,North,Bus 4,0",
        ["contracts.csv:2:MW: 0 is outside 0.001 to 1000.000 (refusal 13)"],
    ),
    (NORTH, "H,,OBL,ON,North,Bus 4,1", ["contracts.csv:2:OWNER: empty"]),
    (
        NORTH,
        "H,0,OBL,ON,North,Bus 4,1",
        ["contracts.csv:2:OWNER: 0 stands for holder 0, and that one is Alder Power here"],
    ),
    (NORTH, f"{CONTRACT}\n{CONTRACT}", ["contracts.csv:3:CRR_ID: H occurs twice"]),
    (
        NORTH,
        f"{CONTRACT}\nH Bus 2,Ash,OBL,ON,North,Bus 4,1\nH,Ash,OBL,ON,North,Bus 4",
        ["contracts.csv:4:MW: 6 fields where the heading has 7"],
    ),
    ("North,Bus 2,50", "H,Ash,OBL,ON,South,Bus 4,1", [
        "hubs.csv:2:PERCENT: the percents of North total 50.000 and not 100.000 (refusal 24)",
        "contracts.csv:2:SOURCE: no such hub: 'South'",
    ]),
]


class DamagedHubs(FolderTest):
    BOOK = "CRR_ID,OWNER,HEDGE_TYPE,TIME_OF_USE,SOURCE,SINK,MW\n"

    def said(self, case, hubs, contracts):
        (self.folder / "hubs.csv").write_text(f"HUB,NODE_ID,PERCENT\n{hubs}\n")
        (self.folder / "contracts.csv").write_text(f"{self.BOOK}{contracts}\n")
        status, out, err = command(
            "hub-add",
            case,
            self.folder / "hubs.csv",
            self.folder / "contracts.csv",
            "-o",
            self.folder / "out",
        )
        self.assertEqual((status, out, (self.folder / "out").exists()), (2, "", False))
        return err.splitlines()

    def test_each_is_told_where_it_is(self):
        for hubs, contracts, faults in HUBS:
            with self.subTest(faults=faults):
                self.assertEqual(self.said(IEEE14, hubs, contracts), told_of(self.folder, faults))
                if faults[0].startswith("hubs"):
                    of_hubs = told_of(self.folder, [fault for fault in faults if fault.startswith("hubs")])
                    status, out, err = command("hub-mcc", IEEE14, self.folder / "hubs.csv")
                    self.assertEqual((status, out, err.splitlines()), (2, "", of_hubs))

    def test_sizes(self):
        case = self.folder / "case"
        shutil.copytree(IEEE14, case)
        heading, nodes = (
            "NODE_ID," + ",".join(
                line.split(",")[0] for line in (case / "constraints.csv").read_text().splitlines()[1:]
            ),
            40,
        )
        (case / "factors.csv").write_text(
            heading + "\n" + "".join(f"Bus {n}{',0' * 40}\n" for n in range(1, nodes))
        )
        many = "\n".join(f"North,Bus {n},{'3' if n < 33 else '4'}" for n in range(1, 34))
        self.assertEqual(
            self.said(case, many, CONTRACT)[:1],
            given(self.folder, ["hubs.csv:34:NODE_ID: more than 32 nodes in this hub (refusal 24)"]),
        )
        (case / "book.csv").write_text(
            self.BOOK + "".join(f"{i},Ash,OBL,ON,Bus 1,Bus 2,1\n" for i in range(999))
        )
        growth = (
            "contracts.csv:2:CRR_ID: more than 1,000 contracts, a book that would grow past 1,000, or a "
            "1,001st award (refusal 10)"
        )
        self.assertEqual(self.said(case, NORTH, CONTRACT)[0], given(self.folder, [growth])[0])
        (case / "book.csv").write_text(self.BOOK + "H Bus 2,Ash,OBL,ON,Bus 1,Bus 2,1\n")
        self.assertEqual(
            self.said(case, NORTH, CONTRACT)[0],
            given(self.folder, ["contracts.csv:2:CRR_ID: H Bus 2 occurs twice"])[0],
        )

    def test_owners(self):
        case = self.folder / "case"
        shutil.copytree(IEEE14, case)
        (case / "book.csv").write_text(
            self.BOOK + "".join(f"{i},name {i},OBL,ON,Bus 1,Bus 2,1\n" for i in range(999))
        )
        rows = "\n".join(f"H{i},new {i},OBL,ON,North,Bus 4,0.001" for i in range(30))
        self.assertEqual(
            self.said(case, NORTH, rows)[0],
            given(self.folder, ["contracts.csv:27:OWNER: more than 1024 owners (refusal 18)"])[0],
        )

    def test_whole_files(self):
        for asked in (
            ("test", ""), ("same", IEEE14, ""), ("settle", IEEE14, "-o", ""), ("hub-mcc", IEEE14, "")
        ):
            status, out, err = command(*asked)  # as an unset variable gives it; not the current folder
            self.assertEqual((status, out, err.count(": it is empty, and a path is needed\n")), (2, "", 1))
        missing = self.folder / "nowhere.csv"
        self.assertEqual(
            command("hub-mcc", IEEE14, missing)[2].splitlines()[0], f"{missing}: No such file or directory"
        )
        (self.folder / "hubs.csv").write_text("HUB,NODE_ID,WEIGHT\nNorth,Bus 2,100\n")
        self.assertEqual(
            command("hub-mcc", IEEE14, self.folder / "hubs.csv")[2].splitlines()[0],
            f"{self.folder}/hubs.csv:1:PERCENT: the column is missing",
        )


# What is wrong with the rows or the loads of a migration, and what is said, line by line.
MIGRATIONS = [
    ("R,1000001,1,1,2", "1,1", ["rows.csv:2:CUSTOMERS: 1000001 is outside 0 to 1000000 (refusal 22)"]),
    ("R,-1,1,1,2", "1,1", ["rows.csv:2:CUSTOMERS: -1 is outside 0 to 1000000 (refusal 22)"]),
    ("R,1.5,1,1,2", "1,1", ["rows.csv:2:CUSTOMERS: 1.5 has more than 0 decimals"]),
    ("R,1,10.001,1,2", "1,1", ["rows.csv:2:MW_PER_CUSTOMER: 10.001 is outside 0.000 to 10.000 (refusal 22)"]),
    ("R,1,0.0005,1,2", "1,1", ["rows.csv:2:MW_PER_CUSTOMER: 0.0005 has more than 3 decimals"]),
    ("R,1,1,,2", "1,1", ["rows.csv:2:OLD_LSE: empty"]),
    (
        "R,1,1,Elm,2",
        "1,1",
        ["rows.csv:2:OLD_LSE: no holder is called 'Elm', and it is no number from 1 to 16 (refusal 22)"],
    ),
    (
        "R,1,1,1,0",
        "1,1",
        [
            "rows.csv:2:NEW_LSE: 0 is holder 0, and LSEs are the holders 1 to 16: names.csv gives holders "
            "their numbers (refusal 22)"
        ],
    ),
    (
        "R,1,1,1,17",
        "1,1",
        [
            "rows.csv:2:NEW_LSE: 17 is holder 17, and LSEs are the holders 1 to 16: names.csv gives holders "
            "their numbers (refusal 22)"
        ],
    ),
    ("R,1,1,1,3", "1,1", ["rows.csv:2:NEW_LSE: LSE 3 has no load (refusal 22)"]),
    ("R,1,1,2,2", "1,1", ["rows.csv:2:NEW_LSE: the old and the new LSE are one (refusal 22)"]),
    ("\n".join(["R,0,1,1,2"] * 1001), "1,1", ["rows.csv:1002:CUSTOMERS: more than 1000 rows (refusal 22)"]),
    (
        "R,1,1,1,2",
        "1,1000000000.001",
        ["loads.csv:3:LOAD_MW: 1000000000.001 is outside 0.000 to 1000000000.000 (refusal 22)"],
    ),
    ("R,1,1,1,2", "1,1\n2,3", ["loads.csv:4:LSE: 2 occurs twice"]),
    (
        "R,10,1,2,1",
        "1,9.999",
        ["loads.csv:2:LOAD_MW: 0.000 MW, and the LSE loses 10.000 MW to all gainers (refusal 23)"],
    ),
    (
        "R,10,1,1,2\nR,9,1,2,1\nR,2,1,1,2",
        "1,2.999",
        ["loads.csv:3:LOAD_MW: 2.999 MW, and the LSE loses 3.000 MW to all gainers (refusal 23)"],
    ),
    (
        "R,x,y,1,1",
        "1,z",
        [
            "loads.csv:3:LOAD_MW: 'z' is not a decimal number",
            "rows.csv:2:CUSTOMERS: 'x' is not a decimal number",
            "rows.csv:2:MW_PER_CUSTOMER: 'y' is not a decimal number",
            "rows.csv:2:NEW_LSE: the old and the new LSE are one (refusal 22)",
        ],
    ),
]


class DamagedMigrations(FolderTest):
    def said(self, rows, loads):
        (self.folder / "rows.csv").write_text(rows)
        (self.folder / "loads.csv").write_text(loads)
        arguments = (
            self.folder / "rows.csv", self.folder / "loads.csv", "--period", "on", "-o", self.folder / "out"
        )
        status, out, err = command("migrate", MIGRATION, *arguments)
        self.assertEqual((status, out, (self.folder / "out").exists()), (2, "", False))
        return err.splitlines()

    def test_each_is_told_where_it_is(self):
        for rows, loads, faults in MIGRATIONS:
            with self.subTest(faults=faults):
                heading = "CUSTOMER_CLASS,CUSTOMERS,MW_PER_CUSTOMER,OLD_LSE,NEW_LSE"
                self.assertEqual(
                    self.said(f"{heading}\n{rows}\n", f"LSE,LOAD_MW\n2,0\n{loads}\n"),
                    told_of(self.folder, faults),
                )

    def test_whole_files(self):
        heading = "CUSTOMER_CLASS,CUSTOMERS,MW_PER_CUSTOMER,OLD_LSE,NEW_LSE\n"
        empty = "rows.csv:1:CUSTOMER_CLASS: the file is empty: its first line is the heading"
        self.assertEqual(self.said("", "LSE,LOAD_MW\n1,1\n")[:1], given(self.folder, [empty]))
        self.assertEqual(
            self.said(heading, "LSE,LOAD_MW\n")[0],
            given(self.folder, ["loads.csv:1:LSE: no LSE (refusal 22)"])[0],
        )
        self.assertEqual(
            self.said(heading, "LSE,LOADS\n1,1\n")[0],
            given(self.folder, ["loads.csv:1:LOAD_MW: the column is missing"])[0],
        )
        missing = given(self.folder, ["rows.csv:1:OLD_LSE: the column is missing"])
        self.assertEqual(self.said(heading.replace("OLD_LSE", "OLD_NODE"), "LSE,LOAD_MW\n1,1\n")[:1], missing)


# What is wrong with the operations of a running test, and what is said, line by line.
TIERS = [
    ("keep,1,,,,,,,", ["awards.csv:2:OPERATION: 'keep' is neither add nor mark nor return"]),
    (",1,,,,,,,", ["awards.csv:2:OPERATION: '' is neither add nor mark nor return"]),
    ("mark,5,,,,,,,", ["awards.csv:2:TIER: '5' is none of the tiers 1, 2, 3 and LT (refusal 20)"]),
    ("return,0,,,,,,,", ["awards.csv:2:TIER: '0' is none of the tiers 1, 2, 3 and LT (refusal 20)"]),
    ("mark,,,,,,,,", ["awards.csv:2:TIER: empty"]),
    (
        "mark,1,A,,,,,,5",
        [
            "awards.csv:2:CRR_ID: mark has a tier and no award",
            "awards.csv:2:MW: mark has a tier and no award",
        ],
    ),
    (
        "add,1,A,Ash,OBL,ON,Bus 1,Bus 2,5",
        ["awards.csv:2:TIER: an award has no tier: a row of its own marks the tier"],
    ),
    ("add,,,Ash,OBL,ON,Bus 1,Bus 2,5", ["awards.csv:2:CRR_ID: empty"]),
    ("add,,A,,OBL,ON,Bus 1,Bus 2,5", ["awards.csv:2:OWNER: empty"]),
    (
        "add,,A,0,OBL,ON,Bus 1,Bus 2,5",
        ["awards.csv:2:OWNER: 0 stands for holder 0, and that one is Alder Power here"],
    ),
    ("add,,A,Ash,OBL,ON,Bus 15,Bus 2,5", ["awards.csv:2:SOURCE: no node 'Bus 15' in the grid (refusal 11)"]),
    ("add,,A,Ash,FWD,24H,Bus 1,Hub,0", ["awards.csv:2:SINK: no node 'Hub' in the grid (refusal 11)",
                                        "awards.csv:2:HEDGE_TYPE: 'FWD' is neither OBL nor OPT (refusal 17)",
                                        (
                                            "awards.csv:2:TIME_OF_USE: '24H' is neither ON nor OFF; split "
                                            "such a contract into an ON and an OFF row (refusal 17)"
                                        ),
                                        "awards.csv:2:MW: 0 is outside 0.001 to 1000.000 (refusal 13)"]),
    (
        "add,,A,Ash,OBL,OFF,Bus 1,Bus 2,5\nadd,,A,Ash,OBL,OFF,Bus 1,Bus 2,6",
        ["awards.csv:3:CRR_ID: A is held already"],
    ),
    (
        "mark,9,,,,,,,\nadd,,A,Ash,OBL,ON,Bus 1,Bus 2,x",
        [
            "awards.csv:2:TIER: '9' is none of the tiers 1, 2, 3 and LT (refusal 20)",
            "awards.csv:3:MW: 'x' is not a decimal number",
        ],
    ),
]


class DamagedTiers(FolderTest):
    def said(self, text):
        (self.folder / "awards.csv").write_text(text)
        arguments = (
            self.folder / "awards.csv", "--period", "on", "--process", "monthly", "-o", self.folder / "out"
        )
        status, out, err = command("tiers", IEEE14, *arguments)
        self.assertEqual((status, out, (self.folder / "out").exists()), (2, "", False))
        return err.splitlines()

    def test_each_is_told_where_it_is(self):
        for rows, faults in TIERS:
            with self.subTest(faults=faults):
                heading = "OPERATION,TIER,CRR_ID,OWNER,HEDGE_TYPE,TIME_OF_USE,SOURCE,SINK,MW"
                self.assertEqual(self.said(f"{heading}\n{rows}\n"), told_of(self.folder, faults))

    def test_whole_files(self):
        self.assertEqual(
            self.said("")[0],
            given(
                self.folder, ["awards.csv:1:OPERATION: the file is empty: its first line is the heading"]
            )[0],
        )
        missing = given(self.folder, ["awards.csv:1:TIER: the column is missing"])
        self.assertEqual(
            self.said("OPERATION,CRR_ID,OWNER,HEDGE_TYPE,TIME_OF_USE,SOURCE,SINK,MW\n")[:1], missing
        )


if __name__ == "__main__":
    unittest.main()
