"""The commands that need no case: hours, share."""

import json
import unittest

from support import ROOT, FolderTest, command

class Hours(unittest.TestCase):
    HEADING = "MONTH,ON_PEAK_DAYS,ON_PEAK_HOURS\n"

    def test_months(self):
        self.assertEqual(
            command("hours", "2024-01"),
            (0, self.HEADING + "2024-01,26,416\n", "1 month: 26 on-peak days, 416 on-peak hours\n"),
        )
        rows = "2023-11,25,400\n2023-12,25,400\n2024-01,26,416\n2024-02,25,400\n"
        said = (0, self.HEADING + rows, "4 months: 101 on-peak days, 1,616 on-peak hours\n")
        self.assertEqual(command("hours", "2023-11..2024-02"), said)

    def test_years(self):
        status, out, err = command("hours", "2024")
        self.assertEqual(
            (status, len(out.splitlines()), err),
            (0, 13, "12 months: 308 on-peak days, 4,928 on-peak hours\n"),
        )
        self.assertEqual(command("hours", "2024-01..2024-12"), (status, out, err))
        self.assertEqual(
            command("hours", "2010..2037")[2], "336 months: 8,598 on-peak days, 137,568 on-peak hours\n"
        )

    def test_the_program_prints_the_same(self):
        stored = (ROOT / "crates" / "on_peak_hours" / "stdout").read_text()
        rows = command("hours", "2010..2037")[1].splitlines()[1:]
        self.assertEqual([row.split(",")[2] for row in rows], stored.splitlines())

    def test_json(self):
        month = {"month": "2024-01", "on_peak_days": 26, "on_peak_hours": 416}
        status, out, err = command("hours", "2024-01", "--json")
        self.assertEqual(
            (status, json.loads(out), err),
            (0, {"months": [month], "on_peak_days": 26, "on_peak_hours": 416}, ""),
        )
        status, out, err = command("hours", "2024-13", "--json")
        fault = {
            "file": "2024-13", "line": None, "column": None, "text": "no month of 2010 to 2037", "refusal": 19
        }
        self.assertEqual((status, json.loads(out), err), (2, {"faults": [fault]}, ""))

    def test_no_such_month(self):
        asked = {
            "2009": "2009-01",
            "2038-01": "2038-01",
            "2024-13": "2024-13",
            "2024-00": "2024-00",
            "2024-11..2024-13": "2024-13",
        }
        asked.update({"2009-12..2010-01": "2009-12", "2037..2038": "2038-12", "2024-00..2024-02": "2024-00"})
        for months, named in asked.items():
            said = f"{named}: no month of 2010 to 2037 (refusal 19)\ncrr: 1 fault; nothing was written\n"
            self.assertEqual(command("hours", months), (2, "", said))

    def test_usage(self):
        for months in (
            "",
            "24",
            "2024-1",
            "2024-001",
            "Jan 2024",
            "2024..",
            "..2024",
            "2024...2025",
            "2024-01-01",
            "２０２４",
            "2024\n",
        ):
            status, out, err = command("hours", months)
            self.assertEqual(
                (status, out, err.count("is neither a year, YYYY, nor a month, YYYY-MM")), (2, "", 1), months
            )
        self.assertIn(
            "error: argument MONTHS: 2024-01 comes before 2024-02\n", command("hours", "2024-02..2024-01")[2]
        )
        self.assertEqual(command("hours")[0], 2)


class Share(FolderTest):
    def shared(self, balance, demands, *arguments):
        (self.folder / "demands.csv").write_text(demands)
        return command("share", balance, self.folder / "demands.csv", *arguments)

    def test_either_sign(self):
        demands = "COORDINATOR,MEASURED_DEMAND\nAlder,1\nBirch,1\nCedar,1\n"
        for sign in ("", "-"):
            out = (
                f"COORDINATOR,MEASURED_DEMAND,SHARE\nAlder,1,{sign}0.34\nBirch,1,{sign}0.33\n"
                f"Cedar,1,{sign}0.33\n"
            )
            self.assertEqual(
                self.shared(f"{sign}1.00", demands), (0, out, f"3 coordinators: sum {sign}1.00\n")
            )

    def test_decimals(self):
        """Demands of decimals are shared as the same whole numbers of a smaller unit."""
        table = self.shared("100", "COORDINATOR,MEASURED_DEMAND\nAlder,1.5\nBirch,2\nCedar,0.250\n")[1]
        self.assertEqual(
            table, "COORDINATOR,MEASURED_DEMAND,SHARE\nAlder,1.5,40.00\nBirch,2,53.33\nCedar,0.250,6.67\n"
        )
        whole = self.shared("100", "COORDINATOR,MEASURED_DEMAND\nAlder,150\nBirch,200\nCedar,25\n")[1]
        self.assertEqual(
            [row.split(",")[2] for row in table.splitlines()],
            [row.split(",")[2] for row in whole.splitlines()],
        )

    def test_other_headings(self):
        status, out, err = self.shared(
            "-0.07", "\ufeffNote;SC ID;Demand MWh\r\nx;Alder;1000000000\r\n\r\ny;Birch;0\r\n"
        )
        self.assertEqual(
            (status, out, err),
            (
                0,
                "COORDINATOR,MEASURED_DEMAND,SHARE\nAlder,1000000000,-0.07\nBirch,0,0.00\n",
                "2 coordinators: sum -0.07\n",
            ),
        )

    def test_largest(self):
        demands = "COORDINATOR,MEASURED_DEMAND\n" + "".join(f"S{i},1000000000\n" for i in range(256))
        status, out, err = self.shared("10000000.00", demands)
        self.assertEqual(
            (status, out.count(",39062.50\n"), err), (0, 256, "256 coordinators: sum 10000000.00\n")
        )

    def test_json(self):
        answer = {
            "balance": "0.05", "shares": [{"coordinator": "Alder", "measured_demand": "7", "share": "0.05"}]
        }
        status, out, err = self.shared(".05", "COORDINATOR,MEASURED_DEMAND\nAlder,7\n", "--json")
        self.assertEqual((status, json.loads(out), err), (0, answer, ""))
        status, out, err = self.shared("1", "COORDINATOR,MEASURED_DEMAND\nAlder,0\n", "--json")
        fault = {
            "file": str(self.folder / "demands.csv"),
            "line": 2,
            "column": "MEASURED_DEMAND",
            "text": "the demands total 0",
            "refusal": 27,
        }
        self.assertEqual((status, json.loads(out), err), (2, {"faults": [fault]}, ""))

    def test_usage(self):
        self.assertEqual(command("share", "1.00")[0], 2)


if __name__ == "__main__":
    unittest.main()
