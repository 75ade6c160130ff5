"""Several folders in one run: one table, every fault, the worst status, whatever the number of processes."""

import csv
import io
import json
import shutil
import unittest

from support import CASE_L, IEEE14, MIGRATION, FolderTest, command

COMMANDS = ("test", "cuts", "flows")


class Folders(FolderTest):
    def setUp(self):
        super().setUp()
        self.broken = self.folder / "broken"
        shutil.copytree(IEEE14, self.broken)
        book = self.broken / "book.csv"
        book.write_text(book.read_text().replace("30.000", "30.0005").replace("CRR-002", "CRR-003"))

    def test_one_table(self):
        """Its rows are those of each folder alone, with the folder first; the status is the worst."""
        folders = (CASE_L, IEEE14, MIGRATION)
        for name in COMMANDS:
            alone = [command(name, folder) for folder in folders]
            status, out, err = command(name, *folders)
            heading, *rows = csv.reader(io.StringIO(out))
            self.assertEqual((status, [one[0] for one in alone]), (1, [0, 1, 0]))
            for folder, (_, text, said) in zip(folders, alone):
                of_folder, *expected = csv.reader(io.StringIO(text))
                self.assertEqual(heading, ["FOLDER", *of_folder])
                self.assertEqual([row[1:] for row in rows if row[0] == str(folder)], expected)
                for line in said.splitlines():
                    self.assertIn(f"{folder}: {line}\n", err)
            self.assertTrue(err.endswith("3 folders: 1 failing, 0 with faults\n"))

    def test_as_many_processes_as_one_likes(self):
        for name in (*COMMANDS, "check"):
            asked = (name, CASE_L, self.broken, IEEE14)
            self.assertEqual(command(*asked, "-j", "2"), command(*asked))

    def test_faults_do_not_stop_the_others(self):
        missing = self.folder / "missing"
        status, out, err = command("test", self.broken, CASE_L, missing, "--process", "annual")
        rows = list(csv.DictReader(io.StringIO(out)))
        self.assertEqual(
            (status, [(row["FOLDER"], row["VERDICT"]) for row in rows]),
            (2, [(str(self.broken), "faulty"), *[(str(CASE_L), "pass")] * 2, (str(missing), "faulty")]),
        )
        self.assertIn(f"{self.broken}/book.csv:2:MW: 30.0005 has more than 3 decimals\n", err)
        self.assertIn(f"{self.broken}/book.csv:4:CRR_ID: CRR-003 occurs twice\n", err)
        self.assertIn(f"\n{missing}: no such folder\n", err)
        self.assertTrue(err.endswith("3 folders: 0 failing, 2 with faults\n"))

    def test_check(self):
        (self.folder / "noted").mkdir()
        for name in ("constraints.csv", "factors.csv"):
            shutil.copy(IEEE14 / name, self.folder / "noted" / name)
        text = (IEEE14 / "book.csv").read_text().splitlines()
        noted = [text[0] + ",Note", *(line + "," for line in text[1:])]
        (self.folder / "noted" / "book.csv").write_text("\n".join(noted))
        status, out, err = command("check", IEEE14, self.broken, self.folder / "noted")
        self.assertEqual(
            (status, out),
            (
                2,
                "FOLDER,FORM,NODES,CONSTRAINTS,CONTRACTS,HOLDERS,HOURS,FAULTS\n"
                f"{IEEE14},CSV,14,40,16,6,48,0\n{self.broken},,,,,,,2\n"
                f"{self.folder}/noted,CSV,14,40,16,6,0,0\n",
            ),
        )
        self.assertIn(f"{self.folder}/noted: book.csv: not used: Note\n", err)

    def test_json(self):
        data = json.loads(command("test", IEEE14, self.broken, "--json")[1])
        self.assertEqual([each["status"] for each in data["folders"]], [1, 2])
        self.assertEqual((data["status"], data["folders"][1]["faults"][0]["column"]), (2, "MW"))
        alone = json.loads(command("test", IEEE14, "--json")[1])
        self.assertEqual(data["folders"][0], {"folder": str(IEEE14), "status": 1, **alone})

    def test_nothing_but_faults(self):
        status, out, _ = command("cuts", self.folder / "a", self.folder / "b")
        self.assertEqual((status, out), (2, "FOLDER\n"))


if __name__ == "__main__":
    unittest.main()
