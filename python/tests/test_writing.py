"""Writing: through links and devices, over nobody's work, and what is copied is read first."""

import json
import os
import shutil
import stat
import threading
import unittest
from contextlib import contextmanager

from support import CASE_L, IEEE14, MIGRATION, FolderTest, command, contents, everything, started
import crr.cli  # which knows all commands
from crr.command import COMMANDS

PAIRS = "OLD_NODE,NEW_NODE\nBus 14,Bus 13\n"
PAGE = b"<!doctype html>\n"


class Targets(FolderTest):
    def setUp(self):
        super().setUp()
        self.place = self.folder / "place"
        self.place.mkdir()

    def test_link(self):
        (self.folder / "page.html").write_text("<!doctype html>\n<title>x: congestion revenue rights</title>")
        for name, target in (("to-file", "../page.html"), ("to-nothing", "../fresh.html")):
            link = self.place / name
            link.symlink_to(target)
            self.assertEqual(command("report", CASE_L, "-o", link)[0], 0)
            self.assertEqual(os.readlink(link), target)
            self.assertEqual((self.folder / target[3:]).read_bytes()[:16], PAGE)
        self.assertEqual(sorted(os.listdir(self.place)), ["to-file", "to-nothing"])

    def test_link_to_itself(self):
        (self.place / "loop").symlink_to("loop")
        status, _, err = command("report", CASE_L, "-o", self.place / "loop")
        why = "Too many levels of symbolic links; nothing was changed"
        said = f"crr: {self.place / 'loop'} can't be written: {why}\n"
        self.assertEqual((status, err, os.readlink(self.place / "loop")), (2, said, "loop"))

    def test_pipe(self):
        os.mkfifo(self.place / "pipe")
        got = []
        reader = threading.Thread(target=lambda: got.append((self.place / "pipe").read_bytes()), daemon=True)
        reader.start()
        self.assertEqual(command("market", CASE_L, "--file", self.place / "pipe")[0], 0)
        reader.join(10)
        self.assertEqual([len(data) for data in got], [26])
        self.assertEqual(everything(self.place), {"pipe": stat.S_IFIFO})

    def device(self, minor):
        """A device of this test's own: one that is replaced must not be the machine's."""
        try:
            os.mknod(self.place / "device", 0o666 | stat.S_IFCHR, os.makedev(1, minor))
            with open(self.place / "device", "wb"):
                return self.place / "device"
        except OSError as error:
            self.skipTest(f"this machine lets no device be made: {error.strerror}")

    def test_null(self):
        device = self.device(3)
        self.assertEqual(command("report", CASE_L, "-o", device)[0], 0)
        self.assertEqual(everything(self.place), {"device": stat.S_IFCHR})

    def test_full(self):
        device = self.device(7)
        status, _, err = command("market", CASE_L, "--file", device)
        said = f"crr: {device} can't be written: No space left on device; it may have taken a part\n"
        self.assertEqual((status, err), (2, said))
        self.assertEqual(everything(self.place), {"device": stat.S_IFCHR})

    def test_standard_output(self):
        """By whatever name: the bytes alone, whether it is a pipe, a file, or a file that is written on."""
        command("market", CASE_L, "--file", self.folder / "market.bin")
        view = (self.folder / "market.bin").read_bytes()
        (self.place / "stdout").symlink_to(
            "/proc/self/fd/1"
        )  # as /dev/stdout is, which must not be the one that is replaced
        done = started("market", CASE_L, "--file", self.place / "stdout")
        out, err = done.communicate()
        self.assertEqual((done.returncode, out, err.count(b"26 bytes written\n")), (0, view, 1))
        self.assertEqual(os.readlink(self.place / "stdout"), "/proc/self/fd/1")
        done = started("market", CASE_L, "--file", self.place / "stdout", "--json")
        out, err = done.communicate()
        self.assertEqual((done.returncode, out, json.loads(err)["bytes"]), (0, view, 26))
        for mode, before in (("wb", b""), ("ab", b"before")):
            with open(self.place / "file", mode) as file:
                file.write(before)
                file.flush()
                done = started("market", CASE_L, "--file", self.place / "file", stdout=file)
                self.assertEqual((done.wait(), done.communicate()[1].count(b"26 bytes")), (0, 1))
            self.assertEqual(
                (self.place / "file").read_bytes(), before + view if mode == "wb" else view + before + view
            )

    def test_files_of_others(self):
        """No name beside the target is taken, and what was there keeps its rights."""
        (self.place / "page.html.new").write_text("mine")
        (self.place / ".page.html.new").write_text("mine too")
        (self.place / "page.html").write_text("<!doctype html>\n<title>x: congestion revenue rights</title>")
        os.chmod(self.place / "page.html", 0o640)
        self.assertEqual(command("report", CASE_L, "-o", self.place / "page.html")[0], 0)
        files = everything(self.place)
        self.assertEqual(
            (files["page.html.new"], files[".page.html.new"], len(files)), (b"mine", b"mine too", 3)
        )
        self.assertEqual(stat.S_IMODE((self.place / "page.html").stat().st_mode), 0o640)
        (self.place / "book.csv.new").write_text("mine")
        self.assertEqual(command("unpack", CASE_L, "-o", self.place)[0], 0)
        self.assertEqual((self.place / "book.csv.new").read_text(), "mine")

    def test_folder(self):
        status, _, err = command("report", CASE_L, "-o", self.place)
        self.assertEqual(
            (status, err), (2, f"crr: {self.place} can't be written: Is a directory; nothing was changed\n")
        )

    def test_links_in_a_folder(self):
        """A link among the files of a folder is refused, forced or not; the folder itself may be one."""
        (self.folder / "elsewhere.csv").write_text("mine")
        (self.place / "book.csv").symlink_to("../elsewhere.csv")
        os.mkfifo(self.place / "prices.csv")
        before = everything(self.folder)
        for force in ((), ("--force",)):
            status, _, err = command("unpack", CASE_L, "-o", self.place, *force)
            self.assertEqual((status, err.count("is no plain file"), everything(self.folder)), (2, 2, before))
        (self.folder / "link").symlink_to("other")
        self.assertEqual(command("unpack", CASE_L, "-o", self.folder / "link")[0], 2)
        (self.folder / "other").mkdir()
        self.assertEqual(command("unpack", CASE_L, "-o", self.folder / "link")[0], 0)
        self.assertEqual(len(contents(self.folder / "other")), 5)

    def test_no_rights(self):
        case = self.folder / "case"
        shutil.copytree(CASE_L, case)
        asked = ("market", case, "--file", self.place / "view.bin", "--force")
        self.assertEqual(command(*asked)[0], 0)  # all that is imported is, before rights are given away
        (self.place / "view.bin").write_bytes(b"mine")
        os.chmod(self.place / "view.bin", 0o444)
        with self.as_anyone():
            status, _, err = command(*asked)
        self.assertEqual((status, "Permission denied; nothing was changed" in err), (2, True))
        self.assertEqual((self.place / "view.bin").read_bytes(), b"mine")

    @contextmanager
    def as_anyone(self):
        """Root, to whom everything is allowed, goes on as a user who owns nothing."""
        if os.geteuid() != 0:
            yield
            return
        os.chmod(self.folder, 0o755)
        try:
            os.seteuid(65534)
        except OSError as error:
            self.skipTest(f"this machine lets root be nobody else: {error.strerror}")
        try:
            yield
        finally:
            os.seteuid(0)


class Spared(FolderTest):
    """What may be someone's work."""

    def refused(self, *arguments, count=1):
        before = everything(self.folder)
        status, out, err = command(*arguments)
        faults = err.count("is there and differs: choose another ")
        self.assertEqual((status, out, faults, everything(self.folder)), (2, "", count, before))
        self.assertEqual(command(*arguments, "--force")[0], 0)

    def test_every_command_has_it(self):
        def names(one):
            return {name for argument in one.arguments for name in argument.names}

        writing = {name for name, one in COMMANDS.items() if "-o" in names(one)}
        expected = "pack unpack settle exposure report grid remap in-force market holder canonical hub-add"
        self.assertEqual(writing, {*expected.split(), "from-matpower", "tiers", "migrate", "page"})
        self.assertEqual({name for name, one in COMMANDS.items() if "--force" in names(one)}, writing)

    def test_remap_onto_itself(self):
        command("pack", IEEE14, "-o", self.folder / "case")
        (self.folder / "pairs.csv").write_text(PAIRS)
        self.refused("remap", self.folder / "case", self.folder / "pairs.csv", "-o", self.folder / "case")
        self.assertEqual(command("check", self.folder / "case")[0], 0)

    def test_pack_over_another_case(self):
        command("pack", IEEE14, "-o", self.folder / "packed")
        shutil.copytree(IEEE14, self.folder / "other")
        book = self.folder / "other" / "book.csv"
        book.write_text(book.read_text().replace(",25.000", ",24.000"))
        self.assertEqual(command("pack", IEEE14, "-o", self.folder / "packed")[0], 0)  # the same once more
        self.refused("pack", self.folder / "other", "-o", self.folder / "packed")

    def test_pack_beside_its_csv_files(self):
        shutil.copytree(IEEE14, self.folder / "case")
        for quantity in ("25.000", "24.000"):
            book = self.folder / "case" / "book.csv"
            book.write_text(book.read_text().replace(",25.000", f",{quantity}"))
            self.assertEqual(command("pack", self.folder / "case")[0], 0)
        self.assertEqual(
            command("pack", self.folder / "case", "-o", self.folder / "case" / ".." / "case")[0], 0
        )

    def test_pack_keeps_names(self):
        """A holder that has no contract yet keeps its name and number in names.csv beside the CSV files."""
        command("unpack", CASE_L, "-o", self.folder / "case")
        names = self.folder / "case" / "names.csv"
        names.write_text(names.read_text() + "holder,3,Cedar\nholder,7,Ash\n")
        book = self.folder / "case" / "book.csv"
        book.write_text(
            book.read_text().replace(",8,", ",Ash,")
        )  # 7 stands for itself there, and Ash has to move
        self.assertEqual(command("pack", self.folder / "case")[0], 0)
        rows = [line for line in names.read_text().splitlines() if line.startswith("holder")]
        self.assertEqual(rows, ["holder,0,Ash", "holder,3,Cedar"])

    def test_pages_and_results(self):
        """An earlier answer of the same command is replaced, anything else of that name is not."""
        for name in ("page.html", "hours.csv"):
            (self.folder / name).write_text("mine")
        self.refused("report", CASE_L, "-o", self.folder / "page.html")
        self.refused("settle", CASE_L, "-o", self.folder)
        self.assertEqual(command("report", IEEE14, "-o", self.folder / "page.html")[0], 0)
        self.assertEqual(command("settle", IEEE14, "-o", self.folder)[0], 0)

    def test_views(self):
        for arguments in (("market", "--file"), ("holder", 7, "--file"), ("canonical", "-o")):
            place = self.folder / arguments[0]
            place.write_text("mine")
            self.refused(arguments[0], CASE_L, *arguments[1:], place)

    def test_inputs(self):
        """A file of the case is never written over, forced or not, by whatever name."""
        command("pack", IEEE14, "-o", self.folder / "packed")
        shutil.copytree(IEEE14, self.folder / "csv")
        (self.folder / "link").symlink_to("csv/book.csv")
        os.link(self.folder / "csv" / "factors.csv", self.folder / "twin")
        places = {"csv": ["book.csv", "constraints.csv", "prices.csv", "names.csv", "../link", "../twin"]}
        places["packed"] = ["grid.bin", "book.bin", "names.csv", "prices/2026-07-31/HE01.bin"]
        before = everything(self.folder)
        for case, names in places.items():
            for name in names:
                for asked, out in (
                    (("report",), "-o"),
                    (("canonical",), "-o"),
                    (("market",), "--file"),
                    (("report", "--force"), "-o"),
                ):
                    place = self.folder / case / name
                    status, _, err = command(*asked, self.folder / case, out, place)
                    said = f"{place}: that is a file of the case itself: choose another"
                    self.assertEqual(
                        (status, err.splitlines()[0], everything(self.folder)), (2, said, before)
                    )


class Copied(FolderTest):
    """The price files that a command copies are read first."""

    def setUp(self):
        super().setUp()
        self.case = self.folder / "case"
        command("pack", IEEE14, "-o", self.case)
        (self.folder / "pairs.csv").write_text(PAIRS)
        (self.folder / "hubs.csv").write_text("HUB,NODE_ID,PERCENT\nH,Bus 1,100\n")
        (self.folder / "awards.csv").write_text(
            "CRR_ID,OWNER,HEDGE_TYPE,TIME_OF_USE,SOURCE,SINK,MW\nA,B,OBL,ON,H,Bus 4,1\n"
        )
        for name in ("rows.csv", "loads.csv"):
            shutil.copy(MIGRATION / name, self.folder / name)
        files = {name: self.folder / f"{name}.csv" for name in ("pairs", "hubs", "awards", "rows", "loads")}
        self.commands = {
            "remap": [files["pairs"]],
            "hub-add": [files["hubs"], files["awards"]],
            "tiers": ["--period", "on", "--process", "monthly"],
            "migrate": [files["rows"], files["loads"], "--period", "on"],
        }

    def refusal(self, damage):
        """What each command says to a price file that was damaged."""
        hour = "prices/2026-08-01/HE24.bin"
        said = set()
        for name, more in self.commands.items():
            good = command(name, self.case, *more, "-o", self.folder / f"good-{name}")
            self.assertEqual(good[0], 0, good)
        damage(self.case / hour)
        before = everything(self.folder)
        for name, more in self.commands.items():
            for force in ((), ("--force",)):
                status, out, err = command(name, self.case, *more, "-o", self.folder / "out", *force)
                self.assertEqual((status, out, everything(self.folder)), (2, "", before), name)
                self.assertEqual(err.count(f"{hour}: "), 1, err)
                said.add(err.splitlines()[0])
        self.assertEqual(len(said), 1)
        return said.pop()

    def test_one_byte_more(self):
        refusal = self.refusal(lambda path: path.write_bytes(path.read_bytes() + b"\0"))
        self.assertIn("length differs", refusal)

    def test_a_price_too_large(self):
        self.assertIn(
            "a price above 500,000",
            self.refusal(lambda path: path.write_bytes(path.read_bytes()[:1] + b"\xff" * 95)),
        )

    def test_gone(self):
        def damage(path):
            path.unlink()
            path.mkdir()

        self.assertIn("Is a directory", self.refusal(damage))

    def test_without_out(self):
        """Where nothing is copied, price files are not read."""
        path = self.case / "prices" / "2026-08-01" / "HE24.bin"
        path.write_bytes(b"")
        for name in ("tiers", "migrate"):
            self.assertEqual(command(name, self.case, *self.commands[name])[0], 0)


if __name__ == "__main__":
    unittest.main()
