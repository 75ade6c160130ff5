"""Properties of the CSV layer over drawn cases (hypothesis): a case comes back from its files, in whatever
dress; a damaged file gives a fault with a place, or a case that is well-formed. CRR_SEED draws others."""

import csv
import io
import tempfile
import unittest
from array import array
from dataclasses import replace
from datetime import date
from pathlib import Path

from support import SEED
from crr.case import Case, Names, PricedHour, plain_number
from crr.clock import hours_in
from crr.faults import Faults
from crr.files import Contract
from crr.from_csv import load
from crr.packed import bin_files, unpacked, write_packed
from crr.to_csv import csv_files, write_csv

try:
    from hypothesis import HealthCheck, Phase, given, note, seed, settings, strategies as draw
except ImportError:
    raise unittest.SkipTest("hypothesis is not installed") from None


def bounded(examples):
    """So many examples, the same in every run of a seed. What fails is told as it was drawn: making it
    smaller takes minutes (Phase.shrink)."""
    return settings(
        max_examples=examples,
        deadline=None,
        database=None,
        phases=[Phase.generate],
        suppress_health_check=[HealthCheck.too_slow, HealthCheck.data_too_large],
    )


# What can be a name: printable, and without blanks around it. Separators and quotes among it.
LETTERS = draw.one_of(
    draw.sampled_from("ab, ;\"'-/\\7"),
    draw.characters(blacklist_categories=("Cc", "Cf", "Cs", "Co", "Cn", "Z")),
)
NAME = draw.text(LETTERS, min_size=1, max_size=6).filter(
    lambda name: name == name.strip() and name.isprintable() and name != ""
)


def names(low, high):
    return draw.lists(NAME, min_size=low, max_size=high, unique=True)


@draw.composite
def hours(drawing, constraints):
    prices = draw.lists(draw.integers(0, 500_000), min_size=constraints, max_size=constraints)
    days = draw.dates(date(1900, 1, 1), date(2999, 12, 31)).map(str)
    time = days.flatmap(lambda day: draw.tuples(draw.just(day), draw.integers(1, hours_in(day))))
    times = draw.one_of(draw.just([("", 0)]), draw.lists(time, max_size=3, unique=True).map(sorted))
    return [
        PricedHour(day, hour, drawing(draw.integers(0, 1)), array("Q", drawing(prices)))
        for day, hour in drawing(times)
    ]


@draw.composite
def cases(drawing):
    """A case of a few nodes, constraints, contracts and hours, with figures of their whole range."""
    nodes, constraints = drawing(names(1, 4)), drawing(names(0, 3))
    number, count = draw.integers(0, len(nodes) - 1), len(nodes) * len(constraints)
    ends = (draw.integers(0, 1), draw.integers(0, 1), draw.integers(0, 1023), number, number)
    contract = draw.builds(Contract, *ends, draw.integers(1, 1_000_000))
    book = drawing(draw.lists(contract, max_size=4))
    owners = [name for name in drawing(names(0, 3)) if plain_number(name) is None]
    numbers = draw.lists(draw.integers(0, 1023), min_size=len(owners), max_size=len(owners), unique=True)
    holders = dict(zip(drawing(numbers), owners))
    limits = draw.lists(draw.integers(0, 100_000_000), min_size=len(constraints), max_size=len(constraints))
    factors = draw.lists(draw.integers(-100_000, 100_000), min_size=count, max_size=count)
    return Case(
        Names(nodes, constraints, drawing(names(len(book), len(book))), holders),
        array("Q", drawing(limits)),
        array("q", drawing(factors)),
        book,
        drawing(hours(len(constraints))),
        drawing(draw.integers(0, 1)),
        drawing(draw.integers(0, 1)),
    )


DRESS = draw.tuples(
    draw.sampled_from(",;\t"),
    draw.booleans(),
    draw.booleans(),
    draw.sampled_from(("\n", "\r\n", "\n\n")),
    draw.booleans(),
)


def dressed(name, text, delimiter, turned, more, end, mark):
    """A file as another program may save it."""
    rows = list(csv.reader(io.StringIO(text, newline=""), strict=True))
    if more and name != "factors.csv":  # where every column is a constraint's
        rows = [[*row, "of no use"] for row in rows]
    if turned and name != "factors.csv":
        rows = [row[::-1] for row in rows]
    out = io.StringIO()
    csv.writer(out, delimiter=delimiter, lineterminator=end, quoting=csv.QUOTE_ALL).writerows(rows)
    return (b"\xef\xbb\xbf" if mark else b"") + out.getvalue().encode()


class Properties(unittest.TestCase):
    def folder(self):
        held = tempfile.TemporaryDirectory()
        self.addCleanup(held.cleanup)
        return Path(held.name)

    def written(self, files):
        folder = self.folder()
        for name, data in files.items():
            (folder / name).parent.mkdir(parents=True, exist_ok=True)
            (folder / name).write_bytes(data)
        return folder

    def loaded(self, files):
        return load(self.written(files), as_given=True)[0]

    @seed(SEED)
    @bounded(60)
    @given(cases())
    def test_there_and_back(self, case):
        """Written, read, packed and unpacked: the same case, and from there the same files."""
        folder = self.folder()
        write_csv(case, folder / "csv")
        read = load(folder / "csv", as_given=True)[0]
        self.assertEqual(read, case)
        write_packed(read, folder / "bin")
        back = unpacked(folder / "bin")
        self.assertEqual(back, case)
        self.assertEqual(csv_files(back), csv_files(case))

    @seed(SEED)
    @bounded(60)
    @given(cases(), DRESS)
    def test_dressed(self, case, dress):
        """Quotes, semicolons, CRLF, a mark, other columns and another order of them change nothing."""
        files = {name: dressed(name, text, *dress) for name, text in csv_files(case).items()}
        self.assertEqual(self.loaded(files), case)

    def check_damaged(self, files, name, read):
        """Damage is a fault with a place, or there is a case, which its own files give back."""
        note(f"{name}: {files[name]!r}")
        try:
            case = read(self.written(files))
        except Faults as found:
            self.assertTrue(found.faults)
            for fault in found.faults:
                self.assertIn(fault.file, files)
                self.assertTrue(fault.text and fault.line >= 0, fault)
                # what is wrong with a line is told with its column
                self.assertEqual(bool(fault.line), bool(fault.column), fault)
            return
        again = self.loaded({name: text.encode() for name, text in csv_files(case).items()})
        self.assertEqual(again, case)

    @seed(SEED)
    @bounded(150)
    @given(cases(), draw.data())
    def test_damaged_csv(self, case, drawing):
        files = {name: text.encode() for name, text in csv_files(case).items()}
        name = drawing.draw(draw.sampled_from(sorted(files)))
        files[name] = drawing.draw(damaged(files[name]))
        self.check_damaged(files, name, lambda folder: load(folder)[0])

    @seed(SEED)
    @bounded(100)
    @given(cases(), draw.data())
    def test_damaged_bin(self, case, drawing):
        files = bin_files(case)
        name = drawing.draw(draw.sampled_from(sorted(files)))
        files[name] = drawing.draw(damaged(files[name]))
        self.check_damaged(files, name, lambda folder: replace(unpacked(folder), is_csv=True))


@draw.composite
def damaged(drawing, data):
    """Some bytes at a place gone, changed, put in or said twice, once or twice over."""
    for _ in range(drawing(draw.integers(1, 2))):
        start = drawing(draw.integers(0, len(data)))
        end = min(len(data), start + drawing(draw.integers(0, 12)))
        common = [b"", b'"', b",", b"\n", b"\r", b";", b"-", b"\0", b"\xff", b"1e5", b"\xef\xbb\xbf"]
        others = (draw.binary(max_size=3), draw.just(2 * data[start:end]))
        instead = drawing(draw.one_of(draw.sampled_from(common), *others))
        data = data[:start] + instead + data[end:]
    return data


if __name__ == "__main__":
    unittest.main()
