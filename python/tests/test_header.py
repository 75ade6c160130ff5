"""crr/interface.py against include/crr.h, in both directions."""

import re
import unittest

from support import ROOT
from crr import interface
import crr

HEADER = (ROOT / "include" / "crr.h").read_text()
CODE = re.sub(r"/\*.*?\*/", "", HEADER, flags=re.S)
SIZES, REFUSALS = HEADER.split("Refusals, by number.")


class Header(unittest.TestCase):
    def test_declarations(self):
        declared = {}
        for name, parameters in re.findall(r"\buint64_t (crr_\w+)\(([^;]*)\);", CODE):
            declared[name] = re.sub(r"\s+", " ", parameters)
        self.assertGreater(len(declared), 10)
        self.assertEqual(declared, interface.DECLARATIONS)

    def test_every_entry_has_a_function(self):
        for name in interface.DECLARATIONS:
            if name == "crr_interface":  # asked once, when the library is loaded
                continue
            self.assertTrue(callable(getattr(crr, name[len("crr_") :], None)), name)

    def test_constants(self):
        defined = {name: int(value) for name, value in re.findall(r"#define CRR_(\w+) +(\d+)", SIZES)}
        sizes = {
            name: value
            for name, value in vars(interface).items()
            if name.isupper() and isinstance(value, int) and not name.endswith("_PLACES")
        }
        self.assertEqual(defined, sizes)

    def test_version(self):
        version = re.search(r'#define CRR_VERSION "(.*)"', HEADER)[1]
        cargo = (ROOT / "rust" / "crr" / "Cargo.toml").read_text()
        self.assertEqual((version, re.search(r'^version = "(.*)"', cargo, re.M)[1]), (crr.__version__,) * 2)

    def test_meanings(self):
        meanings = {
            int(number): meaning
            for number, meaning in re.findall(r"#define CRR_\w+ +(\d+) +/\* (.*?) \*/", REFUSALS)
        }
        # none without its meaning
        self.assertEqual(sorted(meanings), sorted(map(int, re.findall(r"#define CRR_\w+ +(\d+)", REFUSALS))))
        self.assertEqual(meanings.pop(0), "no refusal")
        self.assertEqual(meanings, interface.MEANINGS)

    def test_meanings_are_the_library_s(self):
        texts = {number: crr.refusal_text(number) for number in [*range(300), (1 << 64) - 1]}
        self.assertEqual(texts.pop(0), "no refusal")
        self.assertEqual(
            {number: meaning for number, meaning in texts.items() if meaning}, interface.MEANINGS
        )
        self.assertLessEqual(max(map(len, interface.MEANINGS.values())), interface.REFUSAL_TEXT_BYTES)

    def test_refusals_are_listed_by_number_and_name(self):
        names = {number: name for name, number in re.findall(r"#define CRR_(\w+) +(\d+) +/\*", REFUSALS)}
        comments = re.findall(r"/\*\n((?: \*.*\n)+?) \*/\nuint64_t (\w+)\(", HEADER)
        self.assertEqual({name for _, name in comments}, set(interface.DECLARATIONS))
        for comment, name in comments:
            if name == "crr_interface":
                continue
            words = re.sub(r"\s*\n \* ?", " ", "\n" + comment)
            plain = re.sub(r"\([^()]*\)", "", words)
            listed = re.search(r"Refusals(?:, in this order)?: (.*?)\.(?: |$)", plain)
            self.assertIsNotNone(listed, name)
            for number, called in re.findall(r"(?<![\w,])(\d+)(?!,?\d)(?: ([A-Z_]+))?", listed.group(1)):
                self.assertEqual(called, names[number], f"{name}: {number}")

    def test_units(self):
        for unit, words, places in (
            (interface.QUANTITY, "quantity +thousandths of a MW", 3),
            (interface.LIMIT, "limit +thousandths of a MW", 3),
            (interface.SHIFT_FACTOR, "shift factor +hundred-thousandths", 5),
            (interface.SHADOW_PRICE, "shadow price +cents per MWh", 2),
            (interface.HOLDER, r"holder", 0),
            (interface.BALANCE, "balance +cents", 2),
            (interface.DEMAND, "demand +units of any one kind", 0),
            (interface.WEIGHT, "weight +hundred-thousandths of a hub", 3),
            (interface.CUSTOMERS, "customers +customers that moved", 0),
            (interface.CUSTOMER_LOAD, "rate +thousandths of a MW per customer", 3),
            (interface.LOAD, "load +thousandths of a MW", 3),
        ):
            low, high = re.search(words + r"(?:, | \()(-?[\d,]*\d) to ([\d,]*\d)", HEADER).groups()
            self.assertEqual(
                (unit.places, unit.low, unit.high),
                (places, int(low.replace(",", "")), int(high.replace(",", ""))),
                words,
            )
            self.assertIn(unit.refusal, interface.MEANINGS)
        self.assertRegex(HEADER, r"flow, excess +10\^-8 MW")
        self.assertRegex(HEADER, r"parts +10\^-8 cents")
        self.assertRegex(HEADER, r"MCC +10\^-5 cents per MWh")
        self.assertEqual((interface.FLOW_PLACES, interface.PART_PLACES, interface.MCC_PLACES), (8, 8, 5))
        self.assertEqual(interface.HUB_WEIGHT, 10**interface.HUB_PLACES)

    def test_processes_and_periods(self):
        self.assertRegex(HEADER, r"period +0 off-peak, 1 on-peak")
        self.assertRegex(HEADER, r"process +0 annual, 1 Tier LT, 2 monthly")
        self.assertEqual(
            (crr.PERIODS, crr.PROCESSES), (("off-peak", "on-peak"), ("annual", "Tier LT", "monthly"))
        )


if __name__ == "__main__":
    unittest.main()
