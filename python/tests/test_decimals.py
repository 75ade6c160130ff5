"""Decimals are exact."""

import random
import unittest
from decimal import Decimal

from support import SEED
from crr.decimals import decimal, whole


class Decimals(unittest.TestCase):
    def test_taken(self):
        for text, number in (
            ("12.5", 12500),
            (".001", 1),
            ("1000", 10**6),
            ("-0.1", -100),
            ("+7.", 7000),
            ("0.1000000", 100),
            ("00.010", 10),
            ("-0", 0),
        ):
            self.assertEqual(whole(text, 3), number)
        self.assertEqual(whole("7", 0), 7)

    def test_refused(self):
        for text in (
            "", ".", "-", "1e3", "1,5", "0.0001", "nan", "inf", "--1", "1 000", "0x10", "１", "1_000"
        ):
            with self.assertRaises(ValueError):
                whole(text, 3)

    def test_rounded(self):
        for text, cents in (
            ("1.004", 100), ("1.005", 101), ("1.00499", 100), ("-1.005", -101), ("0.999", 100), ("2.5", 250)
        ):
            self.assertEqual(whole(text, 2, rounded=True), cents)

    def test_there_and_back(self):
        rng = random.Random(SEED)
        for _ in range(20000):
            number, places = rng.randint(-(10**9), 10**9), rng.randint(0, 5)
            self.assertEqual(whole(decimal(number, places), places), number)
            self.assertEqual(Decimal(decimal(number, places)), Decimal(number).scaleb(-places))


if __name__ == "__main__":
    unittest.main()
