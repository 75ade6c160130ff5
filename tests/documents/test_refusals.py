"""What rt says of an edit that is refused for a fact that fails, and for a proof text that does not fit: taken
from logs, where each is cut short."""

import sys
import unittest
from pathlib import Path

sys.path.insert(0, str(Path(__file__).resolve().parent))

from refusals import fault_of, tried  # noqa: E402

REFUSED = "refused, as it must be"
AT = f"{REFUSED}: ./proofs/walk/Answers.antt:30:59: error: "
FACTS = (
    "`field-window`: `omega`: the goal does not follow from what it read. All of that holds, and the goal fails, at `o` = 8",
    "`returns-in-Wide`: as printed, the two types differ only where one has `7` (expected), right after `… (Rattle.bits.s",
    "`check_numbers`: give a proof of that as the last argument, `rw L t` (`rw L ?` shows it as a hole's",
    "`returns-in-Annual`: expected type `mathlib.Core.Path.◌≡◌ 75 (percent c.args.self)`, but this has t",
    "`returns-then-z-lt0`: computed as far as they go, the two types first differ where one has `lib.IntN.p",
    "`returns-in-Refused`: computed as a goal is, one side reads `Rattle.hour_mcc.specs.FindMcc.FindsMcc (Rattle.hour",
    "`returns-then-holder-gt-MAX`: `grind` found no proof. It did not look into `first`, `own_checks`, `",
    "`returns-2`: `rw`: no occurrence of the path's left endpoint in the goal: write the family yourself",
)
UNFIT = (
    "`returns-then-count-gt-MAX`: record `Rattle.book_checks.proofs.check_book.Lts.View.In-Then-count-gt-MAX",
    "`mul-t14`: `goal.mul-t14`: module `Rattle.walk.proofs.verdict.Goals` has no `mul-t14` that can be named from here",
    "`loop-again`: `four_trun` is not in scope; did you mean `four_turn`?",
    "module `mathlib.Core.Path` has no `no-such-law` that can be named from here",
    "this line starts at column 1, at or left of the enclosing block's column 1, but the `(` opened at 25:13",
    "`four`: a dimension (`0`, `1` or an interval variable) is expected here",
    "`returns`: 1 declaration that depends on `call`, which was rejected, was not checked: returns-in-Pass",
)


class Kinds(unittest.TestCase):
    def test_facts(self) -> None:
        for said in FACTS:
            with self.subTest(said):
                self.assertIsNone(fault_of(AT + said))

    def test_unfit_texts(self) -> None:
        for said in UNFIT:
            with self.subTest(said):
                self.assertIsNotNone(fault_of(AT + said))

    def test_a_function_that_is_not_proved(self) -> None:
        self.assertIsNone(fault_of(f"{REFUSED}: note: src/lib.rt:23:1: it is not proved that what the function ensures holds"))

    def test_what_rt_says_itself(self) -> None:
        for said in (
            f"{REFUSED} (only because a proof file names what the edit took away, so this says little of the contract): x",
            f"{REFUSED} (only by a limit of the prover, which gave no verdict): x",
            "NOT REFUSED: the crate is still proved with this edit",
            "BAD EDIT: it did not reach the prover",
            "NOT TRIED: its check was killed",
            REFUSED,
        ):
            with self.subTest(said):
                self.assertIsNotNone(fault_of(said))

    def test_what_is_not_known_is_told(self) -> None:
        self.assertIsNotNone(fault_of(AT + "`returns`: something else"))
        self.assertIsNotNone(fault_of(f"{REFUSED}: nothing that is known"))

    def test_the_log(self) -> None:
        log = f"rt: lists proved\nrt: must-fail lists/set_of.edit: {REFUSED}: x\nrt: ok; handles allowed: none\n"
        self.assertEqual(tried(log), {"lists/set_of": f"{REFUSED}: x"})


if __name__ == "__main__":
    unittest.main()
