"""What is used and what is not, in a small tree of one crate."""

import sys
import tempfile
import unittest
from pathlib import Path

sys.path.insert(0, str(Path(__file__).resolve().parent))

from unused import TELLING, unused  # noqa: E402

TREE = {
    "crates.txt": "own staticlib:   # entry go\n",
    "crates/own/src/lib.rt": """
ghost use Rattle.own.specs.Does.{Does};

const MOST: u64 = 7;

const LEAST: u64 = 1;

// Not `never_called`.
pub fn go(x: u64) -> u64
    ensures { Does x result }
{
    helper(x, MOST)
}

fn helper(x: u64, y: u64) -> u64 {
    x
}

fn never_called(x: u64) -> u64 {
    LEAST
}
""",
    "crates/own/specs/Does.antt": """
pub record Does (x r : ℕ) : Type 0 where
  pub same : r ≡ part x

abbrev part : ℕ → ℕ
part x = x

abbrev pub unsaid : ℕ → ℕ
unsaid x = x
""",
    "crates/own/proofs/go/Answers.antt": """
use Rattle.own.proofs.Laws.{law, ◌then◌}
use Rattle.own.proofs.go.Goals as goal

once : (c : goal.start) → c ≡ c
once c = law c

never : ℕ
never = 0

pub returns : goal.returns
returns c = once c then law c
""",
    "crates/own/proofs/Laws.antt": """
module _ (x : ℕ) (h : Given x) where
  -- by `unneeded`
  pub law : x ≡ x
  law = step x
    where
      step : (y : ℕ) → y ≡ y
      step y = refl

Given : ℕ → Type 0
Given x = x ≡ x

pub ◌then◌ : {x y z : ℕ} → x ≡ y → y ≡ z → x ≡ z
p then q = p ∙ q

pub unneeded : (n : ℕ) → n ≡ n
unneeded zero = refl
unneeded (suc n) = ap suc (unneeded n)

pub beneath : ℕ → ℕ
beneath n = n

pub told-of : ℕ → ℕ
told-of n = n

pub passed-on : ℕ → ℕ
passed-on n = n

pub on-top : ℕ → ℕ
on-top n = beneath n
""",
    "crates/own/proofs/Theorems.antt": """
pub use Rattle.own.proofs.Laws.{passed-on}

pub stated : ℕ
stated = 0
""",
}


class Small(unittest.TestCase):
    def test_one_crate(self) -> None:
        with tempfile.TemporaryDirectory() as room:
            root = Path(room)
            for name, text in {**TREE, **dict.fromkeys(TELLING, "It holds: `told-of`.\n")}.items():
                (root / name).parent.mkdir(parents=True, exist_ok=True)
                (root / name).write_text(text, encoding="utf-8")
            dead = [named.name for named in unused(root)[1]]
        self.assertEqual(sorted(dead), ["LEAST", "beneath", "never", "never_called", "on-top", "unneeded", "unsaid"])


if __name__ == "__main__":
    unittest.main()
