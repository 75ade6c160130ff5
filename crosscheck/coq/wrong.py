#!/usr/bin/env python3
"""Puts wrong definitions into a copy of Terms.v, Slices.v or Exposure.v, one at a time: a proof or a computed
value must then fail.

Prints where each was refused; exit status 1 where one was not, or where its text is no longer in its file.
"""

import shutil
import subprocess
import sys
import tempfile
from pathlib import Path

HERE = Path(__file__).resolve().parent
FILES = ["Terms", "Lemmas", "Demand3", "Slices", "Exposure", "Checked", "Differential"]
MEANT = ["Terms.v", "Slices.v", "Exposure.v"]
NEAREST = "Z.sgn a * ((2 * Z.abs a + perCent) / (2 * perCent))"
FLOW = "Definition flow (f : Factors) (c : Contract) (k : nat) : Z :=\n  "
WRONG = [
    ("amount by source minus sink", "(mcc f p (sink c) - mcc f p (source c))", "(mcc f p (source c) - mcc f p (sink c))"),
    ("an option's flow relieves", FLOW + "counted (kind c)", FLOW + "id"),
    ("an option is charged", "Z :=\n  counted (kind c) ((mcc", "Z :=\n  id ((mcc"),
    ("annual releases 75", "Annual => 65", "Annual => 75"),
    ("released limit times 100", "percent process * 1000", "percent process * 100"),
    ("factors constraint by constraint", "n * constraints f + k", "k * nodes f + n"),
    ("overloaded at the limit", "released (limits g) process k <? totalFlow", "released (limits g) process k <=? totalFlow"),
    ("passes strictly below", "cs k <= released (limits g) process k.", "cs k < released (limits g) process k."),
    ("cents cut towards zero", NEAREST, "Z.quot a perCent"),
    ("a half upwards", NEAREST, "(2 * a + perCent) / (2 * perCent)"),
    ("whole cents towards zero", "Z := a / perCent", "Z := Z.quot a perCent"),
    ("both periods as one", "samePeriod (period c) t", "true"),
    ("the worst may be exceeded", "-> shortfall g process cs p <= w)", "-> shortfall g process cs p <= w + 1)"),
    ("prices to 600,000", "maxPrice : N := 500000", "maxPrice : N := 600000"),
    ("MCC not negated", "Z := - congestion", "Z := congestion"),
    ("rent left out", "netPayment (factors g) cs p - rent g process p", "netPayment (factors g) cs p"),
    ("priced whatever the price", "negb (price p k * (factor", "negb ((factor"),
    ("two cents for one", "then 1%N else 0%N).", "then 2%N else 0%N)."),
    ("a set is left out", "largestOf (2 ^ overloadCount g process cs)", "largestOf (2 ^ overloadCount g process cs - 1)"),
    ("the last of equals", "if f best <? f m then m", "if f best <=? f m then m"),
    ("the largest excess by number", "largestOf (constraints (factors g)) (excess g process cs)", "lowestOverload g process cs"),
    ("excesses below 0 set off", "Z.max 0 (excess g process cs k)", "excess g process cs k"),
    ("prices where nothing is overloaded", "(factors g)) (overloaded g process cs).\nDefinition alone", "(factors g)) (fun _ => true).\nDefinition alone"),
    ("all whatever one alone costs", "then alonePrices else allPrices", "then allPrices else allPrices"),
    ("a contract of another kind stands for one", "kind_same : kind d = kind c;", "kind_same : kind d = kind d;"),
    ("a constraint is in no block", "/\\ number (block i) j = k;", "/\\ (number (block i) j <= k)%nat;"),
    ("a contract is in no slice", "Permutation (flat_map contracts (slices i)) book", "Permutation book book"),
    ("a price is in no slice", "price prices k = 0%N }", "price prices k = price own k }"),
]


def refused(folder):
    """The first file that fails in the folder, or None."""
    for name in FILES:
        if subprocess.run(["coqc", f"{name}.v"], cwd=folder, capture_output=True, timeout=120).returncode:
            return name
    return None


def main():
    failed = 0
    for what, old, new in WRONG:
        with tempfile.TemporaryDirectory() as folder:
            for name in FILES:
                shutil.copy(HERE / f"{name}.v", folder)
            meant = [file for file in (Path(folder) / name for name in MEANT) if old in file.read_text()]
            for file in meant:
                file.write_text(file.read_text().replace(old, new))
            where = refused(folder) if meant else None
        failed += where is None
        print(f"{what}: {'refused in ' + where if where else 'NOT REFUSED'}", flush=True)
    print(f"wrong definitions: {len(WRONG) - failed} refused, {failed} not")
    return 1 if failed else 0


sys.exit(main())
