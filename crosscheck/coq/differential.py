#!/usr/bin/env python3
"""Prints Differential.v: random cases, figured here from document 01 in exact integers (written from the paper,
not from Terms.v), which Coq computes again by its definitions. What a book can cost is searched here among all
lists of 0 and 500,000 on the overloaded constraints.

Usage: differential.py [CASES [SEED]] > Differential.v
"""

import itertools
import random
import sys
from decimal import ROUND_FLOOR, ROUND_HALF_UP, Decimal, getcontext

getcontext().prec = 60
CAP = 500_000
SHARE = {"Annual": 65, "TierLt": 60, "Monthly": 100}
PER_CENT = 10**8
FEW = 10

HEAD = """From Coq Require Import ZArith List.
Require Import Terms Exposure.
Import ListNotations.
Open Scope Z_scope.

Definition figures g process t book p :=
  let f := factors g in let K := constraints f in let cs := ofPeriod t book in
  (map (mcc f p) (seq 0 (nodes f)), map (amount f p) cs, map (fun c => cents (amount f p c)) cs,
   map (pricedCount f p) cs, map (pricedSet f p) cs,
   [exactTotal f p cs; wholeCents (exactTotal f p cs); parts (exactTotal f p cs);
    rent g process p; shortfall g process cs p],
   map (excess g process cs) (seq 0 K), map (fun k => shortfall g process cs (oneCent K k)) (seq 0 K),
   (overloadSet g process cs, overloadCount g process cs, lowestOverload g process cs),
   (exposurePrices g process cs, leastExposure g process cs, mostExposure g process cs)).
"""


def mccs(grid, prices):
    """The MCC of each node."""
    return [-sum(factor * price for factor, price in zip(row, prices)) for row in grid["rows"]]


def counts(contract, figure):
    return figure if contract["kind"] == "Obligation" or figure > 0 else 0


def pays(contract, mcc):
    return counts(contract, (mcc[contract["sink"]] - mcc[contract["source"]]) * contract["mw"])


def loads(contract, grid, k):
    rows = grid["rows"]
    return counts(contract, (rows[contract["source"]][k] - rows[contract["sink"]][k]) * contract["mw"])


def released(grid, process, k):
    return grid["limits"][k] * SHARE[process] * 1000


def shortfall(grid, process, book, prices):
    mcc = mccs(grid, prices)
    rent = sum(released(grid, process, k) * price for k, price in enumerate(prices))
    return sum(pays(contract, mcc) for contract in book) - rent


def cents(amount):
    """To the nearest cent, a half away from zero: what decimal calls ROUND_HALF_UP."""
    return int((Decimal(amount) / PER_CENT).quantize(Decimal(1), ROUND_HALF_UP))


def whole(amount):
    return int((Decimal(amount) / PER_CENT).quantize(Decimal(1), ROUND_FLOOR))


def exposure(grid, process, book, excess):
    """The list drawn, the least and the most: of few overloaded constraints every set, of many two lists."""
    count = len(excess)
    over = [k for k in range(count) if excess[k] > 0]

    def tried(numbers):
        prices = [CAP if k in numbers else 0 for k in range(count)]
        return shortfall(grid, process, book, prices), prices

    if len(over) <= FEW:
        sets = [numbers for size in range(len(over) + 1) for numbers in itertools.combinations(over, size)]
        costs = [tried(numbers) for numbers in sorted(sets, key=bits)]
        worst = max(cost for cost, _ in costs)
        return next(prices for cost, prices in costs if cost == worst), worst, worst
    every, alone = tried(over), tried([excess.index(max(excess))])
    cost, prices = alone if alone[0] > every[0] else every
    return prices, cost, CAP * sum(excess[k] for k in over)


def draw(r):
    """A grid, a process, a period, a book and prices."""
    nodes, constraints = r.choice([1, 2, 3, 3, 4, 5]), r.choice([0, 1, 1, 2, 3, 4, 5])
    most = 1_000_000 if r.random() < 0.5 else 2000

    def factor():
        return r.choice([0, r.randint(-9, 9), r.randint(-100_000, 100_000), -100_000, 100_000])

    def contract():
        ends = {"source": r.randrange(nodes), "sink": r.randrange(nodes)}
        kind, period = r.choice(["Obligation", "Option"]), r.choice(["OnPeak", "OnPeak", "OffPeak"])
        return {"kind": kind, "period": period, "holder": r.randint(0, 1023), "mw": r.randint(1, most), **ends}

    rows = [[factor() for _ in range(constraints)] for _ in range(nodes)]
    limits = [r.choice([0, r.randint(0, 999), r.randint(0, 10**6)]) for _ in range(constraints)]
    book = [contract() for _ in range(r.randint(0, 12))]
    prices = [r.choice([0, 1, r.randint(0, CAP), CAP]) for _ in range(constraints)]
    return {"rows": rows, "limits": limits}, r.choice(list(SHARE)), r.choice(["OnPeak", "OffPeak"]), book, prices


def draw_overloaded(r):
    """Contracts that load some constraints and relieve others, of plain figures, and limits a little below the flows: few overloaded and many."""
    nodes, constraints, process = 4, r.choice([4, 6, 8, 20, 24, 28]), r.choice(list(SHARE))
    rows = [[r.choice([0, -50_000, 50_000, 100_000]) for _ in range(constraints)] for _ in range(nodes)]
    kinds = r.choice([["Option", "Option", "Option", "Obligation"], ["Obligation"]])
    ends = [r.sample(range(nodes), 2) for _ in range(r.randint(3, 6))]
    book = [{"kind": r.choice(kinds), "period": "OnPeak", "holder": 7, "mw": 1000, "source": a, "sink": b} for a, b in ends]
    grid = {"rows": rows, "limits": []}
    for k in range(constraints):
        flow = sum(loads(contract, grid, k) for contract in book)
        grid["limits"].append(max(0, flow // (SHARE[process] * 1000) - r.choice([-1, 1, 50, 100])))
    return grid, process, "OnPeak", book, [r.choice([0, CAP]) for _ in range(constraints)]


def listed(figures, scope=""):
    return "[" + "; ".join(f"{figure}{scope}" for figure in figures) + "]"


def record(contract):
    fields = [f"{name} := {contract[name]}" for name in ("kind", "period", "holder", "source", "sink")]
    return "{| " + "; ".join(fields) + f"; quantity := {contract['mw']} |}}"


def bits(numbers):
    return sum(1 << k for k in numbers)


def told(i, grid, process, period, book, prices):
    """The case as Coq's text, with the figures that it must compute."""
    rows, count = grid["rows"], len(grid["limits"])
    cells = listed(cell for row in rows for cell in row)
    factors = f"{{| nodes := {len(rows)}; constraints := {count}; cells := {cells} |}}"
    counted = [contract for contract in book if contract["period"] == period]
    mcc = mccs(grid, prices)
    amounts = [pays(contract, mcc) for contract in counted]
    priced = [[k for k in range(count) if prices[k] * (rows[c["source"]][k] - rows[c["sink"]][k])] for c in counted]
    total = sum(amounts)
    loss = shortfall(grid, process, counted, prices)
    totals = [total, whole(total), total - whole(total) * PER_CENT, total - loss, loss]
    excess = [sum(loads(c, grid, k) for c in counted) - released(grid, process, k) for k in range(count)]
    cent = [shortfall(grid, process, counted, [int(j == k) for j in range(count)]) for k in range(count)]
    over = [k for k in range(count) if excess[k] > 0]
    yield f"Definition g{i} : Grid := {{| factors := {factors}; limits := {listed(grid['limits'], '%N')} |}}."
    yield f"Definition b{i} : list Contract := [" + ";\n  ".join(record(contract) for contract in book) + "]."
    yield f"Example case{i} : figures g{i} {process} {period} b{i} {listed(prices, '%N')} ="
    yield f"  ({listed(mcc)}, {listed(amounts)}, {listed(map(cents, amounts))},"
    yield f"   {listed(map(len, priced), '%nat')}, {listed(map(bits, priced), '%N')},"
    yield f"   {listed(totals)},"
    yield f"   {listed(excess)}, {listed(cent)},"
    yield f"   ({bits(over)}%N, {len(over)}%nat, {over[0] if over else count}%nat),"
    drawn, least, most = exposure(grid, process, counted, excess)
    yield f"   ({listed(drawn, '%N')}, {least}, {most}))."
    yield "Proof. vm_compute. reflexivity. Qed.\n"


def main(cases, seed):
    print(f"(* Written by differential.py: {cases} random cases (seed {seed}). The figures on the right are Python's. *)")
    print(HEAD)
    r = random.Random(seed)
    for i in range(cases):
        print("\n".join(told(i, *(draw_overloaded(r) if i % 3 == 2 else draw(r)))))


main(*(int(word) for word in sys.argv[1:] + ["24", "2238"][len(sys.argv) - 1:]))
