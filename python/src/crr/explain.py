"""The command `crr explain`: a contract constraint by constraint, what it is paid and what it loads.

An amount is price * (source factor - sink factor) * quantity, which is one product and worked out here. What
they add up to is compared with what the library settles the contract to, hour by hour.
"""

from __future__ import annotations

from pathlib import Path
from typing import Dict, List, NamedTuple, Optional, Sequence, Tuple

from .case import Case, PricedHour, Term, Time
from .command import FOLDER, PASSES, Answer, argument, command, counted, objects
from .decimals import decimal
from .faults import Fault, Faults, brief, must_agree
from .feasibility import find_flows
from .files import Contract, write_book, write_prices
from .hour_commands import a_time, hour_of, time_words
from .interface import FLOW_PLACES, PART_PLACES, QUANTITY, SHADOW_PRICE, SHIFT_FACTOR
from .opening import judged_hours, opened, rounded_data, rounded_words
from .reading import READING, Reading
from .results import CENT_PLACES, dollars
from .settlement import Settler
from .terms import differ, on_day
from .to_csv import book_row, csv_text
from .words import TIMES_OF_USE, Kind

EXPLAINED = (
    *("CONSTRAINT_ID", "HOURS", "SHADOW_PRICE", "SOURCE_FACTOR", "SINK_FACTOR", "MW", "AMOUNT"),
    *("FLOW_MW", "CONSTRAINT_FLOW_MW"),
)


class Ends(NamedTuple):
    """The factors of a contract's source and sink on each constraint."""

    source: Sequence[int]
    sink: Sequence[int]

    @property
    def differences(self) -> List[int]:
        """Source factor - sink factor."""
        return [source - sink for source, sink in zip(self.source, self.sink)]


def _ends(case: Case, contract: Contract) -> Ends:
    count = len(case.names.constraints)
    rows = [case.factors[node * count : (node + 1) * count] for node in (contract.source, contract.sink)]
    return Ends(*rows)


class Paid(NamedTuple):
    """What hours paid a contract: on each constraint how many hours had a price, those prices added, and the
    exact amount, all in their units; what an option was not charged; the exact total; the rounded cents."""

    hours: List[int]
    prices: List[int]
    amounts: List[int]
    not_charged: int
    exact: int
    cents: int


def _flows(case: Case, number: int) -> Tuple[List[int], List[int]]:
    """The contract's flow on each constraint as it counts, and that of all contracts of its period, none
    where they are in force on different days. With that of the others the one must be the other."""
    contract, nodes, grid = case.book[number], len(case.names.nodes), case.grid
    alone = write_book(nodes, [contract], case.book_form)
    own = find_flows(grid, alone, contract.period).flows
    if differ(case):
        return own, []
    without = write_book(nodes, [*case.book[:number], *case.book[number + 1 :]], case.book_form)
    others, together = (find_flows(grid, book, contract.period).flows for book in (without, case.book_file()))
    must_agree("flows, one by one", [a + b for a, b in zip(own, others)], together)
    return own, together


def _paid(case: Case, number: int, hours: Sequence[PricedHour]) -> Paid:
    """What the hours of its period paid a contract, each compared with the library's."""
    contract, differences = case.book[number], _ends(case, case.book[number]).differences
    alone = Settler(case.grid, write_book(len(case.names.nodes), [contract], case.book_form), 1)
    whole = Settler(case.grid, case.book_file(), len(case.book))
    count = len(differences)
    priced, prices, amounts = [0] * count, [0] * count, [0] * count
    not_charged = exact = cents = 0
    for hour in hours:
        name, file = time_words(hour), write_prices(hour.period, hour.prices)
        products = [price * diff * contract.quantity for price, diff in zip(hour.prices, differences)]
        total = sum(products)
        paid = max(0, total) if contract.kind == Kind.OPTION else total
        of_hour = alone.settle(file)
        whole.settle(file)
        must_agree(f"{name}, exact amount", paid, of_hour.whole * 10**PART_PLACES + of_hour.parts)
        must_agree(f"{name}, cents", alone.cents[0], whole.cents[number])
        must_agree(f"{name}, priced", sum(1 << k for k in range(count) if products[k]), whole.priced[number])
        for k, price in enumerate(hour.prices):
            priced[k] += price > 0
            prices[k] += price
            amounts[k] += products[k]
        not_charged, exact, cents = not_charged + paid - total, exact + paid, cents + whole.cents[number]
    return Paid(priced, prices, amounts, not_charged, exact, cents)


def _exact(amount: int) -> str:
    """10^-8 cents in dollars."""
    return decimal(amount, CENT_PLACES + PART_PLACES)


def _rows(case: Case, number: int, paid: Paid, priced_alone: bool) -> List[Tuple[object, ...]]:
    """A row for each constraint whose factors differ at the contract's ends, or for those that priced it
    alone; the largest amounts first."""
    contract = case.book[number]
    ends, (own, together) = _ends(case, contract), _flows(case, number)
    differ = [k for k, difference in enumerate(ends.differences) if difference]
    shown = [k for k in differ if paid.hours[k] or not priced_alone]
    return [
        (
            case.names.constraints[k],
            paid.hours[k],
            decimal(paid.prices[k], SHADOW_PRICE.places),
            *(decimal(factors[k], SHIFT_FACTOR.places) for factors in ends),
            decimal(contract.quantity, QUANTITY.places),
            _exact(paid.amounts[k]),
            *(decimal(flows[k], FLOW_PLACES) if flows else "" for flows in (own, together)),
        )
        for k in sorted(shown, key=lambda k: (-abs(paid.amounts[k]), k))
    ]


def _words(paid: Paid, hours: str) -> str:
    """How the constraints' amounts add up to what was paid."""
    said = f"{hours}: the constraints add up to {_exact(sum(paid.amounts))}"
    if paid.not_charged:
        said += f"; an option is not charged, here {_exact(paid.not_charged)}, so it is {_exact(paid.exact)}"
    verb = "charged" if paid.cents < 0 else "paid"
    return f"{said}; {verb} {dollars(abs(paid.cents))}, each hour rounded to the cent\n"


def _number(case: Case, crr_id: str) -> int:
    """The contract of a name."""
    if crr_id not in case.names.contracts:
        raise Faults([Fault("CRR_ID", 0, "", f"no contract {brief(crr_id)!r} in the book")])
    return case.names.contracts.index(crr_id)


def _term(case: Case, crr_id: str) -> Term:
    """When the contract of a name is in force."""
    number = _number(case, crr_id)
    return case.terms[number] if case.terms else Term()


def _check_in_force(crr_id: str, term: Term, day: str) -> None:
    if not term.covers(day):
        raise Faults([Fault("CRR_ID", 0, "", f"{crr_id} is in force {term.words}, and not on {day}")])


@command(
    "explain",
    "a contract constraint by constraint: price * (source factor - sink factor) * MW, which add up to what "
    "it is paid, and its flow of each constraint's",
    FOLDER,
    argument("crr_id", metavar="CRR_ID", help="the contract, by its name in the book"),
    argument(
        "time",
        nargs="?",
        type=a_time,
        metavar="HOUR",
        help="such as '2026-07-01 HE08' or 2026-07-01/8: what priced it then; without it, every constraint "
        "that it loads, and all hours together",
    ),
    *READING,
)
def explain(folder: Path, crr_id: str, time: Optional[Time], reading: Reading) -> Answer:
    """What a contract is paid and what it loads, constraint by constraint."""
    case = opened(folder, reading, terms=True)
    term = _term(case, crr_id)
    priced = judged_hours(case, reading)
    asked = [hour_of(priced, time)] if time else priced
    if time:
        _check_in_force(crr_id, term, time[0])
        case = on_day(case, time[0])
    number = _number(case, crr_id)
    contract, names = case.book[number], case.names
    hours = [hour for hour in asked if hour.period == contract.period and term.covers(hour.day)]
    paid = _paid(case, number, hours)
    rows = _rows(case, number, paid, priced_alone=time is not None)
    period = TIMES_OF_USE[contract.period]
    which = time_words(asked[0]) if time else f"{counted(len(hours), 'hour')} {period} of {len(asked):,}"
    terms = book_row(names, crr_id, contract)
    note = f"{crr_id}: {terms[1]}, {terms[2]} {period}, {terms[4]} to {terms[5]}, {terms[6]} MW\n"
    if time and not hours:
        note += f"{which}: no hour of the contract's period, {period}, so nothing is paid\n"
    else:
        note += _words(paid, which)
    data: Dict[str, object] = {"crr_id": crr_id, "hours": len(hours), "constraints": objects(EXPLAINED, rows)}
    data.update(constraints_total=_exact(sum(paid.amounts)), not_charged=_exact(paid.not_charged))
    data.update(exact_total=_exact(paid.exact), amount=dollars(paid.cents), **rounded_data(case))
    return Answer(PASSES, csv_text(EXPLAINED, rows), data, note + rounded_words(case).lstrip("; "))
