"""Contracts in force: which of a book's contracts count on a day, by their first and last days.

A term's days both count. A contract without a first day was always in force, one without a last day stays so.
Where terms differ the book is cut: each hour is settled over the contracts in force on its day, and the test
is made for each stretch of days on which the same contracts are in force. Every figure is the library's, on
the book that was cut.
"""

from __future__ import annotations

from dataclasses import replace
from datetime import date
from typing import Callable, Dict, List, NamedTuple, Optional, Sequence, Tuple, TypeVar

from .case import Case, Term
from .command import FAILS, PASSES, Answer, argument, counted
from .days import a_day
from .faults import Fault, Faults
from .hours import Progress, Settled
from .settlement import HourTotal
from .to_csv import csv_rows, csv_text

ON = argument(
    "--on",
    type=a_day,
    metavar="DATE",
    help="take the contracts in force on this day, YYYY-MM-DD; without it, each set of contracts in force "
    "together",
)


def differ(case: Case) -> bool:
    """Whether some contracts are in force on days on which others are not."""
    return len(set(case.terms)) > 1


def in_force(case: Case, day: str) -> List[int]:
    """The contracts in force on a day, by number."""
    if not case.terms:
        return list(range(len(case.book)))
    return [number for number, term in enumerate(case.terms) if term.covers(day)]


def on_day(case: Case, day: str) -> Case:
    """The case with the contracts in force on a day, without their terms."""
    if case.terms and not day:
        raise Faults([_no_day(case)])
    return replace(case.cut(in_force(case, day)), terms=[]) if case.terms else case


def _no_day(case: Case) -> Fault:
    text = "an hour without a day, and contracts that have first or last days: which are in force?"
    return Fault("prices.csv" if case.is_csv else "prices.bin", 0, "", text)


class Span(NamedTuple):
    """A stretch of days, and the contracts in force on all of them."""

    days: Term
    contracts: List[int]


def _ordinals(term: Term) -> Tuple[int, int]:
    """The first day of a term and the one behind its last, as `date` counts them; 0 and a number beyond all
    days where it is open."""
    start = date.fromisoformat(term.start).toordinal() if term.start else 0
    return start, date.fromisoformat(term.end).toordinal() + 1 if term.end else _NEVER


_NEVER = date.max.toordinal() + 1


def spans(case: Case) -> List[Span]:
    """The stretches of days on which the same contracts are in force, in their order, where there are any."""
    terms = [_ordinals(term) for term in case.terms]
    bounds = sorted({0, _NEVER, *(day for term in terms for day in term)})
    found = []
    for first, behind in zip(bounds, bounds[1:]):
        contracts = [number for number, (start, end) in enumerate(terms) if start <= first < end]
        start = date.fromordinal(first).isoformat() if first else ""
        end = date.fromordinal(behind - 1).isoformat() if behind < _NEVER else ""
        found += [Span(Term(start, end), contracts)] if contracts else []
    return found


def by_span(case: Case, on: Optional[str], judge: Callable[[Case], Answer], lists: str) -> Answer:
    """The answer for a book whose contracts are in force together, or for those in force on a day; else one
    for each stretch of days, in one table that says from when to when. `lists` is where the answer's data has
    its rows."""
    if on:
        cut = on_day(case, on)
        answer = judge(cut)
        count = f"{len(cut.book):,} of {counted(len(case.book), 'contract')}"
        return answer._replace(data={"on": on, **answer.data}, note=f"{on}: {count} in force\n{answer.note}")
    if not differ(case):
        return judge(case)
    answers: Dict[Tuple[int, ...], Answer] = {}  # by the contracts in force
    rows: List[Sequence[object]] = []
    data: List[object] = []
    heading: Sequence[str] = ()
    note = ""
    for span in spans(case):
        contracts = tuple(span.contracts)
        if contracts not in answers:
            answers[contracts] = judge(replace(case.cut(span.contracts), terms=[]))
        answer = answers[contracts]
        heading, of_span = csv_rows(answer.text)
        rows += [(*span.days, *row) for row in of_span]
        dates = {"start_date": span.days.start or None, "end_date": span.days.end or None}
        listed = answer.data[lists]
        data += [{**dates, **row} for row in listed] if isinstance(listed, list) else []
        note += "".join(f"{span.days.words}: {line}\n" for line in answer.note.splitlines())
    status = FAILS if any(answer.status == FAILS for answer in answers.values()) else PASSES
    text = csv_text(("START_DATE", "END_DATE", *heading), rows)
    return Answer(status, text, {"passed": status == PASSES, lists: data}, note)


class Part(NamedTuple):
    """Hours, by their places, on which the same contracts are in force, and the case of these."""

    hours: List[int]
    contracts: List[int]
    case: Case


def parts(case: Case) -> List[Part]:
    """The hours of a case by the contracts in force on their days."""
    if any(not hour.day for hour in case.hours):
        raise Faults([_no_day(case)])
    of_day: Dict[str, Tuple[int, ...]] = {}
    hours: Dict[Tuple[int, ...], List[int]] = {}
    for place, hour in enumerate(case.hours):
        if hour.day not in of_day:
            of_day[hour.day] = tuple(in_force(case, hour.day))
        hours.setdefault(of_day[hour.day], []).append(place)
    found = []
    for contracts, places in hours.items():
        cut = case.cut(list(contracts))
        cut = replace(cut, terms=[], hours=[case.hours[place] for place in places])
        found.append(Part(places, list(contracts), cut))
    return found


def idle_words(case: Case) -> str:
    """How many contracts are in force on no day that has prices, behind other words."""
    days = {hour.day for hour in case.hours}
    idle = sum(not any(map(term.covers, days)) for term in case.terms)
    return f"; {counted(idle, 'contract')} in force in none of these hours" if idle else ""


Each = TypeVar("Each")


def in_order(of_parts: Sequence[Part], results: Sequence[Sequence[Each]]) -> List[Each]:
    """What each part has for each of its hours, in the order of all hours."""
    placed: Dict[int, Each] = {}
    for part, of_part in zip(of_parts, results):
        placed.update(zip(part.hours, of_part))
    return [placed[place] for place in sorted(placed)]


Settle = Callable[[Case, Progress], Settled]


def settle_in_force(case: Case, settle: Settle, progress: Progress) -> Settled:
    """Settles each hour over the contracts in force on its day."""
    if not case.terms:
        return settle(case, progress)
    of_parts, results, before = parts(case), [], 0
    for part in of_parts:
        told = _counted_on(progress, before, len(case.hours))
        results.append(settle(part.case, told))
        before += len(part.hours)
    months: Dict[str, List[int]] = {}
    for part, result in zip(of_parts, results):
        for month, cents in result.months.items():
            cells = months.setdefault(month, [0] * len(case.book))
            for number, amount in zip(part.contracts, cents):
                cells[number] += amount
    hours: List[HourTotal] = in_order(of_parts, [result.hours for result in results])
    return Settled(hours, dict(sorted(months.items())))


def _counted_on(progress: Progress, before: int, total: int) -> Progress:
    """Progress of a part, told as that of the whole."""
    return lambda done, _: progress(before + done, total)
