"""The report as one HTML file: inline SVG, no script, nothing fetched, the same bytes for the same input.

What the figures are, and which of them are the library's, stands on the page itself; this module draws.
"""

from __future__ import annotations

from fractions import Fraction
from html import escape
from typing import Callable, Dict, List, Mapping, NamedTuple, Optional, Sequence, Tuple

from .decimals import decimal
from .drawing import (
    HATCH,
    bar,
    broken,
    exact_megawatts,
    exact_money,
    folded,
    grouped,
    limit_words,
    line,
    megawatts,
    money,
    row,
    share,
)
from .exposure import ExactCents, Exposure
from .exposures import cost_words, dollar_words, price_words
from .feasibility import Flows, Verdict
from .inputs import Input
from .interface import FLOW_PLACES, LIMIT, OFF_PEAK, ON_PEAK, SHADOW_PRICE
from .results import dollars
from .style import CSS
from .words import PERIODS, PROCESSES, Line

MOST_LOADED = 15  # constraints shown at once, and all that are overloaded; the others are folded
MOST_HOLDERS = 25
MOST_CUTS = 5
MOST_HOURS = 48
LONGEST = 1.5  # of a limit; a bar that is longer is broken


class Month(NamedTuple):
    """A month's days and hours; of these, off-peak and on-peak, how many were found and how many there are,
    where that is known, and whether that is all of them. In dollars its payments, rounded and exact, its
    congestion rent, and its shortfall, the exact payments less the rent."""

    name: str
    days: int
    hours: int
    found: Tuple[int, ...]
    there: Tuple[Optional[int], ...]
    whole: bool
    sum: str
    exact: str
    rent: str
    shortfall: str


class HourRow(NamedTuple):
    """An hour's exact payments, congestion rent and shortfall in dollars."""

    name: str
    exact: str
    rent: str
    shortfall: str


CutRow = Tuple[str, str, str, str, str]  # contract, holder, quantity, cut, and what is left, in MW


class Figures(NamedTuple):
    """All that the page shows."""

    title: str
    summary: str
    covered: str  # the days of the prices
    constraints: Sequence[str]
    limits: Sequence[int]
    percents: Sequence[int]  # by process
    verdicts: Dict[Line, Verdict]
    excesses: Mapping[Line, Sequence[int]]  # of each constraint; negative where there is room
    worst: Dict[Line, int]  # the constraint of the largest excess, where the book fails
    cuts: Mapping[Line, Sequence[CutRow]]  # where the book fails
    exposures: Mapping[Line, Exposure]  # where the book fails
    alone: Mapping[Line, Mapping[int, ExactCents]]  # what each overloaded constraint costs alone
    flows: Sequence[Flows]  # by period
    holders: Sequence[Tuple[str, int]]  # cents
    process: int  # whose rent and shortfall are given
    months: Sequence[Month]  # the last one: all of them
    hours: Sequence[HourRow]  # those of the largest shortfalls
    short: int  # hours whose shortfall is above 0
    inputs: Sequence[Input]
    library: Input


def _where(figures: Figures, at: Line) -> str:
    """Where a book fails: at the lowest-numbered constraint, and at the worst."""
    verdict, worst = figures.verdicts[at], figures.worst[at]
    lowest = f"{escape(figures.constraints[verdict.lowest])}, by {exact_megawatts(verdict.excess)} MW"
    if verdict.count == 1:
        return f"<p>1 constraint overloaded: {lowest}.</p>"
    said = f"<p>{verdict.count:,} constraints overloaded.</p>"
    if worst == verdict.lowest:
        return f"{said}<p>Lowest numbered and worst: {lowest}.</p>"
    most = f"{escape(figures.constraints[worst])}, by {exact_megawatts(figures.excesses[at][worst])} MW"
    return f"{said}<p>Lowest numbered: {lowest}.</p><p>Worst: {most}.</p>"


def _verdict_card(figures: Figures, period: int, process: int) -> str:
    verdict = figures.verdicts[period, process]
    percent = f"<span class=faint>({figures.percents[process]}% released)</span>"
    head = f"<h3>{PERIODS[period].capitalize()}, {PROCESSES[process]} {percent}</h3>"
    if verdict.passed:
        return f"<li class=pass>{head}<b>\u2713 pass</b></li>"
    return (
        f"<li class=fail>{head}<b>\u2717 FAIL</b>{_where(figures, (period, process))}"
        f"<p>{_at_worst(figures, (period, process))}.</p>"
        f"{_cut_table(figures.cuts[period, process])}</li>"
    )


def _at_worst(figures: Figures, at: Line) -> str:
    """What a failing book costs at worst."""
    if at not in figures.exposures:
        return "What an hour pays at worst is told for grids of the library's sizes alone"
    return f"At worst an hour pays {cost_words(figures.exposures[at])} more than its congestion rent"


def _alone_row(name: str, cost: ExactCents, listed: bool, full: Fraction) -> str:
    """What a constraint costs alone, as a bar, and whether it is on the list that costs the most."""
    amount, said = dollar_words(cost), "on the list" if listed else "not on the list"
    picture = bar(
        f"{name}: {amount} alone, {said}",
        0,
        float(100 * cost.exact / full),
        "over" if listed else "some",
        "",
    )
    return row(name, picture, amount, said)


def _exposure_part(figures: Figures, at: Line) -> str:
    """A period and process in which the book fails: what it costs at worst, and a bar by constraint."""
    exposure, alone, (period, process) = figures.exposures[at], figures.alone[at], at
    full = max(cost.exact for cost in alone.values())
    rows = [
        _alone_row(figures.constraints[k], alone[k], exposure.prices[k] > 0, full)
        for k in sorted(alone, key=lambda k: (-alone[k].exact, k))
    ]
    more = f"<table class=bars>{''.join(rows[MOST_LOADED:])}</table>"
    rest = folded(f"{len(rows) - MOST_LOADED} more constraints", more) if rows[MOST_LOADED:] else ""
    prices = escape(price_words(exposure.prices, figures.constraints))
    return (
        f"<h3>{PERIODS[period].capitalize()}, {PROCESSES[process]}</h3>"
        f"<p>{_at_worst(figures, at)}: at {prices}, and 0 elsewhere.</p>"
        f"<table class=bars>{''.join(rows[:MOST_LOADED])}</table>{rest}"
    )


def _exposure_section(figures: Figures) -> str:
    lines = sorted(figures.exposures, key=lambda at: (-at[0], at[1]))  # as the verdicts stand
    parts = "".join(_exposure_part(figures, at) for at in lines)
    highest = money(decimal(SHADOW_PRICE.high, SHADOW_PRICE.places))
    return (
        "<section class=loading><h2>What the book can cost at worst</h2><p class=faint>The most that any "
        f"list of shadow prices, $0 to {highest} per MWh on each constraint, makes an hour's payments exceed "
        "its congestion rent, and such a list. Where more than ten constraints are overloaded it may be "
        "between two figures, the first of which the list reaches. A bar is what an overloaded constraint "
        f"costs alone, at {highest} per MWh there and 0 elsewhere; together they cost the sum or, with "
        f"options, less.</p>{parts}</section>"
    )


def _cut_table(rows: Sequence[CutRow]) -> str:
    """The contracts each of which clears the book by a cut of its own, the smallest cut first."""
    if not rows:
        return "<p>No cut of a single contract clears it.</p>"
    drawn = [
        f"<tr><th scope=row>{escape(contract)} <small>{escape(holder)}</small></th>"
        f"<td class=figure>{grouped(cut)}</td><td class=figure>{grouped(left)}</td></tr>"
        for contract, holder, _, cut, left in rows
    ]
    head = (
        "<tr><th scope=col>contract</th><th scope=col class=figure>cut, MW</th>"
        "<th scope=col class=figure>left, MW</th></tr>"
    )
    more = drawn[MOST_CUTS:]
    rest = folded(f"{len(more):,} more", f"<table class=cuts>{head}{''.join(more)}</table>") if more else ""
    which = "Any one of these cuts" if len(rows) > 1 else "This cut"
    return f"<p>{which} clears it:</p><table class=cuts>{head}{''.join(drawn[:MOST_CUTS])}</table>{rest}"


def _verdict_section(figures: Figures) -> str:
    cards = "".join(
        _verdict_card(figures, period, process) for period in (1, 0) for process in range(len(PROCESSES))
    )
    return (
        "<section><h2>Simultaneous feasibility test</h2><p>A book passes exactly when no list of shadow "
        "prices makes the holders' "
        f"net payment exceed the congestion rent.</p><ul class=verdicts>{cards}</ul></section>"
    )


class _Loading(NamedTuple):
    """A constraint's loading: over in which processes, and its flow as a share of its limit."""

    k: int
    over: List[int]
    share: float


def _loadings(figures: Figures, period: int) -> List[_Loading]:
    """Constraints by their share, the fullest first. Which are over is what the test said, not a comparison
    made here."""
    out = []
    for k, (limit, flow) in enumerate(zip(figures.limits, figures.flows[period].flows)):
        over = [
            process for process in range(len(PROCESSES)) if figures.verdicts[period, process].set >> k & 1
        ]
        scale = 10 ** (FLOW_PLACES - LIMIT.places)
        out.append(_Loading(k, over, flow / (limit * scale) if limit else float(flow > 0) * 1e9))
    return sorted(out, key=lambda loading: (-loading.share, -figures.flows[period].flows[loading.k]))


def _over_words(figures: Figures, period: int, loading: _Loading) -> List[str]:
    """In which processes a constraint is over, and by how much."""
    by = {process: exact_megawatts(figures.excesses[period, process][loading.k]) for process in loading.over}
    return [f"over {PROCESSES[process]} by {excess} MW" for process, excess in by.items()] or ["within"]


def _loading_row(figures: Figures, period: int, loading: _Loading, full: float) -> str:
    k, name, limit = loading.k, figures.constraints[loading.k], figures.limits[loading.k]
    flow = figures.flows[period].flows[k]
    of_limit = share(flow, limit) if limit else "limit 0"
    said = _over_words(figures, period, loading)
    kind = "within" if not loading.over else "over" if len(loading.over) == len(PROCESSES) else "some"
    marks = "".join(
        line(percent / full, f"mark{process}") for process, percent in enumerate(figures.percents)
    )
    end = 100 * max(0.0, min(loading.share, full)) / full
    if loading.share > full:
        marks += broken(of_limit)
    words = ", ".join([of_limit, *said])
    label = f"{name}: {grouped(decimal(flow, FLOW_PLACES))} MW of {limit_words(limit)} MW, {words}"
    more = [of_limit, *said] if loading.over else [f"{of_limit}, {said[0]}"]
    return row(name, bar(label, 0, end, kind, marks), f"{megawatts(flow)} of {limit_words(limit)} MW", *more)


def _legend(figures: Figures, beyond: bool) -> str:
    keys = [("within", "within in every process"), ("some", "over in some"), ("over", "over in all")]
    boxes = "".join(f"<span>{_sample(bar(text, 0, 100, kind, ''))}{text}</span>" for kind, text in keys)
    lines = "".join(
        f'<span><svg aria-hidden="true">{line(50, f"mark{process}")}</svg>'
        f"{PROCESSES[process]} {percent}%</span>"
        for percent, process in sorted((percent, process) for process, percent in enumerate(figures.percents))
    )
    cut = (
        f"<p class=legend>A bar of more than {100 * LONGEST:.0f}% is broken off; its figure stands behind "
        "the break.</p>"
        if beyond
        else ""
    )
    return f"<p class=legend>{boxes}</p><p class=legend>Released shares of the limit: {lines}</p>{cut}"


def _sample(picture: str) -> str:
    return picture.replace('y="4"', 'y="0"')


def _loading_section(figures: Figures, period: int) -> str:
    loadings = _loadings(figures, period)
    full = 1.04 * max([1.0] + [min(loading.share, LONGEST) for loading in loadings])
    rows = [_loading_row(figures, period, loading, full) for loading in loadings]
    shown = max(MOST_LOADED, sum(1 for loading in loadings if loading.over))
    rest = f"<table class=bars>{''.join(rows[shown:])}</table>"
    more = folded(f"{len(rows) - shown} less loaded constraints", rest) if rows[shown:] else ""
    beyond = any(loading.share > full for loading in loadings)
    table = f"{_legend(figures, beyond)}<table class=bars>{''.join(rows[:shown])}</table>{more}"
    counted = figures.flows[period].counted
    return (
        f"<section class=loading><h2>Loading of constraints, {PERIODS[period]}</h2><p class=faint>Flow of "
        f"{counted:,} contract{'' if counted == 1 else 's'} as a share of each limit, the fullest first; "
        "where it is over, by how much it exceeds the released limit.</p>"
        f"{table if rows else '<p>The grid has no constraints.</p>'}</section>"
    )


def _holder_section(figures: Figures) -> str:
    """The largest payments and charges, from most paid to most charged; all others unfold."""
    by_size = sorted(figures.holders, key=lambda holder: -abs(holder[1]))
    amounts = [cents for _, cents in by_size]
    low, high = min([0] + amounts), max([1] + amounts)
    place: Callable[[int], float] = lambda cents: 100 * (cents - low) / (high - low)

    def table(holders: Sequence[Tuple[str, int]]) -> str:
        drawn = []
        for name, cents in sorted(holders, key=lambda holder: -holder[1]):
            said = "paid" if cents > 0 else "charged" if cents < 0 else ""
            start, end = sorted((place(0), place(cents)))
            kind, amount = "over" if cents < 0 else "within", money(dollars(cents))
            drawn.append(
                row(
                    name,
                    bar(f"{name}: {amount} {said}", start, end, kind, line(place(0), "mark2")),
                    amount,
                    said,
                )
            )
        return f"<table class=bars>{''.join(drawn)}</table>"

    others = by_size[MOST_HOLDERS:]
    together = money(dollars(sum(cents for _, cents in others)))
    rest = folded(f"{len(others):,} others, together {together}", table(others)) if others else ""
    return f"<section><h2>Payments by holder</h2>{table(by_size[:MOST_HOLDERS])}{rest}</section>"


_MONTHS = (
    "month",
    "days",
    "on-peak hours",
    "off-peak hours",
    "payments, rounded cents",
    "payments, exact",
    "congestion rent",
    "shortfall",
)


def _of(month: Month, period: int) -> str:
    """16 of 416."""
    there = month.there[period]
    return f"{month.found[period]:,}" + ("" if there is None else f" of {there:,}")


def _month_section(figures: Figures) -> str:
    rows = []
    for month in figures.months:
        amounts = (
            f"{month.days:,}",
            _of(month, ON_PEAK),
            _of(month, OFF_PEAK),
            *map(exact_money, (month.sum, month.exact, month.rent, month.shortfall)),
        )
        cells = "".join(
            f'<td class=figure data-name="{name}">{figure}</td>' for name, figure in zip(_MONTHS[1:], amounts)
        )
        part = "" if month.whole else "<br><span class=faint>not whole</span>"
        rows.append(f"<tr><th scope=row>{escape(month.name)}{part}</th>{cells}</tr>")
    heads = "".join(f"<th scope=col class=figure>{name}</th>" for name in _MONTHS[1:])
    others = [
        f"{percent}% ({PROCESSES[process]})"
        for process, percent in enumerate(figures.percents)
        if process != figures.process
    ]
    name = PROCESSES[figures.process]
    return (
        '<section><h2>Payments, congestion rent and shortfall by month</h2><table class="plain months">'
        f"<tr class=heads><th scope=col>{_MONTHS[0]}</th>{heads}</tr>{''.join(rows)}</table>"
        "<p class=faint>Congestion rent: each hour's shadow price of each constraint times the limit that "
        f"the {name} process releases, {figures.percents[figures.process]}% of it, added up over constraints "
        f"and hours. The other processes release {' and '.join(others)} of each limit. Shortfall: the exact "
        "payments less this rent, negative where the rent is more than enough. Where the book passes in the "
        f"{name} process, no hour's is above 0.</p>{_hour_table(figures)}</section>"
    )


def _hour_table(figures: Figures) -> str:
    """The hours of the largest shortfalls, folded."""
    hours, short = figures.months[-1].hours, figures.short
    rows = "".join(
        f"<tr><th scope=row>{escape(hour.name)}</th>"
        + "".join(
            f'<td class=figure data-name="{name}">{exact_money(figure)}</td>'
            for name, figure in zip(_MONTHS[-3:], hour[1:])
        )
        + "</tr>"
        for hour in figures.hours
    )
    heads = "".join(f"<th scope=col class=figure>{name}</th>" for name in _MONTHS[-3:])
    table = (
        f'<table class="plain months"><tr class=heads><th scope=col>hour</th>{heads}</tr>{rows}</table>'
    )
    which = "Hour by hour" if hours <= MOST_HOURS else f"The first {MOST_HOURS} of {hours:,} hours"
    falling = "no hour falls" if not short else "1 hour falls" if short == 1 else f"{short:,} hours fall"
    return folded(f"{which}, the largest shortfall first; {falling} short", table)


def _input_section(figures: Figures) -> str:
    rows = "".join(
        f"<tr><td>{escape(file.name)}</td><td class=figure>{file.bytes:,} bytes</td>"
        f"<td><code>{file.sha256}</code></td></tr>"
        for file in (*figures.inputs, figures.library)
    )
    return (
        "<section><h2>Files that this page is on, and the library</h2>"
        f'<table class="plain hashes">{rows}</table>'
        "<p class=faint>SHA-256 of each, of the bytes as they were read.</p></section>"
    )


_NOTE = (
    "<p class=faint>The proved library's own figures: whether the book passes, which constraints are "
    "overloaded, how many, the lowest numbered and its excess; the flows; the released shares; the cuts; "
    "what the book can cost at worst, at which prices, and what a constraint costs alone; each hour's cents "
    "of each contract, their sum and the exact total, its congestion rent and its shortfall. Worked out here "
    "from these, in whole numbers: the excess at every other constraint (its flow less its released limit) "
    "and which is the worst; the sums over hours, by holder and by month; the shares in percent.</p>"
)


def is_page(name: str, data: bytes) -> bool:
    """Whether a file is a page of these."""
    return data.startswith(b"<!doctype html>\n") and b": congestion revenue rights</title>" in data[:4096]


def page(figures: Figures) -> str:
    """The page."""
    title = escape(figures.title)
    head = (
        '<!doctype html>\n<html lang="en"><head><meta charset="utf-8">'
        '<meta name="viewport" content="width=device-width, initial-scale=1">'
        f"<title>{title}: congestion revenue rights</title><style>{CSS}</style></head>\n"
    )
    about = f"<p class=faint>{escape(figures.summary)}</p><p class=faint>{escape(figures.covered)}</p>"
    parts = [f"<header><h1>{title}</h1>{about}</header>", _verdict_section(figures)]
    parts += [_exposure_section(figures)] if figures.exposures else []
    parts += [_loading_section(figures, period) for period in (1, 0)]
    parts += [_holder_section(figures), _month_section(figures)] if figures.months else []
    parts += [_input_section(figures), _NOTE]
    return f"{head}<body>{HATCH}<main>\n" + "\n".join(parts) + "\n</main></body></html>\n"
