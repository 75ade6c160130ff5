"""Congestion revenue rights: the simultaneous feasibility test and hourly settlement, over a proved library.

Every function of include/crr.h has one of its name here, without `crr_`; figures are whole numbers in that
header's units. Input that is turned down raises `Refused`. CSV files are read and written by `crr.from_csv`
and `crr.to_csv`, DataFrames by `crr.frames`, bin files by `crr.packed`, grids made of lines by `crr.network`;
many hours are settled by `settle_hours`.
"""

from importlib import import_module
from types import ModuleType
from typing import TYPE_CHECKING, List

from .dates import hour_period, month_hours, month_later, weekday
from .exposure import ExactCents, Exposure, Shortfall, find_exposure, find_shortfall
from .feasibility import (
    Added,
    Cut,
    Flows,
    Verdict,
    add_flows,
    find_cuts,
    find_flows,
    judge_flows,
    released_percent,
    test_book,
)
from .files import (
    Contract,
    Grid,
    Prices,
    add_hub_contract,
    read_book,
    read_book_cells,
    read_book_form,
    read_grid,
    read_prices,
    remap_book,
    write_book,
    write_grid,
    write_prices,
    write_canonical_book,
)
from .hours import PriceFile, Settled, settle_hours
from .interface import MEANINGS
from .migration import migrate_load, net_transfers
from .native import Refused
from .running import RunningTest, add_award, mark_tier, open_running, return_to_tier
from .settlement import Hour, HourTotal, HubMcc, Settler, find_hub_mcc, find_mcc, settle_hour
from .shares import share_balance
from .texts import refusal_text, write_report, write_statement
from .version import __version__
from .views import Held, read_holder_view, write_holder_view, write_market_view
from .words import PERIODS, PROCESSES, Kind, Period, Process

if TYPE_CHECKING:
    from . import frames, from_csv, network, packed, terms, to_csv

OBLIGATION, OPTION = Kind.OBLIGATION, Kind.OPTION
OFF_PEAK, ON_PEAK = Period.OFF_PEAK, Period.ON_PEAK
ANNUAL, TIER_LT, MONTHLY = Process.ANNUAL, Process.TIER_LT, Process.MONTHLY

# imported when they are first asked for
_MODULES = ("frames", "from_csv", "network", "packed", "terms", "to_csv")


def __getattr__(name: str) -> ModuleType:
    if name in _MODULES:
        return import_module(f".{name}", __name__)
    raise AttributeError(f"module {__name__!r} has no attribute {name!r}")


def __dir__() -> List[str]:
    return sorted({*globals(), *_MODULES})


__all__ = [
    "ANNUAL",
    "MEANINGS",
    "MONTHLY",
    "OBLIGATION",
    "OFF_PEAK",
    "ON_PEAK",
    "OPTION",
    "PERIODS",
    "PROCESSES",
    "TIER_LT",
    "Added",
    "Contract",
    "Cut",
    "ExactCents",
    "Exposure",
    "Flows",
    "Grid",
    "Held",
    "Hour",
    "HourTotal",
    "HubMcc",
    "Kind",
    "Period",
    "PriceFile",
    "Prices",
    "Process",
    "Refused",
    "RunningTest",
    "Settled",
    "Settler",
    "Shortfall",
    "Verdict",
    "__version__",
    "add_award",
    "add_flows",
    "add_hub_contract",
    "find_cuts",
    "find_exposure",
    "find_flows",
    "find_hub_mcc",
    "find_mcc",
    "find_shortfall",
    "frames",
    "from_csv",
    "hour_period",
    "judge_flows",
    "mark_tier",
    "migrate_load",
    "month_hours",
    "month_later",
    "net_transfers",
    "network",
    "open_running",
    "packed",
    "read_book",
    "read_book_cells",
    "read_book_form",
    "read_grid",
    "read_holder_view",
    "read_prices",
    "refusal_text",
    "released_percent",
    "remap_book",
    "return_to_tier",
    "settle_hour",
    "settle_hours",
    "share_balance",
    "terms",
    "test_book",
    "to_csv",
    "weekday",
    "write_book",
    "write_grid",
    "write_holder_view",
    "write_market_view",
    "write_prices",
    "write_report",
    "write_canonical_book",
    "write_statement",
]
