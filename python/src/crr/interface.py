"""What include/crr.h says, in one place: sizes, units, refusals and declarations.

A test holds every line of it against the header, in both directions, so a change of the header is a change of
this module and of the function that it is about.
"""

from __future__ import annotations

import re
from typing import Dict, List, NamedTuple

# The number of the interface that the declarations below are of: a library of another is not loaded.
INTERFACE = 2

# Stack that is enough, for the two texts and what a book costs, and for any other function.
TEXT_STACK_BYTES = 200000
STACK_BYTES = 50000

# Sizes: the most that is accepted, and the longest files and texts.
MAX_NODES = 4000
MAX_NARROW_NODES = 200
MAX_CONSTRAINTS = 64
MAX_CONTRACTS = 1000
MAX_SUMMED = 20000000
MAX_COORDINATORS = 256
MAX_HUB_NODES = 32
MAX_LSES = 16
MAX_MIGRATION_ROWS = 1000
RUNNING_AWARDS = 6000
RUNNING_NUMBERS = 14
RUNNING_FLOWS = 320
MAX_CUSTOMERS = 1000000
MAX_CUSTOMER_LOAD = 10000
MAX_LOAD = 1000000000000
MAX_GRID_BYTES = 576220
MAX_BOOK_BYTES = 7002
MAX_HOLDER_VIEW_BYTES = 9000
MAX_PRICE_BYTES = 153
MAX_TEXT_GRID_BYTES = 32768
STATEMENT_BYTES = 29085
REPORT_BYTES = 2048
REFUSAL_TEXT_BYTES = 128

# The weights of a hub's nodes together.
HUB_WEIGHT = 100000

# The years of the calendar.
FIRST_YEAR = 2010
LAST_YEAR = 2037

# Forms of a grid's and a book's file.
NARROW = 0
WIDE = 1

# Periods and processes.
OFF_PEAK = 0
ON_PEAK = 1
ANNUAL = 0
TIER_LT = 1
MONTHLY = 2

# Tier LT's mark in a running test.
MARK_LT = 4


class Unit(NamedTuple):
    """How a figure is counted: a whole number of 10^-places, from low to high; another draws the refusal."""

    places: int
    low: int
    high: int
    refusal: int


QUANTITY = Unit(3, 1, 1_000_000, 13)  # MW
LIMIT = Unit(3, 0, 100_000_000, 6)  # MW
SHIFT_FACTOR = Unit(5, -100_000, 100_000, 7)
SHADOW_PRICE = Unit(2, 0, 500_000, 15)  # dollars per MWh
HOLDER = Unit(0, 0, 1_023, 18)
BALANCE = Unit(2, -1_000_000_000, 1_000_000_000, 26)  # dollars
DEMAND = Unit(0, 0, 1_000_000_000, 26)
WEIGHT = Unit(3, 1, 100_000, 24)  # percent of a hub
CUSTOMERS = Unit(0, 0, MAX_CUSTOMERS, 22)
CUSTOMER_LOAD = Unit(3, 0, MAX_CUSTOMER_LOAD, 22)  # MW per customer
LOAD = Unit(3, 0, MAX_LOAD, 22)  # MW
FLOW_PLACES = 8  # of a MW
MCC_PLACES = 5  # of a cent
HUB_PLACES = 5  # of an MCC: those of the hub's weight
PART_PLACES = 8  # of a cent

MEANINGS: Dict[int, str] = {
    1: "a file of fewer bytes than its header: two (grid, book), four (wide grid) or one (prices)",
    2: "nodes 0 or above 4,000; reading or writing a narrow grid, above 200",
    3: "constraints above 64",
    4: "the spare bits of a file's header have neither form's pattern",
    5: "a file's length differs from what its form and counts fix; a text's grid, also above 32,768 bytes",
    6: "a limit above 100,000,000",
    7: "a factor below -100,000 or above 100,000",
    8: "a padding bit at a file's end is set",
    9: "a lent table, or a place for an answer, of too few cells; remapping, unequal lists",
    10: "more than 1,000 contracts, a book that would grow past 1,000, or a 1,001st award",
    11: "a source, sink or listed node not below the node count; written to a narrow book, above 255",
    13: "quantity 0 or above 1,000,000",
    14: "the price file's constraint count differs from the one stated",
    15: "a price above 500,000",
    16: "process not 0 to 2",
    17: "a period not 0 or 1; writing a book, adding to one or adding an award, a kind or period not 0 or 1",
    18: "holder above 1,023",
    19: "a date or month that does not exist or is outside 2010 to 2037",
    20: "running test: a tier not 1 to 4, or returning to one that is not marked",
    21: "running test: with the award some flow would exceed its released limit",
    22: "load migration: a figure, count or LSE number outside its range, unequal lists, "
    "or a row whose old and new LSE are one",
    23: "load migration: an LSE that loses load has none, or less than its losses to all gainers",
    24: "a hub not of 1 to 32 nodes, unequal lists, or weights outside 1 to 100,000 or not together 100,000",
    25: "a node listed twice in a hub",
    26: "sharing a balance: no demands or more than 256, or a balance or demand outside its range",
    27: "sharing a balance: the demands total 0",
}

# Every function returns uint64_t: the number of the refusal or 0, and crr_interface its own number.
DECLARATIONS: Dict[str, str] = {
    "crr_interface": "void",
    "crr_refusal_text": "uint64_t number, uint8_t *text, size_t text_len, size_t *bytes",
    "crr_read_grid": "const uint8_t *file, size_t file_len, uint64_t *limits, size_t limits_len, "
    "int64_t *factors, size_t factors_len, size_t *nodes, size_t *constraints, uint64_t *form",
    "crr_write_grid": "uint64_t form, size_t nodes, size_t constraints, const uint64_t *limits, "
    "size_t limits_len, const int64_t *factors, size_t factors_len, uint8_t *file, size_t file_len, "
    "size_t *bytes",
    "crr_read_book": "size_t nodes, const uint8_t *file, size_t file_len, uint64_t *book, size_t book_len, "
    "size_t *contracts, uint64_t *form",
    "crr_write_book": "uint64_t form, size_t nodes, size_t contracts, const uint64_t *book, size_t book_len, "
    "uint8_t *file, size_t file_len, size_t *bytes",
    "crr_remap_book": "size_t nodes, const uint8_t *book, size_t book_len, const uint64_t *old_nodes, "
    "size_t old_len, const uint64_t *new_nodes, size_t new_len, uint8_t *file, size_t file_len, "
    "size_t *bytes",
    "crr_write_market_view": "size_t nodes, const uint8_t *book, size_t book_len, uint8_t *file, "
    "size_t file_len, size_t *bytes",
    "crr_write_holder_view": "size_t nodes, const uint8_t *book, size_t book_len, uint64_t holder, "
    "uint8_t *view, size_t view_len, size_t *bytes",
    "crr_write_canonical_book": "size_t nodes, const uint8_t *book, size_t book_len, uint8_t *file, "
    "size_t file_len, size_t *bytes",
    "crr_add_hub_contract": "size_t nodes, const uint8_t *book, size_t book_len, uint64_t kind, "
    "uint64_t period, uint64_t holder, const uint64_t *hub_nodes, size_t hub_nodes_len, "
    "const uint64_t *hub_weights, size_t hub_weights_len, uint64_t sink, uint64_t quantity, uint8_t *file, "
    "size_t file_len, size_t *bytes",
    "crr_read_prices": "size_t constraints, const uint8_t *file, size_t file_len, uint64_t *prices, "
    "size_t prices_len, uint64_t *period",
    "crr_write_prices": "uint64_t period, size_t constraints, const uint64_t *prices, size_t prices_len, "
    "uint8_t *file, size_t file_len, size_t *bytes",
    "crr_test_book": "size_t nodes, size_t constraints, uint64_t process, uint64_t period, "
    "const uint64_t *limits, size_t limits_len, const int64_t *factors, size_t factors_len, "
    "const uint8_t *book, size_t book_len, uint64_t *set, size_t *count, size_t *lowest, int64_t *excess",
    "crr_find_flows": "size_t nodes, size_t constraints, uint64_t period, const uint64_t *limits, "
    "size_t limits_len, const int64_t *factors, size_t factors_len, const uint8_t *book, size_t book_len, "
    "int64_t *flows, size_t flows_len, size_t *counted",
    "crr_add_flows": "size_t nodes, size_t constraints, uint64_t period, const uint64_t *limits, "
    "size_t limits_len, const int64_t *factors, size_t factors_len, const uint8_t *book, size_t book_len, "
    "int64_t *flows, size_t flows_len, size_t *count, size_t *counted",
    "crr_judge_flows": "size_t constraints, uint64_t process, const uint64_t *limits, size_t limits_len, "
    "const int64_t *flows, size_t flows_len, size_t summed, uint64_t *set, size_t *count, size_t *lowest, "
    "int64_t *excess",
    "crr_find_cuts": "size_t nodes, size_t constraints, uint64_t process, uint64_t period, "
    "const uint64_t *limits, size_t limits_len, const int64_t *factors, size_t factors_len, "
    "const uint8_t *book, size_t book_len, uint64_t *numbers, size_t numbers_len, uint64_t *cuts, "
    "size_t cuts_len, size_t *listed",
    "crr_find_shortfall": "size_t nodes, size_t constraints, uint64_t process, uint64_t period, "
    "const uint64_t *limits, size_t limits_len, const int64_t *factors, size_t factors_len, "
    "const uint64_t *prices, size_t prices_len, const uint8_t *book, size_t book_len, "
    "int64_t *payment_whole, uint64_t *payment_parts, int64_t *rent_whole, uint64_t *rent_parts, "
    "int64_t *shortfall_whole, uint64_t *shortfall_parts",
    "crr_find_exposure": "size_t nodes, size_t constraints, uint64_t process, uint64_t period, "
    "const uint64_t *limits, size_t limits_len, const int64_t *factors, size_t factors_len, "
    "const uint8_t *book, size_t book_len, uint64_t *prices, size_t prices_len, int64_t *least_whole, "
    "uint64_t *least_parts, int64_t *most_whole, uint64_t *most_parts",
    "crr_open_running": "size_t nodes, size_t constraints, uint64_t process, uint64_t period, "
    "const uint64_t *limits, size_t limits_len, const int64_t *factors, size_t factors_len, "
    "const uint64_t *awards, size_t awards_len, uint64_t *numbers, size_t numbers_len, int64_t *flows, "
    "size_t flows_len",
    "crr_add_award": "size_t nodes, size_t constraints, uint64_t process, uint64_t period, "
    "const uint64_t *limits, size_t limits_len, const int64_t *factors, size_t factors_len, "
    "const uint64_t *award, size_t award_len, uint64_t *awards, size_t awards_len, uint64_t *numbers, "
    "size_t numbers_len, int64_t *flows, size_t flows_len",
    "crr_mark_tier": "uint64_t tier, uint64_t *numbers, size_t numbers_len, int64_t *flows, size_t flows_len",
    "crr_return_to_tier": "uint64_t tier, uint64_t *numbers, size_t numbers_len, int64_t *flows, "
    "size_t flows_len",
    "crr_released_percent": "uint64_t process, uint64_t *percent",
    "crr_find_mcc": "size_t nodes, size_t constraints, const int64_t *factors, size_t factors_len, "
    "const uint64_t *prices, size_t prices_len, int64_t *mcc, size_t mcc_len",
    "crr_find_hub_mcc": "size_t nodes, size_t constraints, const int64_t *factors, size_t factors_len, "
    "const uint64_t *prices, size_t prices_len, const uint64_t *hub_nodes, size_t hub_nodes_len, "
    "const uint64_t *hub_weights, size_t hub_weights_len, int64_t *quotient, uint64_t *remainder",
    "crr_settle_hour": "size_t nodes, size_t constraints, uint64_t period, const int64_t *factors, "
    "size_t factors_len, const uint64_t *prices, size_t prices_len, const uint8_t *book, size_t book_len, "
    "int64_t *cents, size_t cents_len, uint64_t *priced, size_t priced_len, int64_t *sum, int64_t *whole, "
    "uint64_t *parts",
    "crr_share_balance": "int64_t balance, const uint64_t *demands, size_t demands_len, int64_t *shares, "
    "size_t shares_len",
    "crr_net_transfers": "size_t lses, const uint8_t *classes, size_t classes_len, "
    "const uint64_t *customers, size_t customers_len, const uint64_t *rates, size_t rates_len, "
    "const uint64_t *olds, size_t olds_len, const uint64_t *news, size_t news_len, int64_t *nets, "
    "size_t nets_len",
    "crr_migrate_load": "size_t nodes, uint64_t period, const uint8_t *book, size_t book_len, "
    "const uint8_t *classes, size_t classes_len, const uint64_t *customers, size_t customers_len, "
    "const uint64_t *rates, size_t rates_len, const uint64_t *olds, size_t olds_len, const uint64_t *news, "
    "size_t news_len, const uint64_t *loads, size_t loads_len, uint8_t *file, size_t file_len, size_t *bytes",
    "crr_write_report": "const uint8_t *grid_file, size_t grid_file_len, const uint8_t *book_file, "
    "size_t book_file_len, uint8_t *text, size_t text_len, size_t *bytes",
    "crr_write_statement": "const uint8_t *grid_file, size_t grid_file_len, const uint8_t *book_file, "
    "size_t book_file_len, const uint8_t *price_file, size_t price_file_len, uint8_t *text, size_t text_len, "
    "size_t *bytes",
    "crr_month_hours": "uint64_t year, uint64_t month, uint64_t *hours",
    "crr_hour_period": "uint64_t year, uint64_t month, uint64_t day, uint64_t hour_ending, uint64_t *period",
    "crr_weekday": "uint64_t year, uint64_t month, uint64_t day, uint64_t *weekday",
    "crr_month_later": "uint64_t year, uint64_t month, uint64_t day, uint64_t *later_year, "
    "uint64_t *later_month, uint64_t *later_day",
}


class Parameter(NamedTuple):
    """A parameter as Python hands it over. A buffer stands for two in C: the pointer and the length in
    cells."""

    name: str
    code: str  # of its cells, as `array` names them: B, q or Q
    form: str  # "number", "buffer" or "figure" (one lent cell)
    writable: bool


_CODES = {"uint8_t": "B", "int64_t": "q", "uint64_t": "Q", "size_t": "Q"}
_PARAMETER = re.compile(r"(const )?(\w+) (\*?)(\w+)")


def parameters(declaration: str) -> List[Parameter]:
    """The parameters of a declaration. A pointer is a buffer where its length follows."""
    parts = [match.groups() for match in map(_PARAMETER.fullmatch, declaration.split(", ")) if match]
    followed = [name.endswith("_len") for _, _, _, name in parts[1:]] + [False]
    taken = []
    for (const, kind, star, name), has_length in zip(parts, followed):
        if not name.endswith("_len"):
            form = "number" if not star else "buffer" if has_length else "figure"
            taken.append(Parameter(name, _CODES[kind], form, bool(star) and not const))
    return taken
