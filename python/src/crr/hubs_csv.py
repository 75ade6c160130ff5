"""Trading hubs, HUB,NODE_ID,PERCENT, and contracts from them: book.csv with a hub's name for the source."""

from __future__ import annotations

from pathlib import Path
from typing import Dict, List, NamedTuple, Sequence, Tuple

from .book_csv import BOOK, TERM, Award, node_number, read_awards
from .days import ORDERS
from .decimals import decimal
from .faults import Fault
from .interface import HUB_WEIGHT, MAX_HUB_NODES, WEIGHT
from .sheet import Sheet

HUBS = ("HUB", "NODE_ID", "PERCENT")


class Hub(NamedTuple):
    """A hub's nodes by number, and their weights in hundred-thousandths."""

    nodes: List[int]
    weights: List[int]


def read_hubs(path: Path, nodes: Sequence[str], faults: List[Fault]) -> Dict[str, Hub]:
    """The hubs of a file HUB,NODE_ID,PERCENT by name."""
    sheet = Sheet(path, HUBS, faults)
    hubs: Dict[str, Hub] = {}
    ends: Dict[str, int] = {}
    if len(sheet.at) < len(HUBS):
        return hubs
    hub_at, node_at, percent_at = (sheet.at[column] for column in HUBS)
    numbers = {name: number for number, name in enumerate(nodes)}
    for line, row in sheet.rows():
        if sheet.name_in(line, "HUB", row[hub_at]):
            hub = hubs.setdefault(row[hub_at], Hub([], []))
            _read_hub_node(sheet, line, row[node_at], numbers, hub)
            hub.weights.append(sheet.figure(line, percent_at, row[percent_at], WEIGHT))
            ends[row[hub_at]] = line
    for name, hub in hubs.items():
        if all(hub.weights) and sum(hub.weights) != HUB_WEIGHT:  # a weight of 0 is a fault that was told
            total = decimal(sum(hub.weights), WEIGHT.places)
            text = f"the percents of {name} total {total} and not {decimal(HUB_WEIGHT, WEIGHT.places)}"
            sheet.fault(ends[name], "PERCENT", text, 24)
    if not hubs:
        sheet.fault(1, "HUB", "no hub")
    return hubs


def _read_hub_node(sheet: Sheet, line: int, name: str, numbers: Dict[str, int], hub: Hub) -> None:
    number = node_number(sheet, line, "NODE_ID", name, numbers, "the grid")
    if name in numbers and number in hub.nodes[: MAX_HUB_NODES + 1]:
        sheet.fault(line, "NODE_ID", f"{name} occurs twice in this hub", 25)
    hub.nodes.append(number if name in numbers else -1)
    if len(hub.nodes) == MAX_HUB_NODES + 1:
        sheet.fault(line, "NODE_ID", f"more than {MAX_HUB_NODES} nodes in this hub", 24)


def read_hub_contracts(
    path: Path, hubs: Dict[str, Hub], nodes: Sequence[str], faults: List[Fault], dates: str = ORDERS[0]
) -> Tuple[Sheet, List[Award]]:
    """The contracts of a file with the columns of book.csv, whose sources are hubs, by their place among
    these; and the sheet, for faults that are found later."""
    sheet = Sheet(path, BOOK, faults, may=TERM)
    numbers, places = ({name: number for number, name in enumerate(names)} for names in (nodes, hubs))
    return sheet, read_awards(sheet, numbers, hubs=places, dates=dates)
