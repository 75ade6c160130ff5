"""How a network hangs together: its buses by number, islands, and the outages that split it."""

from __future__ import annotations

from typing import TYPE_CHECKING, Dict, List, Optional, Sequence, Set, Tuple

if TYPE_CHECKING:
    from .network import Branch, Contingency

Ends = Tuple[int, int]
_NAMED = 3  # buses that are told of those cut off


class Topology:
    """Buses in the order in which the branches name them, each branch by its ends' numbers, each contingency
    by its branches' numbers, and what is wrong: (table, row, column, text). `splits` has what each
    contingency that splits the network cuts off."""

    def __init__(
        self, branches: Sequence[Branch], contingencies: Sequence[Contingency], slack: Optional[str]
    ) -> None:
        self.problems: List[Tuple[str, int, str, str]] = []
        self.numbers: Dict[str, int] = {}
        self.ends: List[Ends] = []
        for branch in branches:
            ends = [self.numbers.setdefault(bus, len(self.numbers)) for bus in (branch.start, branch.end)]
            self.ends.append((ends[0], ends[1]))
        self.nodes = list(self.numbers)
        self._check_branches(branches)
        self.slack = self._slack(slack)
        places = {branch.name: place for place, branch in enumerate(branches)}
        self.outages = [self._outage(places, number, out) for number, out in enumerate(contingencies)]
        self.splits: Dict[int, str] = {}
        if not self.problems:
            self._check_islands()
        if not self.problems:
            self._find_splits()

    def _slack(self, slack: Optional[str]) -> str:
        if slack is not None and slack not in self.numbers:
            self.problems.append(("slack", 0, "", f"no bus {slack!r} in the branches"))
        return slack if slack is not None else next(iter(self.numbers), "")

    def _check_branches(self, branches: Sequence[Branch]) -> None:
        known: Set[str] = set()
        for row, branch in enumerate(branches):
            if branch.start == branch.end:
                self._problem(row, "TO_BUS", f"from {branch.start} to itself")
            if not branch.reactance:
                text = "a reactance of 0: make its two buses one, or give it a small reactance"
                self._problem(row, "REACTANCE", text)
            if branch.name in known:
                self._problem(row, "BRANCH_ID", f"{branch.name} occurs twice")
            known.add(branch.name)
        if branches and all(branch.limit is None for branch in branches):
            self._problem(0, "LIMIT_MW", "no branch has a limit: nothing is monitored")
        if not branches:
            self._problem(0, "BRANCH_ID", "no branch")

    def _problem(self, row: int, column: str, text: str) -> None:
        self.problems.append(("branches", row, column, text))

    def _outage(self, places: Dict[str, int], row: int, out: Contingency) -> List[int]:
        """The numbers of a contingency's branches."""
        for name in out.branches:
            if name not in places:
                self.problems.append(("contingencies", row, "BRANCH_ID", f"no branch {name!r}"))
        return sorted({places[name] for name in out.branches if name in places})

    def _parts(self, without: Set[int]) -> List[int]:
        """The part that each bus is in: the lowest of its buses."""
        part = list(range(len(self.nodes)))

        def root(node: int) -> int:
            while part[node] != node:
                part[node] = part[part[node]]
                node = part[node]
            return node

        for number, (start, end) in enumerate(self.ends):
            if number not in without:
                low, high = sorted((root(start), root(end)))
                part[high] = low
        return [root(node) for node in range(len(part))]

    def _apart(self, without: Set[int]) -> List[int]:
        """The buses that are not connected with the slack."""
        parts = self._parts(without)
        home = parts[self.numbers[self.slack]]
        return [node for node, part in enumerate(parts) if part != home]

    def _words(self, apart: Sequence[int]) -> str:
        names = ", ".join(self.nodes[node] for node in apart[:_NAMED])
        more = f" and {len(apart) - _NAMED:,} more" if len(apart) > _NAMED else ""
        return f"{len(apart):,} bus{'' if len(apart) == 1 else 'es'} ({names}{more})"

    def _check_islands(self) -> None:
        apart = self._apart(set())
        if apart:
            row = next(row for row, (start, _) in enumerate(self.ends) if start in set(apart))
            text = f"an island: nothing connects {self._words(apart)} with {self.slack}, the slack"
            self._problem(row, "FROM_BUS", text)

    def _find_splits(self) -> None:
        bridges = self._bridges()
        for number, out in enumerate(self.outages):
            if len(out) > 1 or set(out) & bridges:
                apart = self._apart(set(out))
                if apart:
                    advice = "leave it out (--skip-splits)"
                    self.splits[number] = f"its outage splits off {self._words(apart)}: {advice}"

    def _bridges(self) -> Set[int]:
        """The branches each of which alone holds the network together: those by which a search in depth
        enters what has no other way back."""
        near: List[List[Tuple[int, int]]] = [[] for _ in self.nodes]
        for number, (start, end) in enumerate(self.ends):
            near[start].append((end, number))
            near[end].append((start, number))
        order = [-1] * len(self.nodes)  # when a bus is first reached
        lowest = order[:]  # the earliest bus that is reached from it by another way
        order[0] = lowest[0] = count = 0
        bridges: Set[int] = set()
        path = [(0, -1, iter(near[0]))]
        while path:
            node, entered, ways = path[-1]
            way = next(ways, None)
            if way is None:
                path.pop()
                if path:
                    above = path[-1][0]
                    lowest[above] = min(lowest[above], lowest[node])
                    if lowest[node] > order[above]:
                        bridges.add(entered)
            elif order[way[0]] < 0:
                count += 1
                order[way[0]] = lowest[way[0]] = count
                path.append((way[0], way[1], iter(near[way[0]])))
            elif way[1] != entered:
                lowest[node] = min(lowest[node], order[way[0]])
        return bridges
