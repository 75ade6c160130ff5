"""Faults of input: where each is and what is wrong, all of them, not the first alone."""

from __future__ import annotations

import re
from pathlib import Path
from typing import Dict, List, NamedTuple, Sequence, Tuple, Type

from .native import Refused


class Fault(NamedTuple):
    """A fault: the file, the line (0: the file as a whole), the column by its heading, what is wrong, and the
    refusal that it would draw (0: none)."""

    file: str
    line: int
    column: str
    text: str
    refusal: int = 0

    @property
    def place(self) -> str:
        """file:line:column, as far as it has them."""
        return f"{self.file}:{self.line}:{self.column}" if self.line else self.file

    def within(self, folder: Path) -> Fault:
        """The fault named with its folder."""
        return self if self.file == str(folder) else self._replace(file=str(folder / self.file))

    @property
    def object(self) -> Dict[str, object]:
        """The fault for a script: null where it has no file, line, column or refusal."""
        return {name: value or None for name, value in self._asdict().items()}

    def __str__(self) -> str:
        refusal = f" (refusal {self.refusal})" if self.refusal else ""
        return f"{self.place}{': ' if self.place else ''}{self.text}{refusal}"


_VALUES = re.compile(r"'(?:[^'\\]|\\.)*'|[-+]?[0-9][0-9.,]*")  # in a sentence: fields and figures
EQUAL, ALIKE = 5, 20  # how many are shown


def listed(faults: Sequence[Fault]) -> List[str]:
    """Faults as lines for people. Of those that are equal in all but their line, the first five are shown; of
    those that say the same of different values, the first twenty. A line behind them counts the others."""
    equal: Dict[Tuple[str, str, str], int] = {}
    alike: Dict[Tuple[str, str, str], List[int]] = {}  # the places of those that are shown
    others: Dict[Tuple[str, str, str], List[Fault]] = {}
    for place, fault in enumerate(faults):
        same = (fault.file, fault.column, fault.text)
        kind = (fault.file, fault.column, _VALUES.sub("", fault.text))
        equal[same] = equal.get(same, 0) + 1
        if equal[same] > EQUAL or len(alike.setdefault(kind, [])) == ALIKE:
            others.setdefault(kind, []).append(fault)
        else:
            alike[kind].append(place)
    lines = {place: str(faults[place]) for places in alike.values() for place in places}
    for kind, more in others.items():
        last = f", the last in line {more[-1].line}" if more[-1].line else ""
        lines[alike[kind][-1]] += f"\n{more[0].place}: and {len(more):,} more like it{last}"
    return [lines[place] for place in sorted(lines)]


class Faults(Exception):
    """Input with faults, all of them. Nothing was written."""

    def __init__(self, faults: Sequence[Fault]) -> None:
        self.faults: List[Fault] = list(faults)
        super().__init__("\n".join(listed(self.faults)))

    def __reduce__(self) -> Tuple[Type["Faults"], Tuple[List[Fault]]]:
        return (Faults, (self.faults,))  # a pool of processes hands an exception over by its arguments


def raise_any(faults: Sequence[Fault]) -> None:
    """Raises the faults, if there are any."""
    if faults:
        raise Faults(faults)


def faults_of(problem: Exception) -> List[Fault]:
    """What a problem of any kind says, as faults."""
    if isinstance(problem, Faults):
        return problem.faults
    if isinstance(problem, Refused):
        return [Fault(problem.file, 0, "", problem.meaning, problem.number)]
    if isinstance(problem, OSError) and problem.strerror and problem.filename is not None:
        return [Fault(str(problem.filename), 0, "", problem.strerror)]
    return [Fault("", 0, "", str(problem))]


def must_agree(what: str, here: object, library: object) -> None:
    """Raises a fault where a figure that was worked out here is not the library's."""
    if here != library:
        text = f"{what}: {here} worked out here, {library} by the library; please tell its authors"
        raise Faults([Fault("", 0, "", text)])


def brief(text: str, most: int = 60) -> str:
    """A text that may be someone's whole file, cut to a length that a sentence bears."""
    return text if len(text) <= most else f"{text[: most // 2]}..{text[-(most // 4) :]}"
