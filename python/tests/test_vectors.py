"""The files of tests/vectors (README.md there has their form), played on the shared library."""

from __future__ import annotations

import ctypes
import re
import unittest
from typing import Dict, Iterator, List, Tuple

from support import ROOT
from crr.interface import DECLARATIONS, Parameter
from crr.native import Entry

FOLDER = ROOT / "tests" / "vectors"
TYPES = {"B": ctypes.c_uint8, "Q": ctypes.c_uint64, "q": ctypes.c_int64}
ENTRIES = {name: Entry(name) for name in DECLARATIONS}
MARGIN = 5
STATE = {"awards": 6000, "numbers": 14, "flows": 320}  # `state=r` stands for these
State = Dict[str, List[int]]


def counted(text: str, i: int) -> str:
    """`#` is the number of the repetition: `6#` six times it, `#+1` one more."""
    return re.sub(r"(\d*)#(?:\+(\d+))?", lambda m: str(int(m[1] or 1) * i + int(m[2] or 0)), text)


def counted_hex(text: str, i: int) -> str:
    """A run of `#` is the number of the repetition in as many hex digits."""
    return re.sub("#+", lambda m: f"{i:0{len(m[0])}x}", text)


def cells(text: str) -> List[int]:
    """Numbers with runs and groups, or bytes: `-`, `x:`, `t:`."""
    if text == "-":
        return []
    if text.startswith("t:"):
        return list(text[2:].replace("\\n", "\n").replace("\\s", " ").encode())
    digits = text.startswith("x:")
    unit, between = (counted_hex, "") if digits else (counted, ",")
    grouped = re.sub(
        r"\(([^()]*)\)\*(\d+)",
        lambda m: between.join(unit(m[1], i) for i in range(int(m[2]))),
        text[2:] if digits else text,
    )
    if digits:
        return list(bytes.fromhex(grouped.replace(",", "")))
    runs = (item.partition("*") for item in grouped.split(","))
    return [cell for value, _, times in runs for cell in [int(value)] * int(times or 1)]


def whole_lines(text: str) -> Iterator[Tuple[int, str]]:
    """Lines by their numbers, continued ones joined, remarks taken off, none that is empty."""
    whole = ""
    for number, line in enumerate(text.split("\n"), 1):
        whole += line.lstrip() if whole else line
        if whole.endswith("\\"):
            whole = whole[:-1]
            continue
        line, whole = re.sub(r"^#.*| # .*", "", whole), ""
        if line:
            yield number, line


def lines(text: str) -> Iterator[Tuple[int, str]]:
    """Calls by their lines' numbers: names replaced, a repeated line as often as it says."""
    names: Dict[str, str] = {}
    for number, line in whole_lines(text):
        name, equals, value = line.partition(" = ")
        plain = re.sub(r"@([A-Za-z0-9-]+)", lambda m: names[m[1]], value if equals else line)
        if equals:
            names[name[1:]] = plain
            continue
        times = re.match(r"(\d+): ", plain)
        for i in range(int(times[1]) if times else 1):
            yield number, counted(plain[times.end() :], i) if times else plain


def fields(text: str) -> List[Tuple[str, str]]:
    return [(name, value) for name, _, value in (field.partition("=") for field in text.split())]


def filled(code: str, length: int, salt: int) -> List[int]:
    """Other bytes, beforehand."""
    most = 0xFF if code == "B" else 0x7FFFFFFFFFFF
    return [(salt * 31 + i * 2654435761 + 7) >> 5 & most for i in range(length)]


class Lent:
    """A buffer or a figure in memory, between margins of other bytes, and what it should hold."""

    def __init__(self, parameter: Parameter, held: List[int], salt: int) -> None:
        margin = filled(parameter.code, MARGIN, salt)
        self.name, self.length = parameter.name, len(held)
        self.expected = margin + held + margin
        self.memory = (TYPES[parameter.code] * len(self.expected))(*self.expected)
        self.address = ctypes.addressof(self.memory) + MARGIN * ctypes.sizeof(TYPES[parameter.code])

    def expect(self, at: int, new: List[int]) -> List[str]:
        """Cells that the call writes; what is wrong with the line."""
        if at + len(new) > self.length:
            return [f"{self.name}: more cells than are lent"]
        self.expected[MARGIN + at : MARGIN + at + len(new)] = new
        return []

    def differences(self) -> List[str]:
        """The first cell, of the margins too, that is not as it should be."""
        pairs = enumerate(zip(self.memory, self.expected), -MARGIN)
        for at, (is_now, said) in pairs:
            if is_now != said:
                return [f"{self.name}[{at}] is {is_now}, not {said}"]
        return []


def beforehand(entry: str, parameter: Parameter, given: Dict[str, str], state: State, salt: int) -> List[int]:
    """What a buffer or a figure holds before the call."""
    name, code = parameter.name, parameter.code
    figure = parameter.form == "figure"
    if name in given:
        text = given.pop(name)
        length_alone = parameter.writable and text.isdigit() and not figure
        return filled(code, int(text), salt) if length_alone else cells(text)
    if figure:
        return filled(code, 1, salt)
    if name in state and entry != "open_running":
        return state[name]
    return filled(code, STATE[name], salt)


def play(line: str, states: Dict[str, State], salt: int) -> List[str]:
    """What differs, a line of text each."""
    left, _, right = line.partition(" -> ")
    name, _, rest = left.partition(" ")
    given, answer, written = dict(fields(rest)), right.split()[0], fields(right.partition(" ")[2])
    state = states.setdefault(given.pop("state"), {}) if "state" in given else {}
    lent: Dict[str, Lent] = {}
    words: List[int] = []
    for parameter in ENTRIES["crr_" + name].parameters:
        if parameter.form == "number":
            words.append(int(given.pop(parameter.name)))
            continue
        buffer = lent[parameter.name] = Lent(parameter, beforehand(name, parameter, given, state, salt), salt)
        words += [buffer.address] if parameter.form == "figure" else [buffer.address, buffer.length]
    wrong = [f"{name} has no {key}" for key in given]
    for key, value in written:
        key, _, at = key.rstrip("]").partition("[")
        wrong += lent[key].expect(int(at or 0), cells(value))
    said = {key for key, _ in written}
    if answer == "0":
        parameters = ENTRIES["crr_" + name].parameters
        wrong += [f"no {p.name}" for p in parameters if p.form == "figure" and p.name not in said]
    elif said:
        wrong.append("a refusal that writes")
    got = ENTRIES["crr_" + name].function(*words)
    if got != int(answer):
        wrong.append(f"answers {got}, not {answer}")
    state.update({key: buffer.expected[MARGIN:-MARGIN] for key, buffer in lent.items() if key in STATE})
    return wrong + [difference for buffer in lent.values() for difference in buffer.differences()]


class Vectors(unittest.TestCase):
    def test_every_line(self) -> None:
        calls, seen = 0, set()
        for path in sorted(FOLDER.glob("*.txt")):
            states: Dict[str, State] = {}
            for number, line in lines(path.read_text()):
                self.assertEqual(play(line, states, calls), [], f"{path.name}:{number}")
                calls += 1
                seen.add("crr_" + line.split()[0])
        self.assertEqual(seen, set(DECLARATIONS))
        print(f"vectors: {calls} calls, 0 differ")
