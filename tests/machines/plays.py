"""Writes the calls of tests/vectors as plain lines, which a small player on any machine reads, and the table by
which a player in C calls each function: plays.py PLAYS TABLE

A call, its parameters in the header's order, what is written, and the end of the call:

    call NAME ANSWER FILE:LINE
    n NUMBER                   a number
    r TYPE LENGTH CELLS        a buffer that is read: B bytes, Q and q cells of 64 bits, without and with a sign
    h TYPE LENGTH CELLS        one that is lent to be written, and holds these cells
    w TYPE LENGTH              one that the player fills
    s TYPE LENGTH SLOT new|old a running test's, which the player keeps from call to call, new: filled afresh
    f TYPE                     a figure
    c TYPE 1 NUMBER            one that the call reads, too, and that holds this number
    x PARAMETER AT LENGTH CELLS   cells of a parameter, from 0, that the call writes
    go

Cells are NUMBER or NUMBER*TIMES, with blanks between.
"""

import itertools
import sys
from pathlib import Path

ROOT = Path(__file__).resolve().parents[2]
sys.path[:0] = [str(ROOT / "python" / "tests"), str(ROOT / "python" / "src")]
from crr.interface import DECLARATIONS, parameters  # noqa: E402
from test_vectors import FOLDER, STATE, cells, fields, lines  # noqa: E402


def told(numbers):
    """Cells with their length before them."""
    runs = ((number, len(list(same))) for number, same in itertools.groupby(numbers))
    words = (f"{number}*{times}" if times > 1 else str(number) for number, times in runs)
    return " ".join([str(len(numbers)), *words])


def parameter_line(name, parameter, given, slots):
    """What is handed over for a parameter; `given` loses it."""
    code = parameter.code
    if parameter.form == "number":
        return f"n {given.pop(parameter.name)}"
    text = given.pop(parameter.name, None)
    if parameter.form == "figure":
        return f"f {code}" if text is None else f"c {code} {told(cells(text))}"
    if text is None:
        slot = (slots["name"], parameter.name)
        old = slot in slots["held"] and name != "open_running"
        number = slots["held"].setdefault(slot, len(slots["held"]))
        return f"s {code} {STATE[parameter.name]} {number} {'old' if old else 'new'}"
    if parameter.writable and text.isdigit():
        return f"w {code} {text}"
    return f"{'h' if parameter.writable else 'r'} {code} {told(cells(text))}"


def call_lines(place, line, held):
    left, _, right = line.partition(" -> ")
    name, _, rest = left.partition(" ")
    given, written = dict(fields(rest)), fields(right.partition(" ")[2])
    slots = {"name": (place.partition(":")[0], given.pop("state", None)), "held": held}
    taken = parameters(DECLARATIONS["crr_" + name])
    out = [f"call {name} {right.split()[0]} {place}"]
    out += [parameter_line(name, parameter, given, slots) for parameter in taken]
    if given:
        sys.exit(f"{place}: {name} has no {', '.join(given)}")
    names = [parameter.name for parameter in taken]
    for key, value in written:
        key, _, at = key.rstrip("]").partition("[")
        out.append(f"x {names.index(key)} {at or 0} {told(cells(value))}")
    return [*out, "go"]


def plays():
    held = {}
    for path in sorted(FOLDER.glob("*.txt")):
        for number, line in lines(path.read_text()):
            yield from call_lines(f"{path.name}:{number}", line, held)


def table():
    """A row for each function: its name, and its call by words, of which a pointer has `p` and a number `n`."""
    for name, declared in DECLARATIONS.items():
        words = []
        for parameter in parameters(declared):
            kinds = {"number": "n", "figure": "p", "buffer": "pn"}[parameter.form]
            words += [f"w[{len(words) + i}].{kind}" for i, kind in enumerate(kinds)]
        unused = "" if words else "(void)w; "
        yield f"static uint64_t call_{name}(const union word *w) {{ {unused}return {name}({', '.join(words)}); }}"
    yield "static const struct { const char *name; uint64_t (*call)(const union word *); } calls[] = {"
    yield from (f'    {{"{name[4:]}", call_{name}}},' for name in DECLARATIONS)
    yield "};"


def main():
    for file, text in zip(sys.argv[1:], (plays(), table())):
        Path(file).write_text("\n".join(text) + "\n")


if __name__ == "__main__":
    main()
