"""Fails where the prover refuses a must-fail edit for a proof text that no longer fits the edited program, and
not for a fact that fails. ./test leaves what rt ci said in target/ci.log: a line for each edit, with the first
thing that the prover says of it, cut short. rt looks past what names a place that the edit took away, and says
so where there is nothing else.

A text that does not fit names what is not there (a field, a definition), can't be read, or takes a term for
another kind of thing. Of a fact the prover says that two values or types differ, or that it does not follow, or
that no proof of it was found. Whatever else it says first is for a person to read: it is told here too.
"""

import re
import sys
from pathlib import Path
from typing import Dict, List, Optional

ROOT = Path(__file__).resolve().parents[2]
LOG = ROOT / "target/ci.log"
TRIED = re.compile(r"^rt: must-fail (\w+/[\w.-]+)\.edit: (.*)$", re.M)
REFUSED = "refused, as it must be"
# A function whose proof is not whole is refused in a note.
NOTE = re.compile(r"note: \S+:\d+:\d+: ")
ERROR = re.compile(r"(\S+?):\d+:\d+: error: (.*)")
# A fact is refused in a declaration, which the prover names first; a text that can't be read has none yet.
DECLARED = re.compile(r"`([^`]+)`: (.*)")
UNFIT = (
    (re.compile(r"record `|.*\bhas no field `"), "names a place that the program no longer has"),
    (re.compile(r".*\bthat can be named from here"), "names something that is not there"),
    (re.compile(r"`[^`]*` is not in scope\b"), "names something that is not there"),
    (re.compile(r".*\bis expected here"), "takes what it names for something else"),
    (re.compile(r".*\bwas not admitted\b|\d+ declarations? that depend"), "stands on something that was refused"),
)
FACT = re.compile(
    r"(?:as printed|computed as far as they go), the two (?:types|values|sides) "
    r"|computed as a goal is, one side reads `"
    r"|expected type `"
    r"|`(?:omega|search|grind|simp|cc)`(?:: | found no proof)"
    r"|`rw`: no occurrence of the path's "
    r"|give a proof of that as the last argument, `rw L t`"
)


def fault_of(said: str) -> Optional[str]:
    """Why what rt says of an edit is no fact that fails, or None where it is one."""
    if not said.startswith(REFUSED):
        return said[:200]
    said = said[len(REFUSED):]
    if not said.startswith(": "):
        return f"no fact is named{said[:200]}"
    if NOTE.match(said, 2):
        return None
    error = ERROR.match(said, 2)
    if error is None:
        return f"the prover names no place: {said[2:200]}"
    file, message = error.groups()
    if not file.endswith(".antt"):
        return None
    declared = DECLARED.match(message)
    if declared is None:
        return f"{file}: the proof text can't be read: {message[:200]}"
    name, told = declared.groups()
    for pattern, why in UNFIT:
        if pattern.match(told):
            return f"{file}: {name} {why}: {told[:200]}"
    return None if FACT.match(told) else f"{file}: {name}: no fact is refused in these words: {told[:200]}"


def tried(log: str) -> Dict[str, str]:
    """What rt said of each edit."""
    return dict(TRIED.findall(log))


def main() -> int:
    if not LOG.is_file():
        print(f"refusals: no {LOG.relative_to(ROOT)}: ./test leaves it there, and so does rt ci > target/ci.log", file=sys.stderr)
        return 1
    said = tried(LOG.read_text(encoding="utf-8", errors="replace"))
    faults: List[str] = []
    count = 0
    for edit in sorted(ROOT.glob("crates/*/must-fail/*.edit")):
        name = f"{edit.parents[1].name}/{edit.stem}"
        count += name in said
        fault = fault_of(said[name]) if name in said else "not tried"
        if fault:
            faults.append(f"{name}: {fault}")
    for fault in faults:
        print(f"refusals: {fault}", file=sys.stderr)
    if not faults:
        print(f"refusals: {count} edits, each refused by a fact that fails")
    return 1 if faults else 0


if __name__ == "__main__":
    sys.exit(main())
