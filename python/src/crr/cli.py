"""The command `crr`.

Exit status: 0; 1 where `crr test`, `crr cuts`, `crr flows` or `crr exposure` finds that the book fails, `crr
same` that two books differ, or `crr tiers` that an operation is refused; 2 where the input has faults, or
something can't be read or written; 130 where it is interrupted (Ctrl-C).
"""

from __future__ import annotations

import argparse
import json
import sys
from pathlib import Path
from typing import IO, Dict, List, NoReturn, Optional, Sequence

from . import (
    book_commands,
    commands,
    copies,
    explain,
    exposures,
    grid_command,
    help_commands,
    hour_commands,
    hubs,
    loading,
    migrate,
    page_command,
    plain_commands,
    report,
    tiers,
)
from .command import COMMANDS, FAULTY, INTERRUPTED, PASSES, Answer, Command, Shown, counted
from .faults import Fault, Faults, faults_of
from .native import Refused
from .reading import gathered
from .streams import write_to
from .version import Version
from .writing import is_output

# Help lists the commands module by module.
_ORDER = (
    commands,
    loading,
    exposures,
    hour_commands,
    explain,
    report,
    page_command,
    grid_command,
    book_commands,
    copies,
    hubs,
    tiers,
    migrate,
    plain_commands,
    help_commands,
)
_MODULES = [module.__name__ for module in _ORDER]

_WRITTEN = ("out", "file")  # arguments that say where to write

# Commands that had another name: it still works, and no help lists it.
_FORMER = {"settled": "canonical"}


class Usage(Exception):
    """A command line that is none: how it goes, and what is wrong."""

    def __init__(self, usage: str, text: str) -> None:
        super().__init__(usage, text)
        self.usage, self.text = usage, text


class _Parser(argparse.ArgumentParser):
    """A parser whose words are given and written as answers are."""

    def error(self, message: str) -> NoReturn:
        raise Usage(self.format_usage(), f"{self.prog}: error: {message}")

    def exit(self, status: int = 0, message: Optional[str] = None) -> NoReturn:
        raise Usage("", (message or "").rstrip("\n"))

    def _print_message(self, message: str, file: Optional[IO[str]] = None) -> None:
        raise Shown(message, {"help": message})


def listed() -> List[Command]:
    """All commands, in the order of help."""
    return sorted(COMMANDS.values(), key=lambda command: _MODULES.index(command.function.__module__))


def parser() -> argparse.ArgumentParser:
    """The parser of the command line, made of the commands."""
    parser = _Parser(
        prog="crr", description="Congestion revenue rights: feasibility test and hourly settlement."
    )
    parser.epilog = (
        "Exit status: 0; 1 the book fails (crr test, crr cuts, crr flows, crr exposure), two books differ "
        "(crr same), or an operation is refused (crr tiers); "
        "2 the input has faults, or something can't be read or written; 130 interrupted."
    )
    parser.add_argument(
        "--version", action=Version, help="the version, and the library taken, its origin and hash"
    )
    parser.add_argument(
        "--json",
        action="store_true",
        help="as behind a command: the answer, or the faults, as one JSON object",
    )
    adding = parser.add_subparsers(dest="command", required=True, metavar="COMMAND")
    for command in listed():
        of_command = adding.add_parser(command.name, help=command.help, description=command.help)
        # Said before the command, it stays said where it is not said behind it.
        of_command.add_argument(
            "--json",
            action="store_true",
            default=argparse.SUPPRESS,
            help="the answer, or the faults, as one JSON object",
        )
        for argument in command.arguments:
            of_command.add_argument(*argument.names, **argument.settings)
    return parser


def _places(options: argparse.Namespace, faults: Sequence[Fault]) -> str:
    """Where faults are, behind their number: files that were given beside the folder, or the folder."""
    folder = options.folders[0] if "folders" in options else getattr(options, "folder", None)
    if folder is None:
        return ""
    paths = {name: str(value) for name, value in vars(options).items() if isinstance(value, Path)}
    given = [path for name, path in paths.items() if name not in ("folder", *_WRITTEN)]
    places = dict.fromkeys(fault.file if fault.file in given else str(folder) for fault in faults)
    return f" in {' and '.join(places)}"


def _faulty(options: argparse.Namespace, problem: Exception) -> Answer:
    """The answer where something is wrong, all of it."""
    faults = faults_of(problem)
    words = f"crr: {faults[0]}\n"
    if isinstance(problem, Faults):
        where = _places(options, faults)
        words = f"{problem}\ncrr: {counted(len(faults), 'fault')}{where}; nothing was written\n"
    return Answer(FAULTY, "", {"faults": [fault.object for fault in faults]}, words)


def _answer(options: argparse.Namespace) -> Answer:
    """What the command that was asked for answers; its function has the arguments' names."""
    given = {name: value for name, value in vars(options).items() if name not in ("command", "json")}
    try:
        return COMMANDS[options.command].function(**gathered(given))
    except (Faults, Refused, OSError) as problem:
        return _faulty(options, problem)


def _asks_json(arguments: List[str]) -> bool:
    """Whether a command line that can't be read asks for JSON."""
    return "--json" in (arguments[: arguments.index("--")] if "--" in arguments else arguments)


def main(arguments: Optional[List[str]] = None) -> int:
    """Runs the command and gives its exit status."""
    try:
        return _run(sys.argv[1:] if arguments is None else arguments)
    except KeyboardInterrupt:
        write_to(sys.stderr, "crr: interrupted; nothing is left half written\n")
        return INTERRUPTED


def _by_present_names(given: List[str]) -> List[str]:
    """The command line with the present name of its command, the first word that is no option."""
    at = next((at for at, word in enumerate(given) if not word.startswith("-")), 0)
    return [_FORMER.get(word, word) if place == at else word for place, word in enumerate(given)]


def _run(given: List[str]) -> int:
    as_json, aside = _asks_json(given), False
    try:
        options = parser().parse_args(_by_present_names(given))
        as_json, answer = options.json, _answer(options)
        aside = any(is_output(getattr(options, name, None)) for name in _WRITTEN)  # bytes of another kind
    except Shown as shown:
        answer = Answer(PASSES, str(shown), shown.data)
    except Usage as usage:
        data: Dict[str, object] = {"faults": [Fault("", 0, "", usage.text).object], "usage": usage.usage}
        answer = Answer(FAULTY, "", data, f"{usage.usage}{usage.text}\n")
    text = json.dumps(answer.data, indent=1) + "\n" if as_json else answer.text
    stream = sys.stderr if aside else sys.stdout
    unwritten = write_to(stream, text) if text else ""
    if unwritten and stream is not sys.stderr:
        write_to(sys.stderr, f"crr: the output can't be written: {unwritten}\n")
    unwritten = unwritten or write_to(sys.stderr, "" if as_json else answer.note)
    return FAULTY if unwritten else answer.status
