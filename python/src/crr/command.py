"""What a command of `crr` is. Its name, help and arguments stand over its function; the function's parameters
have the arguments' names.

A command gives an answer, as text for people and as data for scripts; faults are raised.
"""

from __future__ import annotations

import argparse
from pathlib import Path
from typing import Any, Callable, Dict, Iterable, List, NamedTuple, Sequence, Tuple, Type, TypeVar

from .words import SPELLINGS, Period, Process, Word, understood

PASSES, FAILS, FAULTY, INTERRUPTED = 0, 1, 2, 130  # exit statuses


class Answer(NamedTuple):
    """The exit status, what a person reads, the same for a script, and a note beside the text, for standard
    error."""

    status: int
    text: str
    data: Dict[str, object]
    note: str = ""


class Shown(Exception):
    """A text that was asked for, such as help, and the same for a script."""

    def __init__(self, text: str, data: Dict[str, object]) -> None:
        super().__init__(text)
        self.data = data


class Argument(NamedTuple):
    """An argument as `add_argument` takes it, and the words that it can be, where they are few."""

    names: Tuple[str, ...]
    settings: Dict[str, Any]
    words: Tuple[str, ...] = ()

    def with_help(self, text: str) -> Argument:
        """The same argument with another help."""
        return self._replace(settings={**self.settings, "help": text})


def argument(*names: str, words: Sequence[str] = (), **settings: Any) -> Argument:
    """An argument by what `add_argument` is called with."""
    return Argument(names, settings, tuple(words))


class Command(NamedTuple):
    """A command. Its help is one sentence, or what it says of each argument."""

    name: str
    help: str
    arguments: Tuple[Argument, ...]
    function: Callable[..., Answer]


COMMANDS: Dict[str, Command] = {}  # by name, those of all modules that were imported
Function = TypeVar("Function", bound=Callable[..., Answer])


def command(name: str, text: str, *arguments: Argument) -> Callable[[Function], Function]:
    """Makes a function a command."""

    def noted(function: Function) -> Function:
        COMMANDS[name] = Command(name, text, arguments, function)
        return function

    return noted


def a_path(text: str) -> Path:
    """A path of the command line. An empty one, such as that of an unset variable, would be the current
    folder."""
    if not text:
        raise argparse.ArgumentTypeError("it is empty, and a path is needed")
    return Path(text)


def _jobs(text: str) -> int:
    """How many processes: at least one."""
    if not (text.isascii() and text.isdigit() and len(text) < 5 and int(text)):
        raise argparse.ArgumentTypeError(f"{text!r} is no number of processes, from 1 to 9999")
    return int(text)


FOLDER = argument("folder", type=a_path, metavar="FOLDER", help="a folder of CSV files, or of bin files")
FOLDERS = argument(
    "folders",
    nargs="+",
    type=a_path,
    metavar="FOLDER",
    help="a folder of CSV files, or of bin files; several give one table, the folder first",
)
JOBS = argument(
    "-j",
    "--jobs",
    type=_jobs,
    default=1,
    metavar="N",
    help="how many processes, 1 to 9999; without it, 1",
)


def _megabytes(text: str) -> int:
    """So many MB, as bytes."""
    if not (text.isascii() and text.isdigit() and len(text) < 8):
        raise argparse.ArgumentTypeError(f"{text!r} is no number of MB")
    return int(text) * 10**6


MEMORY = argument(
    "--memory",
    type=_megabytes,
    default="1000",
    metavar="MB",
    help="of a grid beyond the library's sizes, hold at most so many MB of factors, and the others in a "
    "temporary file; without it, 1000",
)


def writes(text: str, required: bool = False) -> Argument:
    """Where the command writes."""
    return argument("-o", "--out", type=a_path, metavar="OUT", required=required, help=text)


# Beside every -o.
FORCE = argument("--force", action="store_true", help="write over files that are there and differ")


def reads(name: str, text: str, **settings: Any) -> Argument:
    """A file that the command reads."""
    return argument(name, type=a_path, metavar=name.upper(), help=text, **settings)


def _choice(name: str, choices: Type[Word], every: str, **settings: Any) -> Argument:
    """An option whose value is one of several words, as it may be spelled anywhere; `every` stands for all of
    them, where it is one."""
    options = [spelling.option for spelling in SPELLINGS[choices]] + ([every] if every else [])

    def value(text: str) -> Any:
        word = understood(choices, text)
        if text.lower() == every and every:
            return list(choices)
        if word is None:
            raise argparse.ArgumentTypeError(f"{text!r} is none of {', '.join(options)}")
        return [word] if every else word

    return argument(name, type=value, metavar=f"{{{','.join(options)}}}", words=options, **settings)


_HOURS = "off-peak or on-peak hours"
_SHARE = "the allocation or auction, which releases its share of every limit"
PERIOD = _choice("--period", Period, "", required=True, help=_HOURS)
PROCESS = _choice("--process", Process, "", required=True, help=_SHARE)
ANY_PERIODS = _choice("--period", Period, "both", default="both", dest="periods", help=_HOURS)
ANY_PROCESSES = _choice("--process", Process, "all", default="all", dest="processes", help=_SHARE)
RENT_PROCESS = _choice("--process", Process, "", help="give rent and shortfall too, in this process")
MONTHLY_RENT = _choice(
    "--process", Process, "", default="monthly", help="whose rent and shortfall to give; without it, monthly"
)


def counted(number: int, what: str) -> str:
    """A number of things in words."""
    return f"{number:,} {what}{'' if number == 1 else 's'}"


def objects(heading: Sequence[str], rows: Iterable[Sequence[object]]) -> List[Dict[str, object]]:
    """Rows of a table as objects: an empty field is null."""
    return [
        {name.lower(): None if value == "" else value for name, value in zip(heading, row)} for row in rows
    ]
