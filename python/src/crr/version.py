"""The package's version, and what `crr --version` says of the library that was taken."""

from __future__ import annotations

from argparse import SUPPRESS, Action, ArgumentParser
from hashlib import sha256
from typing import Any, Dict, Sequence

from .command import Shown
from .library import library_origin, library_path

__version__ = "0.1.0"


def about() -> Dict[str, str]:
    """The version; the library that was taken, where it comes from and its hash."""
    path = library_path()
    hashed = sha256(path.read_bytes()).hexdigest()
    return {"version": __version__, "library": str(path), "from": library_origin(path), "sha256": hashed}


class Version(Action):
    """The option --version: its text is made when it is asked for, and shown by the command's parser."""

    def __init__(self, option_strings: Sequence[str], dest: str, help: str) -> None:
        super().__init__(option_strings, dest=SUPPRESS, default=SUPPRESS, nargs=0, help=help)

    def __call__(self, parser: ArgumentParser, *_: Any) -> None:
        try:
            facts = about()
        except OSError as problem:
            parser.exit(2, f"crr {__version__}: {problem}\n")
        text = "crr {version}\nlibrary {library}\nfrom    {from}\nsha256  {sha256}\n".format_map(facts)
        raise Shown(text, dict(facts))
