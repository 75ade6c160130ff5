"""The command `crr page`: a case put into the page that tests a book in a browser.

The page, its code and crr.wasm are made from js/ (`./library --dist`); here the case's own files and names
are put where it has `null`."""

from __future__ import annotations

import json
from base64 import b64encode
from pathlib import Path
from typing import Dict, List, Optional, cast

from .case import Case, Names
from .command import FOLDER, FORCE, PASSES, Answer, command, writes
from .library import page_path
from .opening import check_periods, opened, write_beside
from .reading import READING, Reading
from .streams import readable
from .writing import write_file

_BEFORE, _AFTER = b'<script type="application/json" id="case">', b"</script>\n"
_EMPTY = _BEFORE + b"null" + _AFTER


def is_page(name: str, data: bytes) -> bool:
    """Whether a file is a page of these."""
    return data[:15].lower() == b"<!doctype html>" and data.count(b"\n" + _BEFORE) == 1


def _names(names: Names) -> Dict[str, object]:
    """The names, those that there are."""
    given: Dict[str, object] = {
        "nodes": names.nodes,
        "constraints": names.constraints,
        "owners": {str(number): name for number, name in names.holders.items()},
        "contracts": [{"id": name} for name in names.contracts],
    }
    return {part: held for part, held in given.items() if held}


def _base64(data: bytes) -> str:
    return b64encode(data).decode("ascii")


def case_json(title: str, case: Case, reading: Reading = Reading()) -> bytes:
    """A case as the page takes it: the library's own files and the names. Every price file is read by the
    library first, and one that it refuses is a fault."""
    hours = case.read_hours()
    if not reading.as_given:
        check_periods(case, [hour.period for _, hour in hours])
    files: List[Dict[str, object]] = [
        {"day": file.day, "hour": file.hour, "file": _base64(cast(bytes, file.file))} for file, _ in hours
    ]
    held = {
        "title": title,
        "grid": _base64(case.grid_file()),
        "book": _base64(case.book_file()),
        "hours": files,
        "names": _names(case.names),
    }
    # No name can end the script that holds it.
    return json.dumps(held, sort_keys=True, separators=(",", ":")).replace("<", "\\u003c").encode("ascii")


def page_with(page: bytes, case: bytes) -> bytes:
    """The page with a case in it."""
    if page.count(_EMPTY) != 1:
        raise ValueError("a page without one place for a case")
    return page.replace(_EMPTY, _BEFORE + case + _AFTER)


@command(
    "page",
    "one HTML page to try things on a book in a browser: each figure by the proved library, nothing sent",
    FOLDER._replace(settings={**FOLDER.settings, "nargs": "?"}).with_help(
        "a folder of CSV files, or of bin files; without it the page waits for bin files"
    ),
    *READING,
    writes("the HTML file", required=True),
    FORCE,
)
def page(folder: Optional[Path], out: Path, reading: Reading, force: bool) -> Answer:
    """Writes the page, over one of before."""
    empty = page_path().read_bytes()
    if folder is None:
        write_file(out, empty, force, is_page)
    else:
        case = case_json(readable(folder.resolve().name), opened(folder, reading), reading)
        write_beside(folder, out, page_with(empty, case), force, is_page)
    return Answer(PASSES, f"{out} written\n", {"out": str(out)})
