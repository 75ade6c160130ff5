"""A CSV file too large to be held: its lines are read as they are needed, and its hash with them. Faults are
those of any other sheet."""

from __future__ import annotations

import csv
import hashlib
import os
from collections import deque
from pathlib import Path
from typing import Deque, Iterator, List, Sequence

from .faults import Fault
from .inputs import Input, Inputs
from .sheet import Row, Sheet, delimiter_of, unread

STREAM_BYTES = 16 * 10**6  # a larger file is streamed
_HELD_LINES = 64  # behind the line that is read, for a fault's column


def is_large(path: Path) -> bool:
    """Whether a file is to be streamed."""
    try:
        return os.stat(path).st_size > STREAM_BYTES
    except OSError:
        return False


class StreamedSheet(Sheet):
    """A sheet whose rows are read once, in their order."""

    def __init__(
        self,
        path: Path,
        need: Sequence[str],
        faults: List[Fault],
        first: bool = False,
        name: str = "",
        inputs: Inputs = None,
        may: Sequence[str] = (),
    ) -> None:
        self.name, self.faults = name or str(path), faults
        self.heading, self.at, self.also = [], {}, {}
        self.rounded = 0
        self._doubtful, self._inputs = False, inputs
        self._held: Deque[str] = deque(maxlen=_HELD_LINES)
        try:
            self._file = open(path, "rb")
            heading = self._file.readline()
            self._file.seek(0)
        except OSError as error:
            self.faults.append(Fault(self.name, 0, "", unread(path, error, self.name)))
            return
        if heading[:2] in (b"\xff\xfe", b"\xfe\xff"):
            text = "UTF-16, as some spreadsheets save it; save as CSV UTF-8"
            self.faults.append(Fault(self.name, 1, need[0], text))
            return
        self._delimiter = delimiter_of(heading.decode("utf-8-sig", "surrogateescape"), need)
        self._reader = csv.reader(self._lines(), delimiter=self._delimiter, strict=True)
        self._read_heading(need, first, may)

    def _lines(self) -> Iterator[str]:
        digest, size = hashlib.sha256(), 0
        with self._file:
            for data in self._file:
                digest.update(data)
                form = "utf-8" if size else "utf-8-sig"
                size += len(data)
                try:
                    line = data.decode(form)
                except UnicodeDecodeError:
                    self._doubtful = True
                    line = data.decode(form, "surrogateescape")
                self._held.append(line)
                yield line
        if self._inputs is not None:
            self._inputs.append(Input(self.name, size, digest.hexdigest()))

    def rows(self) -> Iterator[Row]:
        return super().rows() if self.heading else iter(())

    def _broken_column(self, line: int) -> str:
        lines = list(self._held)[-(self._reader.line_num - line + 1) :]
        return self.column(self._broken_in("".join(lines), 0))
