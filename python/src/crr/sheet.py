"""One CSV file: its heading found under the names that markets use, its rows with their lines, and every
fault with file, line and column.

Understood: a byte order mark, quotes, CRLF, semicolons or tabs for commas, blank rows, columns in any order
and columns that nobody asked for.
"""

from __future__ import annotations

import csv
import io
import os
from itertools import accumulate
from pathlib import Path
from typing import Dict, Iterator, List, Sequence, Tuple

from .decimals import decimal, whole
from .faults import Fault, brief
from .inputs import Inputs, note
from .interface import Unit

# The name of a column, and other names for it, in capitals with _ for a blank.
ALIASES: Dict[str, Tuple[str, ...]] = {
    "CRR_ID": ("FTR_ID", "ID"),
    "OWNER": ("ACCOUNTHOLDER", "ACCOUNT_HOLDER", "MARKET_PARTICIPANT", "PARTICIPANT", "OWNER_NAME", "HOLDER"),
    "HEDGE_TYPE": ("HEDGETYPE", "CRR_TYPE", "OPT_OBL"),
    "TIME_OF_USE": ("TIMEOFUSE", "TOU", "CLASS_TYPE", "CLASS", "PEAK_TYPE"),
    "SOURCE": ("SOURCE_NAME", "NODE_SOURCE", "FROM_NODE", "SOURCE_LOCATION_NAME"),
    "SINK": ("SINK_NAME", "NODE_SINK", "TO_NODE", "SINK_LOCATION_NAME"),
    "MW": ("CLEARED_MW", "AWARD_MW", "QUANTITY_MW"),
    "START_DATE": ("STARTDATE", "START_DAY", "START_DT", "EFFECTIVE_DATE", "VALID_FROM"),
    "END_DATE": ("ENDDATE", "END_DAY", "END_DT", "EXPIRATION_DATE", "VALID_TO"),
    "CONSTRAINT_ID": ("CONSTRAINT", "NOMOGRAM_ID", "TI_ID", "DEVICENAME", "MONITORED_FACILITY"),
    "LIMIT_MW": ("LIMIT", "RATING_MW"),
    "NODE_ID": ("NODE", "PNODE_ID", "PNODE", "BUS", "SETTLEMENTPOINT"),
    "OPR_DT": ("OPR_DATE", "DATE", "DELIVERYDATE"),
    "OPR_HR": ("HOUR_ENDING", "HE", "HOURENDING"),
    "SHADOW_PRICE": ("SHADOW_PRC", "PRC", "SHADOWPRICE"),
    "OLD_NODE": ("OLD",),
    "NEW_NODE": ("NEW",),
    "HUB": ("HUB_ID", "HUB_NAME", "TRADING_HUB"),
    "PERCENT": ("WEIGHT_PERCENT", "WEIGHT_PCT", "PCT"),
    "COORDINATOR": ("SCHEDULING_COORDINATOR", "COORDINATOR_ID", "SC", "SC_ID", "SCID"),
    "MEASURED_DEMAND": ("DEMAND", "DEMAND_MWH", "MEASURED_DEMAND_MWH"),
    "CUSTOMER_CLASS": ("CLASS",),
    "CUSTOMERS": ("NET_NUMBER_OF_CUSTOMER_TRANSFERRED", "CUSTOMERS_MOVED"),
    "MW_PER_CUSTOMER": ("MW/CUSTOMER_RATE", "MW/CUSTOMER", "RATE"),
    "OLD_LSE": ("OLD",),
    "NEW_LSE": ("NEW",),
    "LSE": ("LSE_ID", "LSE_NAME"),
    "LOAD_MW": ("MW", "LOAD", "CURRENT_LOAD", "CURRENT_LOAD_MW"),
    "BRANCH_ID": ("BRANCH", "LINE_ID", "LINE"),
    "FROM_BUS": ("FROM", "F_BUS", "FBUS", "BUS0"),
    "TO_BUS": ("TO", "T_BUS", "TBUS", "BUS1"),
    "REACTANCE": ("X", "BR_X", "X_PU"),
    "TAP_RATIO": ("TAP", "RATIO"),
    "EMERGENCY_MW": ("EMERGENCY_LIMIT_MW", "EMERGENCY_RATING_MW"),
    "CONTINGENCY_ID": ("CONTINGENCY", "OUTAGE", "OUTAGE_ID"),
    "OPERATION": ("OP",),
    "TIER": (),
    "TABLE": (),
    "NUMBER": (),
    "NAME": (),
}
_COLUMNS: Dict[str, Tuple[str, ...]] = {}  # by heading; what some mean, such as CLASS, the file decides
for _column, _others in ALIASES.items():
    for _alias in (_column, *_others):
        _COLUMNS[_alias] = (*_COLUMNS.get(_alias, ()), _column)

_LONG, _SENTENCE = 60, 240  # characters of a heading, and of a sentence, that are told

Row = Tuple[int, List[str]]  # the line, and the fields in the file's order


def column_name(heading: str, need: Sequence[str]) -> str:
    """The name of a column by its heading, one that is needed where it has several, or the heading in
    capitals where it has none."""
    plain = heading.upper().replace(" ", "_")
    meanings = _COLUMNS.get(plain, (plain,))
    return next((column for column in meanings if column in need), meanings[0])


class Sheet:
    """A CSV file. Faults go to the list that it is given; `at` says where each column that is needed stands.
    With `first` the one that is needed is the first column, whatever the others are called; `also` says
    where those stand that `may` be missing. Faults call it by
    its path as it was given, or by its name in a folder. What was read is noted in `inputs`."""

    def __init__(
        self,
        path: Path,
        need: Sequence[str],
        faults: List[Fault],
        first: bool = False,
        name: str = "",
        inputs: Inputs = None,
        may: Sequence[str] = (),
    ) -> None:
        self.name, self.faults = name or str(path), faults
        self.heading: List[str] = []
        self.at: Dict[str, int] = {}
        self.also: Dict[str, int] = {}  # columns that may be missing
        self.rounded = 0  # how many figures were
        self._text, self._doubtful = self._decoded(path, need, inputs)
        self._delimiter = delimiter_of(self._text, need)
        self._reader = csv.reader(_lines(self._text), delimiter=self._delimiter, strict=True)
        self._starts: List[int] = []  # of lines, found when a fault needs them
        if self._text:
            self._read_heading(need, first, may)

    def _decoded(self, path: Path, need: Sequence[str], inputs: Inputs) -> Tuple[str, bool]:
        try:
            data = path.read_bytes()
        except OSError as error:
            self.faults.append(Fault(self.name, 0, "", unread(path, error, self.name)))
            return "", False
        note(inputs, self.name, data)
        if data[:2] in (b"\xff\xfe", b"\xfe\xff"):
            self.faults.append(
                Fault(self.name, 1, need[0], "UTF-16, as some spreadsheets save it; save as CSV UTF-8")
            )
            return "", False
        if not data.strip():
            self.faults.append(
                Fault(self.name, 1, need[0], "the file is empty: its first line is the heading")
            )
            return "", False
        try:
            return data.decode("utf-8-sig"), False
        except UnicodeDecodeError:
            return data.decode("utf-8-sig", "surrogateescape"), True

    def _read_heading(self, need: Sequence[str], first: bool, may: Sequence[str]) -> None:
        try:
            self.heading = [field.strip() for field in next(self._reader, [])]
        except csv.Error as error:
            self._note(1, need[0], f"the heading can't be read: {_reason(error)}")
            return
        self._readable(1, self.heading)
        names = [column_name(heading, (*need, *may)) for heading in self.heading[: 1 if first else None]]
        for column in (*need, *may):
            if column not in names:
                if column in may:
                    continue
                missing = "the first column must be this one" if first else "the column is missing"
                self._note(1, column, missing)
            elif names.count(column) > 1:
                headings = ", ".join(h for h, name in zip(self.heading, names) if name == column)
                self._note(1, column, f"more than one column has this meaning: {headings}")
            else:
                (self.also if column in may else self.at)[column] = names.index(column)

    def rows(self) -> Iterator[Row]:
        """The rows that have a field for each heading; the others are faults."""
        width, line = len(self.heading), self._reader.line_num
        while self.heading:
            try:
                for row in self._reader:
                    first, line = line + 1, self._reader.line_num
                    fields = [field.strip() for field in row]
                    if not any(fields):
                        continue
                    if len(fields) != width:
                        self._wrong_width(first, len(fields))
                    elif not self._doubtful or self._readable(first, fields):
                        yield first, fields
                return
            except csv.Error as error:
                first, line = line + 1, self._reader.line_num
                self._note(first, self._broken_column(first), _reason(error))

    def column(self, at: int) -> str:
        """A column's heading as it stands in the file, or its place where that can't be printed."""
        heading = self.heading[at] if at < len(self.heading) else ""
        return heading if heading.isprintable() and 0 < len(heading) <= _LONG else f"column {at + 1}"

    def fault(self, line: int, column: str, text: str, refusal: int = 0) -> None:
        """Notes a fault in a column by its name, told by its heading where it has one."""
        at = self.at.get(column, self.also.get(column))
        self._note(line, column if at is None else self.column(at), text, refusal)

    def _note(self, line: int, column: str, text: str, refusal: int = 0) -> None:
        self.faults.append(Fault(self.name, line, column, brief(text, _SENTENCE), refusal))

    def figure(self, line: int, at: int, text: str, unit: Unit, rounded: bool = False) -> int:
        """A decimal as a whole number in its unit and range. A fault is noted and gives 0."""
        try:
            number = whole(text, unit.places, rounded)
        except ValueError as error:
            self._note(line, self.column(at), str(error))
            return 0
        if not unit.low <= number <= unit.high:
            low, high = decimal(unit.low, unit.places), decimal(unit.high, unit.places)
            self._note(line, self.column(at), f"{text} is outside {low} to {high}", unit.refusal)
            return 0
        self.rounded += rounded and len(text.partition(".")[2].rstrip("0")) > unit.places
        return number

    def name_in(self, line: int, column: str, text: str) -> bool:
        """Whether a field can be a name; a fault is noted otherwise."""
        if not text:
            self.fault(line, column, "empty")
        elif not text.isprintable():
            self.fault(line, column, f"{text!r} has a control character")
        else:
            return True
        return False

    def new_name(self, line: int, column: str, name: str, known: Dict[str, int]) -> bool:
        """Whether a name can be taken as a new one, which then has the next number; a fault is noted
        otherwise."""
        if not self.name_in(line, column, name):
            return False
        if name in known:
            self.fault(line, column, f"{name} occurs twice")
            return False
        known[name] = len(known)
        return True

    def _readable(self, line: int, fields: Sequence[str]) -> bool:
        bad = [at for at, field in enumerate(fields) if any("\udc80" <= c <= "\udcff" for c in field)]
        for at in bad:
            byte = next(ord(c) - 0xDC00 for c in fields[at] if "\udc80" <= c <= "\udcff")
            self._note(line, self.column(at), f"not UTF-8: the byte {byte:#04x}; save as CSV UTF-8")
        return not bad

    def _wrong_width(self, line: int, fields: int) -> None:
        text = f"{fields} fields where the heading has {len(self.heading)}"
        self._note(line, self.column(min(fields, len(self.heading))), text)

    @property
    def unused(self) -> List[str]:
        """The columns that nobody asked for."""
        used = {*self.at.values(), *self.also.values()}
        return [self.column(at) for at in range(len(self.heading)) if at not in used]

    def _broken_column(self, line: int) -> str:
        """The column of the first field, in the lines from this one on, that is too long, or whose quote is
        not closed or not followed by a separator."""
        if not self._starts:
            self._starts = [0, *accumulate(map(len, _lines(self._text)))]
        return self.column(self._broken_in(self._text, self._starts[line - 1]))

    def _broken_in(self, text: str, at: int) -> int:
        """The place of that column, for lines that begin at a place of a text."""
        column = 0
        while at < len(text) and text[at] not in "\r\n":
            start = at
            if text[at] == '"':
                at = _behind_quotes(text, at)
                if not at or text[at : at + 1] not in (self._delimiter, "\r", "\n", ""):
                    break
            else:
                at = _behind_field(text, at, self._delimiter)
            if at - start > csv.field_size_limit():
                break
            if text[at : at + 1] == self._delimiter:
                at, column = at + 1, column + 1
        return column


def _reason(error: csv.Error) -> str:
    """What is wrong with a row that can't be taken apart."""
    if "field limit" in str(error):
        return f"a field of more than {csv.field_size_limit():,} characters; is a quote left open?"
    return f"quotes: {error}"


def unread(path: Path, error: OSError, name: str = "") -> str:
    """Why a file can't be read: a link that leads nowhere and a file under a name much like it are told, and
    its path where that is not the name that it is told by."""
    if isinstance(error, FileNotFoundError):
        if path.is_symlink():
            return f"a symbolic link to {os.readlink(path)}, which is not there"
        others = alike(path)
        if others:
            return f"not there, and {', '.join(others)} is: it is read under the name {path.name} alone"
    return str(error.strerror) if name == str(path) else f"{error.strerror}: {path}"


_EXTENSIONS = ("csv", "txt", "tsv", "xls", "xlsx", "ods", "bin")


def _plain(name: str) -> str:
    """A file's name without what is easily changed about it: capitals, an extension, the s of a plural."""
    stem = name.lower()
    while stem.rpartition(".")[2] in _EXTENSIONS and "." in stem:
        stem = stem.rpartition(".")[0]
    return stem[:-1] if stem.endswith("s") else stem


def alike(path: Path) -> List[str]:
    """The names in a file's folder that are much like its own: Prices.CSV, price.csv, prices.csv.txt. A bin
    file is like a bin file alone."""
    try:
        names = sorted(os.listdir(path.parent))
    except OSError:
        return []
    is_bin = path.suffix == ".bin"
    others = [name for name in names if name != path.name and "." in name]
    like = [name for name in others if _plain(name) == _plain(path.name)]
    return [name for name in like if name.lower().endswith(".bin") == is_bin]


def is_there(path: Path) -> bool:
    """Whether a file that may be missing is to be read: it is there, or a link to it, or one that is much
    like it, which is a fault."""
    return os.path.lexists(path) or bool(alike(path))


def _lines(text: str) -> io.StringIO:
    """The lines as the csv module counts them."""
    return io.StringIO(text, newline="")


def delimiter_of(text: str, need: Sequence[str]) -> str:
    """What separates the heading's fields: that by which most of the columns are found that are needed, since
    names have separators too; of equal ones the most frequent."""
    heading = text.split("\n", 1)[0]

    def likelihood(delimiter: str) -> Tuple[int, int]:
        fields = heading.replace('"', "").split(delimiter)
        names = [column_name(field.strip(" \r"), need) for field in fields]
        return sum(column in names for column in need), heading.count(delimiter)

    return max(",;\t", key=likelihood)


def _behind_field(text: str, at: int, delimiter: str) -> int:
    """The place behind a field without quotes."""
    while at < len(text) and text[at] not in (delimiter, "\r", "\n"):
        at += 1
    return at


def _behind_quotes(text: str, at: int) -> int:
    """The place behind the quotes that open at a place, with two for one within them; 0 where they are never
    closed."""
    at = text.find('"', at + 1)
    while at >= 0 and text[at + 1 : at + 2] == '"':
        at = text.find('"', at + 2)
    return at + 1
