"""The shared library by ctypes: how buffers are lent to it, how its answers become exceptions.

Nothing but the standard library is needed. A buffer is lent, never copied: bytes, array, memoryview, numpy
arrays, pandas columns.
"""

from __future__ import annotations

import ctypes
import operator
import struct
from array import array
from functools import cached_property, lru_cache
from typing import TYPE_CHECKING, Any, Callable, Dict, List, Optional, Sequence, Tuple, Type, Union

from .interface import DECLARATIONS, INTERFACE, MEANINGS, Parameter, parameters
from .library import library_path

if TYPE_CHECKING:
    from typing import Protocol

    class NumpyArray(Protocol):
        """A numpy array."""

        @property
        def __array_interface__(self) -> Dict[str, Any]: ...

    class PandasColumn(Protocol):
        """A pandas Series or Index."""

        def to_numpy(self) -> Any: ...


if struct.calcsize("P") != 8:
    raise ImportError("crr is for 64-bit machines")

# Cells of 64 bits, lent as they are where they are a buffer of the right type; a list or tuple of whole
# numbers is put into one.
Cells = Union[Sequence[int], "array[int]", "NumpyArray", "PandasColumn"]
Bytes = Union[bytes, bytearray, memoryview, "NumpyArray"]


class Refused(ValueError):
    """Input was turned down: the refusal's number, its meaning in crr.h's words, the entry that refused, and
    the file where one is known."""

    def __init__(self, number: int, entry: str, file: str = "") -> None:
        self.number = number
        self.meaning = MEANINGS.get(number, "a refusal that this package does not know")
        self.entry = entry
        self.file = file
        super().__init__(f"{file + ': ' if file else ''}refused {number} by {entry}: {self.meaning}")

    def __reduce__(self) -> Tuple[Type["Refused"], Tuple[int, str, str]]:
        # A pool of processes hands an exception over by its arguments, and those of the base class are the
        # message alone.
        return (Refused, (self.number, self.entry, self.file))


@lru_cache(maxsize=1)
def _library() -> ctypes.CDLL:
    path = library_path()
    library = ctypes.CDLL(str(path))  # CDLL lets other threads run during a call
    try:
        interface = library.crr_interface
    except AttributeError:
        why = "it is older than this package; ./library builds it anew"
        raise OSError(f"{path} does not tell its interface: {why}") from None
    interface.restype, interface.argtypes = ctypes.c_uint64, []
    number = interface()
    if number != INTERFACE:
        why = "one of them is older than the other"
        raise OSError(f"{path} has interface {number}, and this package is for {INTERFACE}: {why}")
    return library


class _PyBuffer(ctypes.Structure):
    """Python's Py_buffer, the same since 3.3."""

    _fields_ = [
        ("buf", ctypes.c_void_p),
        ("obj", ctypes.py_object),
        ("len", ctypes.c_ssize_t),
        ("itemsize", ctypes.c_ssize_t),
        ("readonly", ctypes.c_int),
        ("ndim", ctypes.c_int),
        ("format", ctypes.c_char_p),
        ("shape", ctypes.c_void_p),
        ("strides", ctypes.c_void_p),
        ("suboffsets", ctypes.c_void_p),
        ("internal", ctypes.c_void_p),
    ]


_get_buffer = ctypes.pythonapi.PyObject_GetBuffer
_get_buffer.argtypes = [ctypes.py_object, ctypes.POINTER(_PyBuffer), ctypes.c_int]
_get_buffer.restype = ctypes.c_int
_release_buffer = ctypes.pythonapi.PyBuffer_Release
_release_buffer.argtypes, _release_buffer.restype = [ctypes.POINTER(_PyBuffer)], None
_WRITABLE, _FORMAT, _C_CONTIGUOUS = 0x0001, 0x0004, 0x0020 | 0x0010 | 0x0008
_CELLS = {b"q": "q", b"l": "q", b"Q": "Q", b"L": "Q", b"B": "B", None: "B"}
_NOTHING = (ctypes.c_uint64 * 1)()
_NEEDED = {
    "B": "the bytes of a file are",
    "q": "whole numbers, or a buffer of them as array('q') and numpy's int64 have them, are",
    "Q": "whole numbers, or a buffer of them as array('Q') and numpy's uint64 have them, are",
}


class Lent:
    """A buffer of cells of one type, its address and its length in cells. It keeps its owner alive and makes
    no copy."""

    __slots__ = ("_buffer", "address", "cells", "code", "writable", "owner")

    def __init__(self, owner: Any, code: str, writable: bool = False, name: str = "buffer") -> None:
        view = _PyBuffer()
        try:
            _get_buffer(owner, ctypes.byref(view), _C_CONTIGUOUS | _FORMAT | (_WRITABLE if writable else 0))
        except TypeError:
            raise TypeError(f"{name}: {_NEEDED[code]} needed, not {type(owner).__name__}") from None
        except (BufferError, ValueError) as error:
            raise BufferError(f"{name}: {error}") from None
        self._buffer, self.owner, self.code, self.writable = view, owner, code, writable
        size = 1 if code == "B" else 8
        if _CELLS.get(view.format) != code or view.itemsize != size:
            cells = (view.format or b"B").decode()
            needed, given = f"{code!r} of {size} bytes", f"{cells!r} of {view.itemsize}"
            raise TypeError(f"{name}: a buffer of cells {needed} is needed; this one has {given}")
        # An empty buffer's own address may be null or odd (an array's is odd), which the header rules out:
        # any aligned place stands for it.
        self.address: int = view.buf if view.len else ctypes.addressof(_NOTHING)
        if self.address % size:
            raise TypeError(f"{name}: the buffer's cells are not aligned")
        self.cells: int = view.len // size

    def __del__(self) -> None:
        view: Optional[_PyBuffer] = getattr(self, "_buffer", None)
        if view is not None:
            _release_buffer(ctypes.byref(view))


def zeros(code: str, cells: int) -> "array[int]":
    """A fresh buffer of so many cells of 8 bytes."""
    return array(code, bytes(8 * cells))


def whole_numbers(numbers: Sequence[Any], code: str, name: str) -> "array[int]":
    """Whole numbers in a buffer of their own; one that is none, or too large, is told by its place."""
    try:
        return array(code, numbers)
    except (TypeError, OverflowError):
        for place, number in enumerate(numbers):
            _whole_number(number, code, f"{name}[{place}]")
        raise


def _whole_number(value: Any, code: str, name: str) -> int:
    try:
        number = operator.index(value)
    except TypeError:
        raise TypeError(f"{name}: a whole number is needed, not {type(value).__name__}") from None
    low, words = (0, "64 bits") if code == "Q" else (-(1 << 63), "64 bits with its sign")
    if not low <= number < low + (1 << 64):
        raise OverflowError(f"{name} is a number of {words}, not {number}")
    return number


def lend_cells(cells: Cells, code: str, name: str = "cells") -> Lent:
    """Cells to be read: a buffer as it is, a pandas column by its numpy array, a list or tuple in a buffer of
    its own. Errors say the name."""
    owner: Any = cells
    if hasattr(owner, "to_numpy"):
        owner = owner.to_numpy()
    if isinstance(owner, (list, tuple, range)):
        owner = whole_numbers(owner, code, name)
    return Lent(owner, code, name=name)


def lend_bytes(file: Bytes, name: str = "file") -> Lent:
    """A file's bytes to be read. Errors say the name."""
    return Lent(file, "B", name=name)


Figure = Union[ctypes.c_uint64, ctypes.c_int64]
Given = Union[Lent, Figure, int, Cells, Bytes]  # cells and bytes are lent for the call
_FIGURES = {"Q": ctypes.c_uint64, "q": ctypes.c_int64}


class Entry:
    """A function of crr.h, found in the library when it is first used."""

    def __init__(self, name: str) -> None:
        self.name = name
        self.parameters = parameters(DECLARATIONS[name])

    @cached_property
    def function(self) -> Callable[..., int]:
        """The function itself: addresses, lengths and numbers in, the refusal's number out."""
        try:
            function = _library()[self.name]
        except AttributeError:
            reason = "it is older than this package; ./library builds it anew"
            raise OSError(f"{library_path()} has no {self.name}: {reason}") from None
        function.restype = ctypes.c_uint64
        function.argtypes = [kind for parameter in self.parameters for kind in _argument_types(parameter)]
        return function

    def arguments(self, *given: Given) -> List[Any]:
        """The arguments for the function: a buffer's address and length, a number, a figure's address."""
        if len(given) != len(self.parameters):
            raise TypeError(f"{self.name} takes {len(self.parameters)} arguments, not {len(given)}")
        out: List[Any] = []
        for parameter, value in zip(self.parameters, given):
            out += _argument(self.name, parameter, value)
        return out

    def __call__(self, *given: Given, file: str = "") -> None:
        """Calls the function; a refusal is raised."""
        lent = list(map(_lent, self.parameters, given)) if len(given) == len(self.parameters) else given
        number = self.function(*self.arguments(*lent))
        if number:
            raise Refused(number, self.name, file)


def _argument_types(parameter: Parameter) -> List[Any]:
    if parameter.form == "number":
        return [_FIGURES[parameter.code]]
    return [ctypes.c_void_p, ctypes.c_size_t] if parameter.form == "buffer" else [ctypes.c_void_p]


def _lent(parameter: Parameter, value: Any) -> Any:
    """A value as an argument is made of it: cells and bytes are lent under the parameter's name."""
    if parameter.form != "buffer" or parameter.writable or isinstance(value, Lent):
        return value
    return (
        lend_bytes(value, parameter.name)
        if parameter.code == "B"
        else lend_cells(value, parameter.code, parameter.name)
    )


def _argument(entry: str, parameter: Parameter, value: Any) -> List[Any]:
    if isinstance(value, Lent):
        if (
            parameter.form == "buffer"
            and value.code == parameter.code
            and value.writable >= parameter.writable
        ):
            return [value.address, value.cells]
    elif isinstance(value, (ctypes.c_uint64, ctypes.c_int64)):
        if parameter.form == "figure" and isinstance(value, _FIGURES[parameter.code]):
            return [ctypes.addressof(value)]
    elif parameter.form == "number":
        return [_whole_number(value, parameter.code, f"{parameter.name} of {entry}")]
    raise TypeError(f"{parameter.name} of {entry} is a {parameter.form} of {parameter.code!r}")
