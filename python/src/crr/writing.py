"""Writing: all of it or nothing, and over nobody's work.

A single file is written beside its place and moved there. The files of a folder are written into a folder of
their own first, beside a folder that is new and else within it, and moved when all of them are there. A link
leads to the file that is written; a device, a pipe or standard output takes the bytes. Nothing but plain
files is replaced, and none that differs, unless it is an earlier answer of the same command or it is forced.
"""

from __future__ import annotations

import errno
import os
import secrets
import shutil
import signal
import stat
from contextlib import contextmanager
from pathlib import Path
from typing import Callable, Iterable, Iterator, List, Mapping, Optional, Tuple, Union

from .faults import Fault, raise_any

_KEYS = ("grid.bin", "constraints.csv")  # without one of these no folder is taken for a case: they go last
_BEFORE = "before"  # the folder for what was in the way

IsAnswer = Callable[[str, bytes], bool]  # whether a file of this name and these bytes is an earlier answer
Content = Union[bytes, Callable[[], Iterable[bytes]]]  # of a file: at once, or piece by piece


class NotWritten(OSError):
    """Something can't be written: what, why, and what is left."""

    def __init__(self, path: Path, error: OSError, left: str = "nothing was changed") -> None:
        super().__init__(f"{path} can't be written: {error.strerror or error}; {left}")


def no_answer(name: str, data: bytes) -> bool:
    """No file is an earlier answer."""
    return False


def is_output(path: Optional[Path]) -> bool:
    """Whether a path leads to standard output, by whatever name."""
    try:
        return path is not None and os.path.samestat(os.stat(path), os.fstat(1))
    except OSError:
        return False


def _status(path: Path) -> Optional[os.stat_result]:
    """What a path leads to, if anything."""
    try:
        return os.stat(path)
    except FileNotFoundError:
        return None


def _takes_bytes(path: Path) -> bool:
    """Whether a path leads to a device, a pipe or standard output."""
    status = _status(path)
    file = status is None or stat.S_ISREG(status.st_mode) or stat.S_ISDIR(status.st_mode)
    return not file or is_output(path)


def _fresh_name(folder: Path) -> Path:
    """A name in a folder that nobody else takes."""
    return folder / f".crr-{secrets.token_hex(8)}"


def _make_folders(folder: Path) -> List[Path]:
    """Makes a folder and those above it, and gives those that were missing, the innermost first."""
    missing = [place for place in (folder, *folder.parents) if not os.path.lexists(place)]
    try:
        for place in reversed(missing):
            os.mkdir(place)
    except BaseException:
        _remove_empty(place for place in missing if os.path.lexists(place))
        raise
    return missing


def _remove_empty(folders: Iterable[Path]) -> None:
    for folder in folders:
        try:
            os.rmdir(folder)
        except OSError:
            return


@contextmanager
def _uninterrupted() -> Iterator[None]:
    """Ctrl-C waits until what is done here is done."""
    before = signal.pthread_sigmask(signal.SIG_BLOCK, {signal.SIGINT})
    try:
        yield
    finally:
        signal.pthread_sigmask(signal.SIG_SETMASK, before)


def _pieces(data: Content) -> Iterable[bytes]:
    return [data] if isinstance(data, bytes) else data()


def _says(path: Path, data: Content) -> bool:
    """Whether a file has these bytes."""
    with open(path, "rb") as file:
        return all(file.read(len(piece)) == piece for piece in _pieces(data)) and not file.read(1)


def _spare(
    name: str, path: Path, data: Content, force: bool, is_answer: IsAnswer, choose: str
) -> List[Fault]:
    """A fault where a plain file is there that may be someone's work."""
    if force or not path.is_file() or _says(path, data):
        return []
    if isinstance(data, bytes) and is_answer(path.name, path.read_bytes()):
        return []
    return [Fault(name, 0, "", f"{path} is there and differs: choose {choose}, or --force")]


def write_file(path: Path, data: bytes, force: bool = False, is_answer: IsAnswer = no_answer) -> None:
    """Writes a file, whole or not at all; a device, a pipe or standard output takes the bytes."""
    made: List[Path] = []
    try:
        if _takes_bytes(path):
            _write_through(path, data)
            return
        raise_any(_spare(str(path), path, data, force, is_answer, "another place (-o)"))
        made = _make_folders(path.parent)
        _replace(Path(os.path.realpath(path)), data)
    except NotWritten:
        raise
    except OSError as error:
        _remove_empty(made)
        raise NotWritten(path, error) from None


def _write_through(path: Path, data: bytes) -> None:
    try:
        with open(os.dup(1) if is_output(path) else os.open(path, os.O_WRONLY), "wb") as stream:
            stream.write(data)
    except OSError as error:
        raise NotWritten(path, error, "it may have taken a part") from None


def _replace(path: Path, data: bytes) -> None:
    """Writes a plain file beside its place and moves it there. It keeps the rights of the one before it."""
    status = _status(path)
    if status and stat.S_ISDIR(status.st_mode):
        raise IsADirectoryError(errno.EISDIR, os.strerror(errno.EISDIR))
    if status and not os.access(path, os.W_OK):
        raise PermissionError(errno.EACCES, os.strerror(errno.EACCES))
    place = _fresh_name(path.parent)
    try:
        with open(place, "xb") as file:
            file.write(data)
        if status:
            os.chmod(place, stat.S_IMODE(status.st_mode))
        os.replace(place, path)
    finally:
        if os.path.lexists(place):
            os.remove(place)


def _refuse_others(folder: Path, names: Iterable[str]) -> None:
    """Faults for places that have something else than a plain file that may be written."""
    faults = []
    for name in names:
        path = folder / name
        if os.path.lexists(path) and (path.is_symlink() or not path.is_file()):
            text = (
                f"{path} is no plain file, and no other is replaced: remove it, or choose another folder (-o)"
            )
            faults.append(Fault(name, 0, "", text))
        elif path.exists() and not os.access(path, os.W_OK):
            faults.append(Fault(name, 0, "", f"{path} may not be written to"))
    raise_any(faults)


def write_files(
    folder: Path,
    files: Mapping[str, Content],
    force: bool = False,
    is_answer: IsAnswer = no_answer,
    whole: Callable[[Path], None] = lambda staged: None,
) -> None:
    """Writes files below a folder, all or none. `whole` is given the folder in which they stand before they
    are moved, and raises what it has against them."""
    names = sorted(files, key=_KEYS.__contains__)
    made: List[Path] = []
    staged: Optional[Path] = None
    try:
        _refuse_others(folder, names)
        differ = [
            _spare(name, folder / name, files[name], force, is_answer, "another folder (-o)")
            for name in files
        ]
        raise_any([fault for faults in differ for fault in faults])
        made = _make_folders(folder.parent)
        staged = _fresh_name(folder if folder.is_dir() else folder.parent)
        os.mkdir(staged)
        _stage(staged, folder, files, names)
        whole(staged)
        with _uninterrupted():
            _move(staged, folder, names)
    except NotWritten:
        raise
    except OSError as error:
        raise NotWritten(folder, error) from None
    finally:
        if staged:
            _drop(staged)
        _remove_empty(made)


def _stage(staged: Path, folder: Path, files: Mapping[str, Content], names: Iterable[str]) -> None:
    """Writes the files into the folder in which they wait."""
    for name in names:
        try:
            _make_folders((staged / name).parent)
            with open(staged / name, "xb") as file:
                file.writelines(_pieces(files[name]))
        except OSError as error:
            raise NotWritten(folder / name, error) from None


def _move(staged: Path, folder: Path, names: List[str]) -> None:
    """Moves what is staged into its place. A new folder is moved as a whole. In one that is there the key
    goes first and comes last, so that at no time another case is to be seen; what fails is moved back."""
    if staged.parent != folder:
        os.rename(staged, folder)
        return
    moved: List[Tuple[Path, Path]] = []
    made: List[Path] = []
    before = staged / _BEFORE
    os.mkdir(before)
    try:
        for number, name in reversed(list(enumerate(names))):
            if (folder / name).exists():
                os.chmod(staged / name, stat.S_IMODE(os.stat(folder / name).st_mode))
                moved.append(_renamed(folder / name, before / str(number)))
        for name in names:
            made = _make_folders((folder / name).parent) + made
            moved.append(_renamed(staged / name, folder / name))
    except OSError as error:
        raise NotWritten(folder, error, _moved_back(moved, made, before)) from None
    shutil.rmtree(before, ignore_errors=True)


def _renamed(place: Path, other: Path) -> Tuple[Path, Path]:
    os.rename(place, other)
    return place, other


def _moved_back(moved: List[Tuple[Path, Path]], made: List[Path], before: Path) -> str:
    """Takes moves back, and says what is left."""
    try:
        for place, other in reversed(moved):
            os.rename(other, place)
    except OSError as error:
        return f"moving back what was there failed ({error.strerror}): it is in {before}"
    _remove_empty(made)
    return "nothing was changed"


def _drop(staged: Path) -> None:
    """Removes the folder in which files waited, unless it has what could not be moved back."""
    before = staged / _BEFORE
    if not before.is_dir() or not os.listdir(before):
        shutil.rmtree(staged, ignore_errors=True)
