"""Standard output and standard error: what can't be written is told and never a traceback, what the terminal
can't show is escaped."""

from __future__ import annotations

import os
from typing import Optional, TextIO


def readable(text: str) -> str:
    """A text in which the bytes of names that are not UTF-8, which Python keeps as surrogates, stand as
    \\xe9."""
    return text.encode("utf-8", "surrogateescape").decode("utf-8", "backslashreplace")


def write_to(stream: Optional[TextIO], text: str) -> str:
    """Writes a text at once and gives why that can't be done, or nothing. A reader that has seen enough, such
    as head, is no reason."""
    if stream is None:  # closed before Python began
        return "it is closed" if text else ""
    encoding = getattr(stream, "encoding", None) or "utf-8"
    try:
        stream.write(readable(text).encode(encoding, "backslashreplace").decode(encoding))
        stream.flush()
    except BrokenPipeError:
        _leave(stream)
    except OSError as error:
        _leave(stream)
        return error.strerror or str(error)
    except ValueError:
        return "it is closed"
    return ""


def _leave(stream: TextIO) -> None:
    """Turns a stream away, so that what is left in it is not tried again at the end."""
    try:
        os.dup2(os.open(os.devnull, os.O_WRONLY), stream.fileno())
    except (OSError, ValueError):
        pass  # it has no file
