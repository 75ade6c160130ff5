"""What was read: the name, length and hash of a file, taken of the very bytes that were read."""

from __future__ import annotations

import hashlib
from typing import List, NamedTuple, Optional, Sequence


class Input(NamedTuple):
    """A file that was read."""

    name: str
    bytes: int
    sha256: str


Inputs = Optional[List[Input]]  # where to note what is read, if that is asked for


def input_of(name: str, parts: Sequence[bytes]) -> Input:
    """What was read, of bytes one behind the other."""
    digest = hashlib.sha256()
    for part in parts:
        digest.update(part)
    return Input(name, sum(map(len, parts)), digest.hexdigest())


def note(inputs: Inputs, name: str, data: bytes) -> None:
    """Notes what was read, where that is asked for."""
    if inputs is not None:
        inputs.append(input_of(name, [data]))
