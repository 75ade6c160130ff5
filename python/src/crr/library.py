"""Where the shared library is, and which one this processor takes, and where the page for browsers is. What
was made from other sources than the clone's is never taken."""

from __future__ import annotations

import os
import platform
import sys
from functools import lru_cache
from hashlib import sha256
from pathlib import Path
from typing import Dict, List, Optional, Set, Tuple

_HERE = Path(__file__).resolve().parent
_CLONE = (_HERE / ".." / ".." / "..").resolve()
_DIST, _BUILT = _CLONE / "dist", _CLONE / "target" / "sharedlib"
_BUILT_LIBRARY = _BUILT / "libcrr.so"
_PAGE = "page.html"

# The libraries of each machine, the best first: by their names in its folder of dist/, and in the package.
# The first of x86-64 Linux stands where glibc looks for it too.
V3 = "glibc-hwcaps/x86-64-v3/libcrr.so"
LIBRARIES: Dict[str, List[str]] = {
    "x86-64-linux": [V3, "libcrr.so"],
    "aarch64-linux": ["libcrr.so"],
    "x86-64-windows": ["crr.dll"],
}
# What x86-64-v3 has beyond x86-64, as Linux names it.
_V3_FLAGS = set(
    "cx16 lahf_lm popcnt sse4_1 sse4_2 ssse3 avx avx2 bmi1 bmi2 f16c fma abm movbe xsave".split()
)


def this_machine() -> str:
    """The machine by its name in LIBRARIES, or by what Python calls it."""
    processor = {"x86_64": "x86-64", "amd64": "x86-64", "arm64": "aarch64"}
    system = {"win32": "windows"}
    name = platform.machine().lower()
    return f"{processor.get(name, name)}-{system.get(sys.platform, sys.platform)}"


def processor_flags(cpuinfo: Path = Path("/proc/cpuinfo")) -> Set[str]:
    """What Linux says that the processor can do; nothing where it does not say."""
    try:
        with open(cpuinfo, encoding="utf-8", errors="replace") as lines:
            return next((set(line.split()) for line in lines if line.startswith("flags")), set())
    except OSError:
        return set()


@lru_cache(maxsize=1)
def library_name() -> str:
    """The best library for this processor, by its name in the machine's folder of dist/ and the package."""
    names = LIBRARIES.get(this_machine(), ["libcrr.so"])
    return names[-1] if names[0] == V3 and not processor_flags() >= _V3_FLAGS else names[0]


def library_path() -> Path:
    """CRR_LIBRARY's library, else the installed package's own, else the clone's: of dist/, or built."""
    asked = os.environ.get("CRR_LIBRARY")
    if asked and not Path(asked).is_file():
        raise FileNotFoundError(f"no shared library at {asked}, which CRR_LIBRARY names")
    given = Path(asked) if asked else _first(_HERE)
    if given:
        return given
    reasons = []
    for library, lists in _places(this_machine()):
        unlike = [_unlike(*one) for one in lists] if library.is_file() else ["it is missing"]
        if not any(unlike):
            return library
        reasons.append(f"{library}: {next(filter(None, unlike))}")
    advice = "./library builds it, CRR_LIBRARY names another"
    raise FileNotFoundError(f"no shared library of these sources: {advice} ({'; '.join(reasons)})")


def page_path() -> Path:
    """The installed package's own page for browsers, else that of dist/, which holds crr.wasm: it is taken
    where all of dist/ is of the clone's sources."""
    packed, shipped = _HERE / _PAGE, _DIST / _PAGE
    if packed.is_file():
        return packed
    lists: List[Listing] = [(_DIST / "SHA256SUMS", _DIST, (_PAGE,)), (_DIST / "MADE-FROM", _CLONE, _ALL)]
    unlike = next(filter(None, (_unlike(*one) for one in lists)), None)
    if not (_CLONE / "crates.txt").is_file():
        raise FileNotFoundError("this package has no page: it was packed where sources had changed")
    if unlike:
        raise FileNotFoundError(f"no page of these sources: {unlike}; ./library --dist makes it anew")
    return shipped


def _first(folder: Path) -> Optional[Path]:
    """The best library of a folder for this processor; a package of changed sources has one for any."""
    names = (folder / name for name in (library_name(), *LIBRARIES.get(this_machine(), [])[-1:]))
    return next((path for path in names if path.is_file()), None)


def libraries_to_pack(machine: str) -> Dict[str, Path]:
    """What a wheel for a machine carries, by its name in the package. Another machine's are of dist/."""
    if machine != this_machine() or library_path() == _first(_DIST / machine):
        missing = [_unlike(*one) for name in LIBRARIES[machine] for one in _shipped(machine, name)]
        if any(missing):
            raise FileNotFoundError(f"no library for {machine}: {next(filter(None, missing))}")
        return {name: _DIST / machine / name for name in LIBRARIES[machine]}
    return {LIBRARIES[machine][-1]: library_path()}


def library_origin(library: Path) -> str:
    """Where a library that was taken comes from, in words."""
    place = library.resolve()
    if place == _first(_HERE):
        return "the installed package"
    if place == _first(_DIST / this_machine()):
        kits = [line[len("# kit: ") :] for line in _lines(_DIST / "MADE-FROM") if line.startswith("# kit: ")]
        return f"dist/, made from this clone's sources with {', '.join(kits)}"
    return "./library, built from this clone's sources" if place == _BUILT_LIBRARY else "CRR_LIBRARY"


# A list of hashes, the folder in which its names begin, and how those begin that are asked for.
Listing = Tuple[Path, Path, Tuple[str, ...]]
_OF_LIBRARY = ("crates/", "include/")  # sources of MADE-FROM; the page has js/ besides
_ALL = ("",)


def _shipped(machine: str, name: str) -> List[Listing]:
    sums = (_DIST / "SHA256SUMS", _DIST, (f"{machine}/{name}",))
    return [(_DIST / "MADE-FROM", _CLONE, _OF_LIBRARY), sums]


def _places(machine: str) -> List[Tuple[Path, List[Listing]]]:
    """The clone's libraries, each with the lists that it is held to."""
    shipped = _first(_DIST / machine) or _DIST / machine / library_name()
    return [
        (shipped, _shipped(machine, shipped.relative_to(_DIST / machine).as_posix())),
        (_BUILT_LIBRARY, [(_BUILT / "MADE-FROM", _CLONE, _ALL)]),
    ]


def _lines(listing: Path) -> List[str]:
    return listing.read_text(encoding="utf-8").splitlines()


def _unlike(listing: Path, folder: Path, asked: Tuple[str, ...]) -> Optional[str]:
    """The first file of those asked for that differs from a list of hashes as sha256sum writes it."""
    if not listing.is_file():
        return f"there is no {listing.name} beside it"
    hashes = (line.partition("  ") for line in _lines(listing) if not line.startswith("#"))
    held = [(folder / name, name, hashed) for hashed, _, name in hashes if name.startswith(asked)]
    if not held:
        return f"{asked[0]} is not in {listing.name}"
    for file, name, hashed in held:
        if not file.is_file() or sha256(file.read_bytes()).hexdigest() != hashed:
            return f"{name} is not the file of {listing.name}"
    return None
