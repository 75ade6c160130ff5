"""Packages beyond Python's own, taken where they are installed. `./crr` starts without looking for any; the
few commands that gain by one look for it here."""

from __future__ import annotations

import sys
from importlib import import_module
from typing import Any, Optional


def installed(name: str) -> Optional[Any]:
    """A package's module, or none where it is not installed."""
    try:
        return import_module(name)
    except ImportError:
        if not sys.flags.no_site or "site" in sys.modules:
            return None
    import site

    site.main()  # as Python does at its start without -S
    return installed(name)
