"""Figures in words and bars in SVG, for the report.

Bars are drawn in percent of the picture's width, so that text keeps its size on a phone.
"""

from __future__ import annotations

from html import escape

from .decimals import decimal, nearest
from .interface import FLOW_PLACES, LIMIT

_LIMIT_IN_FLOWS = 10 ** (FLOW_PLACES - LIMIT.places)


def grouped(number: str) -> str:
    """'-1234567.50' is '-1,234,567.50'."""
    sign, plain = ("-", number[1:]) if number.startswith("-") else ("", number)
    size, point, parts = plain.partition(".")
    return f"{sign}{int(size):,}{point}{parts}"


def money(amount: str) -> str:
    """'-1250.00' is '-$1,250.00'."""
    plain = grouped(amount)
    return f"-${plain[1:]}" if plain.startswith("-") else f"${plain}"


def exact_money(amount: str) -> str:
    """'12.3400000000' is '$12.34': all the decimals that it has, and two at least."""
    size, _, parts = money(amount).partition(".")
    return f"{size}.{parts.rstrip('0').ljust(2, '0')}"


def megawatts(flow: int) -> str:
    """A flow in MW to three decimals, a half away from zero."""
    return grouped(decimal(nearest(flow, 10 ** (FLOW_PLACES - 3)), 3))


def exact_megawatts(flow: int) -> str:
    """A flow in MW with all the decimals that it has."""
    return grouped(decimal(flow, FLOW_PLACES).rstrip("0").rstrip("."))


def limit_words(limit: int) -> str:
    """A limit in MW."""
    return grouped(decimal(limit, LIMIT.places))


def share(flow: int, limit: int) -> str:
    """A flow as a share of a limit, in percent to one decimal, a half away from zero; never -0.0."""
    return f"{grouped(decimal(nearest(1000 * flow, limit * _LIMIT_IN_FLOWS), 1))}%"


def row(name: str, picture: str, figure: str, *more: str) -> str:
    """A row with a bar, its figure, and lines below that."""
    lines = "".join(f" <small>{text}</small>" for text in more)
    cells = f"<td class=bar>{picture}</td><td class=figure>{figure}{lines}</td>"
    return f"<tr><th scope=row>{escape(name)}</th>{cells}</tr>"


def line(at: float, style: str) -> str:
    """A mark across a bar."""
    return f'<line class="mark {style}" x1="{at:.2f}%" x2="{at:.2f}%" y1="0" y2="22"/>'


def bar(label: str, start: float, end: float, kind: str, marks: str) -> str:
    """A bar from one percent of the width to another. What is over is hatched too."""
    x, width = f"{start:.2f}%", f"{max(end - start, 0.15):.2f}%"
    hatch = f'<rect x="{x}" y="4" width="{width}" height="14" fill="url(#hatch)"/>' if kind == "over" else ""
    return (
        f'<svg role="img"><title>{escape(label)}</title><rect class="track" y="4" width="100%" height="14"/>'
        f'<rect class="{kind}" x="{x}" y="4" width="{width}" height="14"/>{hatch}{marks}</svg>'
    )


def broken(figure: str) -> str:
    """The break of a bar that leaves the scale, at its right end, with the figure that it stands for."""
    left = 8 * len(figure) + 10
    return (
        f'<svg x="100%" class="broken"><path class="gap" d="M{-left - 4} 24L{-left + 4} -2H1V24Z"/>'
        f'<path class="mark" d="M{-left - 9} 22L{-left - 1} 0M{-left - 4} 22L{-left + 4} 0"/>'
        f'<text x="0" y="15.5" text-anchor="end">{escape(figure)}</text></svg>'
    )


def folded(summary: str, table: str) -> str:
    """A table that unfolds."""
    return f"<details><summary>{escape(summary)}</summary>{table}</details>"


HATCH = (
    '<svg width="0" height="0" style="position:absolute" aria-hidden="true"><defs>'
    '<pattern id="hatch" width="8" height="8" patternUnits="userSpaceOnUse" patternTransform="rotate(45)">'
    '<line class="hatch" x1="0" x2="0" y1="0" y2="8"/></pattern></defs></svg>'
)
