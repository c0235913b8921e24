"""Shapes and texts of a picture. Coordinates are in pixels, from the top left."""

from __future__ import annotations

import math
from typing import Sequence, Tuple
from html import escape

Point = Tuple[float, float]
GROUND, SLATE = "#fcfcfd", "#4a5361"
SANS = "-apple-system, 'Segoe UI', 'Liberation Sans', Helvetica, Arial, 'DejaVu Sans', sans-serif"
MONO = "ui-monospace, Menlo, Consolas, 'Liberation Mono', monospace"
# How wide characters are, in parts of the size: narrow ones, others, wide ones, and in MONO. No family above has wider ones.
NARROW, OTHERS, WIDE, MONO_WIDTH, BOLD = 0.4, 0.64, 0.98, 0.61, 1.13


def text_width(text: str, size: float, bold: bool = False) -> float:
    widths = (NARROW if it in " ,./:;ijl'|()[]ft-" else WIDE if it in "mwMW%@" or it > "~" else OTHERS for it in text)
    return sum(widths) * size * (BOLD if bold else 1)


def number(value: float) -> str:
    """A coordinate to a tenth of a pixel."""
    return f"{value:.1f}".removesuffix(".0")


def points_text(points: Sequence[Point]) -> str:
    return " ".join(f"{number(x)},{number(y)}" for x, y in points)


class Canvas:
    """The elements of a picture, in the order in which they are drawn."""

    def __init__(self) -> None:
        self.elements: list[str] = []

    def rect(self, x: float, y: float, width: float, height: float, fill: str, extra: str = "") -> None:
        box = f'x="{number(x)}" y="{number(y)}" width="{number(width)}" height="{number(height)}"'
        self.elements.append(f'<rect {box} fill="{fill}"{" " + extra if extra else ""}/>')

    def line(self, points: Sequence[Point], color: str, width: float, dash: str = "") -> None:
        dashes = f' stroke-dasharray="{dash}"' if dash else ""
        style = f'stroke="{color}" stroke-width="{number(width)}" fill="none" stroke-linejoin="round"'
        self.elements.append(f'<polyline points="{points_text(points)}" {style}{dashes}/>')

    def circle(self, at: Point, radius: float, fill: str, extra: str = "") -> None:
        place = f'cx="{number(at[0])}" cy="{number(at[1])}" r="{number(radius)}"'
        self.elements.append(f'<circle {place} fill="{fill}"{" " + extra if extra else ""}/>')

    def text(self, x: float, y: float, words: str, kind: str, anchor: str = "start") -> None:
        """A text in one of the picture's kinds, with its foot on y."""
        self.spans(x, y, [(words, kind)], anchor)

    def along(self, x: float, y: float, words: str, kind: str) -> None:
        """A text that goes down from y."""
        place = f"translate({number(x)} {number(y)}) rotate(90)"
        self.elements.append(f'<text transform="{place}" class="{kind}" dy="-1">{escape(words, quote=False)}</text>')

    def spans(self, x: float, y: float, parts: Sequence[tuple[str, str]], anchor: str = "start") -> None:
        side = "" if anchor == "start" else f' text-anchor="{anchor}"'
        inner = [f'<tspan class="{kind}"{" dx=" + chr(34) + "4" + chr(34) if at else ""}>{escape(words, quote=False)}</tspan>' for at, (words, kind) in enumerate(parts)]
        self.elements.append(f'<text x="{number(x)}" y="{number(y)}"{side}>{"".join(inner)}</text>')

    def arrow(self, source: Point, target: Point, color: str, width: float, dash: str = "") -> None:
        (x1, y1), (x, y) = source, target
        angle = math.atan2(y - y1, x - x1)
        back = [(x - 8 * math.cos(angle + turn), y - 8 * math.sin(angle + turn)) for turn in (0.42, -0.42)]
        self.line([source, (x - 6 * math.cos(angle), y - 6 * math.sin(angle))], color, width, dash)
        self.elements.append(f'<polygon points="{points_text([target, *back])}" fill="{color}"/>')

    def broken(self, x: float, y: float, width: float) -> None:
        """A break in what goes down here."""
        left, right = x - width / 2 - 2.5, x + width / 2 + 2.5
        self.line([(left, y + 2), (right, y - 2)], GROUND, 5)
        for above in (-2.5, 2.5):
            self.line([(left, y + 2 + above), (right, y - 2 + above)], SLATE, 1)

    def cross(self, at: Point, color: str, size: float = 4.5) -> None:
        x, y = at
        self.line([(x - size, y - size), (x + size, y + size)], color, 2)
        self.line([(x - size, y + size), (x + size, y - size)], color, 2)
