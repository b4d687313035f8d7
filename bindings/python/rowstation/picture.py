"""A picture of the points of one plate: ink and dust in two colours. It needs matplotlib."""

from __future__ import annotations

import os
from typing import Any, BinaryIO, Dict, List, Tuple

import numpy as np

from .cells import FORMS
from .dust import Dust

INK, DUST = "#2b4a78", "#d95f02"
FORMATS = ("png", "svg", "pdf")


class NoPicture(Exception):
    """Why there is no picture."""


def figure_class() -> Any:
    """matplotlib's figure, where matplotlib is."""
    try:
        from matplotlib.figure import Figure
    except ImportError:
        raise NoPicture("a picture needs matplotlib (in Debian and Ubuntu the package python3-matplotlib)") from None
    return Figure


def _plate(dust: Dust, plate: str) -> Tuple[str, np.ndarray]:
    """The points of a plate, a value of the first column: the one that is named, or the one with the most dust. And its name."""
    column = dust.schema.columns[0]
    if not plate:
        group, firsts = dust.groups(1)
        most = int(np.argmax(np.bincount(group, dust.counts[:, 1:3].sum(axis=1))))
        return dust.words([column.name], firsts[most : most + 1])[0][0], np.flatnonzero(group == most)
    try:
        found = dust.rows.look_up(None if plate == "null" else FORMS[column.kind.family].read(column.kind, plate))
    except ValueError:
        raise NoPicture(f"--plate {plate}: {column.name} is {column.kind.name}") from None
    if not found:
        raise NoPicture(f"no point has {column.name} {plate}")
    return plate, np.arange(found.start, found.stop)


def _axis(dust: Dust, name: str, points: np.ndarray) -> Tuple[np.ndarray, List[str]]:
    """Where points stand along a column: numbers as they are, others in lanes in the order of rows, with their labels."""
    values = dust.points[name]
    if dust.schema[name].kind.family in ("integer", "long", "float"):
        numbers = np.ma.filled(values[points].astype(float), np.nan)
        if np.isnan(numbers).any():
            raise NoPicture(f"column {name} has values here that are no numbers to draw")
        return numbers, []
    words = dust.words([name], points)[0]
    lanes: Dict[str, int] = {}
    for word in words:
        lanes.setdefault(word, len(lanes))
    return np.array([lanes[word] for word in words], float), list(lanes)


def draw(dust: Dust, file: BinaryIO, form: str, plate: str, across: str, up: str) -> str:
    """Draws the points whose first value is ``plate``, or where that is empty the value with the most dust. Gives what was drawn, in words."""
    figure = figure_class()
    if len(dust.counts) == 0:
        raise NoPicture("there is no point to draw")
    first = dust.schema.names[0]
    plate, points = _plate(dust, plate)
    x, x_lanes = _axis(dust, across, points)
    y, y_lanes = _axis(dust, up, points)
    height = min(40.0, max(4.0, 1.6 + 0.24 * len(y_lanes)))
    drawing = figure(figsize=(10, height), dpi=120)
    axes = drawing.add_subplot()
    counts = dust.counts[points]
    names = [os.path.basename(one.name) for one in dust.passes]
    for which, label, colour, marker, size in (
        (0, "ink, in both passes", INK, "o", 16),
        (1, f"dust, in {names[0]} only", DUST, "^", 34),
        (2, f"dust, in {names[1]} only", DUST, "v", 34),
    ):
        some = counts[:, which] > 0
        label = f"{label}: {int(some.sum()):,}"
        axes.scatter(x[some], y[some], s=size, c=colour, marker=marker, alpha=0.8, linewidths=0, label=label, zorder=2 + which)
    _lanes(axes.xaxis, x_lanes)
    _lanes(axes.yaxis, y_lanes)
    if y_lanes:
        axes.invert_yaxis()
    axes.grid(True, color="#e0e0e0", linewidth=0.6)
    axes.set_axisbelow(True)
    axes.set_xlabel(across)
    axes.set_ylabel(up)
    axes.set_title(f"{first} {plate}: ink and dust", loc="left", pad=34)
    axes.legend(loc="lower left", bbox_to_anchor=(0, 1.0), ncol=3, frameon=False, fontsize=9, borderaxespad=0.2, handletextpad=0.2)
    for side in ("top", "right"):
        axes.spines[side].set_visible(False)
    drawing.savefig(file, format=form, bbox_inches="tight", metadata={"Software": None} if form == "png" else None)
    return f"{first} {plate}, {len(points):,} points"


def _lanes(axis: Any, labels: List[str]) -> None:
    """Lanes with their labels; where there are very many, only some are labelled."""
    if not labels:
        return
    every = -(-len(labels) // 150)
    axis.set_ticks(range(0, len(labels), every))
    axis.set_ticklabels([label if len(label) <= 28 else label[:25] + "..." for label in labels[::every]])
    axis.set_view_interval(-0.7, len(labels) - 0.3, ignore=True)
