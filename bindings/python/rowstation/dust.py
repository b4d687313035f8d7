"""Ink and dust: which points two passes share, which are in one only, and which stand twice in a pass."""

from __future__ import annotations

from typing import Any, Dict, List, NamedTuple, Optional, Sequence, Tuple

import numpy as np

from . import pieces
from .cells import spelled, write_column
from .files import Progress
from .rows import Join, Rows, encode
from .schema import Schema
from .sheets import Values


class Pass(NamedTuple):
    """A pass: the name of its file, its rows under the key, and the line of each."""

    name: str
    rows: Rows
    lines: np.ndarray


COUNTS = ("ink", "dust a", "dust b", "duplicates a", "duplicates b")


class Dust:
    """Two passes compared by their rows. A *point* is one row of bytes, however often it stands in a pass.

    A point in both passes is ink, a point in one pass is dust; what a pass has of a point beyond the first row are duplicates. Points are
    grouped by the first ``by`` columns.
    """

    def __init__(self, first: Pass, second: Pass, by: int, progress: Optional[Progress] = None) -> None:
        progress = progress or Progress()
        self.passes = (first, second)
        self.schema: Schema = first.rows.schema
        self.by = by
        with progress.step("sorting and joining"):
            self.join = Join(first.rows, second.rows, in_order=False)
        with progress.step("decoding"):
            #: A row of each point, in order, and the values of these rows.
            self.rows = self.join.all
            self.points: Dict[str, Values] = self.rows.decode()
        with progress.step("counting"):
            #: For each point the counts that COUNTS names.
            self.counts = self._point_counts()
            #: For each point the number of its group; and for each group its first point.
            self.group, self.firsts = self.groups(by)
            #: For each group the counts that COUNTS names.
            self.group_counts = np.stack([np.bincount(self.group, column, len(self.firsts)) for column in self.counts.T], axis=1).astype(np.int64)
            #: For each point and pass the line of its first row, or 0 where the pass has none.
            self.lines = self._lines()

    def _point_counts(self) -> np.ndarray:
        rows = self.join.counts
        ink = (rows > 0).all(axis=1)
        return np.column_stack([ink, ~ink & (rows[:, 0] > 0), ~ink & (rows[:, 1] > 0), np.maximum(rows - 1, 0)]).astype(np.int64)

    def groups(self, k: int) -> Tuple[np.ndarray, np.ndarray]:
        """Points by their first k columns: for each point the number of its group, and for each group its first point.

        Points that agree in these columns stand side by side, and the bytes of these columns are their row under them alone.
        """
        beginnings = encode(self.schema.first(k), {name: self.points[name] for name in self.schema.names[:k]})
        same = pieces.order(beginnings.data, beginnings.offsets)[1]
        return np.cumsum(~same) - 1, np.flatnonzero(~same)

    def _lines(self) -> np.ndarray:
        """In the joined order the rows of a point stand together, those of pass 0 first and each pass as its lines are."""
        out = np.zeros((len(self.counts), 2), np.int64)
        rows = self.join.counts
        for which, entries in enumerate((self.join.firsts, self.join.firsts + rows[:, 0])):
            there = rows[:, which] > 0
            out[there, which] = self.passes[which].lines[self.join.rows[entries[there]]]
        return out

    def totals(self) -> List[int]:
        """The counts of all points together."""
        return self.counts.sum(axis=0).tolist()

    def words(self, names: Sequence[str], points: np.ndarray) -> List[List[str]]:
        """The values of some points in these columns, to be read by people: a list for each column."""
        columns = [spelled(self.schema[name], self.points[name][points]) for name in names]
        return [["null" if word is None else str(word) for word in column] for column in columns]

    def _cells(self, names: Sequence[str], points: np.ndarray, null: str) -> List[List[Any]]:
        """The same, to be read as CSV."""
        return [write_column(self.schema[name], self.points[name][points], null) for name in names]

    def report(self, most: int) -> List[str]:
        """The result as lines of text, with the groups that have the most dust; all groups if ``most`` is 0."""
        ink, *dust = self.totals()[:3]
        lines = []
        for which, one in enumerate(self.passes):
            rows = self.join.counts[:, which]
            lines.append(f"{one.name}: {_many(len(one.rows), 'row')}, {_many(int((rows > 0).sum()), 'point')}, "
                         f"{_many(int(np.maximum(rows - 1, 0).sum()), 'duplicate')}")
        lines.append(f"ink: {_many(ink, 'point')} in both")
        lines.append(f"dust: {_many(dust[0], 'point')} in {self.passes[0].name} only, {dust[1]:,} in {self.passes[1].name} only")
        if len(self.firsts) == 0:
            return lines
        order = np.argsort(-self.group_counts[:, 1:3].sum(axis=1), kind="stable")
        some = order[:most] if most else order
        names = self.schema.names[: self.by]
        cells = self.words(names, self.firsts[some])
        cells += [[f"{count:,}" for count in column] for column in self.group_counts[some].T.tolist()]
        lines += [""] + _table([*names, *COUNTS], cells, self.by)
        if len(some) < len(order):
            lines.append(f"and {len(order) - len(some):,} more; --most 0 shows all, and --csv writes all to a file")
        return lines

    def group_table(self, null: str) -> Tuple[List[str], List[List[Any]]]:
        """Names and columns, with a row for each group and its counts."""
        names = self.schema.names[: self.by]
        return [*names, *(count.replace(" ", "_") for count in COUNTS)], self._cells(names, self.firsts, null) + self.group_counts.T.tolist()

    def point_table(self, null: str) -> Tuple[List[str], List[List[Any]]]:
        """Names and columns, with a row for each point: its values, what it is, where, how often, and its first line in each pass."""
        every = np.arange(len(self.counts))
        what = np.where(self.counts[:, 0] > 0, "ink", "dust").tolist()
        where = np.select([self.counts[:, 0] > 0, self.counts[:, 1] > 0], ["both", "a"], "b").tolist()
        lines = [[line or "" for line in column] for column in self.lines.T.tolist()]
        columns = self._cells(self.schema.names, every, null) + [what, where] + self.join.counts.T.tolist() + lines
        return [*self.schema.names, "mark", "pass", "rows_a", "rows_b", "line_a", "line_b"], columns


def _many(count: int, what: str) -> str:
    return f"{count:,} {what}{'' if count == 1 else 's'}"


def _table(names: Sequence[str], columns: Sequence[Sequence[str]], left: int) -> List[str]:
    """Columns under their names; the first ones to the left, the others to the right."""
    widths = [max(map(len, [name, *column])) for name, column in zip(names, columns)]
    lines = []
    for row in [names, *zip(*columns)]:
        cells = [cell.ljust(width) if i < left else cell.rjust(width) for i, (cell, width) in enumerate(zip(row, widths))]
        lines.append("  ".join(cells).rstrip())
    return lines
