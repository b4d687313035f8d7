"""Pieces: many byte strings in one array, with the place where each ends. Rows are pieces, and so are the values of a column of bytes.

``data`` is an array of bytes and ``ends`` has one number more than there are pieces: piece i is ``data[ends[i]:ends[i + 1]]``. Nothing here
loops over pieces; loops are over their distinct lengths, which are few, or over chunks of their bytes.
"""

from __future__ import annotations

from typing import Iterable, Iterator, List, Optional, Sequence, Tuple

import numpy as np
from numpy.lib.stride_tricks import sliding_window_view

Pieces = Tuple[np.ndarray, np.ndarray]

#: How many bytes of each piece the first turn of :func:`order` looks at.
FIRST_CHUNK = 64


def from_list(values: Sequence[bytes]) -> Pieces:
    """The pieces of a list."""
    lengths = np.fromiter(map(len, values), np.int64, len(values))
    return np.frombuffer(b"".join(values), np.uint8), ends_of(lengths)


def to_list(data: np.ndarray, ends: np.ndarray) -> List[bytes]:
    """A bytes object for each piece."""
    whole, at = data.tobytes(), ends.tolist()
    return [whole[start:end] for start, end in zip(at, at[1:])]


def ends_of(lengths: np.ndarray) -> np.ndarray:
    """The ends of pieces of these lengths."""
    ends = np.zeros(len(lengths) + 1, np.int64)
    np.cumsum(lengths, out=ends[1:])
    return ends


def concatenated(parts: Iterable[Pieces]) -> Pieces:
    """The pieces of all parts, first to last."""
    parts = list(parts)
    if not parts:
        return np.empty(0, np.uint8), np.zeros(1, np.int64)
    if len(parts) == 1:
        return parts[0]
    bases = np.cumsum([0] + [len(data) for data, _ in parts])
    ends = [np.zeros(1, np.int64)] + [ends[1:] - ends[0] + base for (_, ends), base in zip(parts, bases)]
    return np.concatenate([data for data, _ in parts]), np.concatenate(ends)


def _by_length(lengths: np.ndarray) -> Iterator[Tuple[int, np.ndarray]]:
    """Each length that there is, but 0, with the numbers of the pieces that have it."""
    if len(lengths) == 0:
        return
    # numpy sorts numbers of 16 bits by counting.
    lengths = lengths.astype(np.uint16) if lengths.max() < 1 << 16 else lengths
    by = np.argsort(lengths, kind="stable")
    rising = lengths[by]
    starts = np.flatnonzero(np.diff(rising)) + 1
    for some in np.split(by, starts):
        if lengths[some[0]] > 0:
            yield int(lengths[some[0]]), some


def take(data: np.ndarray, ends: np.ndarray, which: np.ndarray) -> Pieces:
    """The pieces with these numbers, in this order."""
    starts = ends[which]
    lengths = ends[np.asarray(which) + 1] - starts
    new = ends_of(lengths)
    out = np.empty(new[-1], np.uint8)
    for length, some in _by_length(lengths):
        windows = sliding_window_view(out, length, writeable=True)
        windows[new[some]] = sliding_window_view(data, length)[starts[some]]
    return out, new


def alike(data: np.ndarray, ends: np.ndarray, which: np.ndarray) -> np.ndarray:
    """For each of the pieces with these numbers, in this order, whether it equals the one before."""
    starts, lengths = ends[which], ends[which + 1] - ends[which]
    same = np.zeros(len(which), bool)
    same[1:] = lengths[1:] == lengths[:-1]
    for length, some in _by_length(np.where(same, lengths, 0)):
        windows = sliding_window_view(data, length)
        same[some] = (windows[starts[some]] == windows[starts[some - 1]]).all(axis=1)
    return same


def _padded(data: np.ndarray, starts: np.ndarray, lengths: np.ndarray, out: np.ndarray) -> None:
    """Writes each piece to the front of a row of ``out``, which is as wide as the longest and all zeros."""
    for length, some in _by_length(lengths):
        out[some, :length] = sliding_window_view(data, length)[starts[some]]


def _high_first(numbers: np.ndarray) -> np.ndarray:
    """Each number as four bytes, high byte first, which sort as the numbers do."""
    return numbers.astype(">u4").view(np.uint8).reshape(-1, 4)


def _chunk_order(data: np.ndarray, starts: np.ndarray, left: np.ndarray, chunk: int, groups: Optional[np.ndarray]) -> Pieces:
    """The order of pieces by their groups and then by their next bytes, and for each whether it is like the one before.

    Each piece becomes a byte string of fixed width: its group, its next bytes, how many of these there are, and its number. numpy sorts
    those as they lie, and the numbers that are then at their ends are the order.

    The next bytes are padded with zeros. Of two rows under one column list neither begins the other unless they are equal, so padding
    never makes two of them alike. Any bytes may be ordered, though, and there the count that follows puts the beginning first: where a
    padded piece equals a longer one, the longer one goes on in zeros. A piece that goes on after the chunk counts one more.
    """
    width = int(min(chunk, left.max()))
    lead = 0 if groups is None else 4
    keys = np.zeros((len(starts), lead + width + 8), np.uint8)
    if groups is not None:
        keys[:, :lead] = _high_first(groups)
    _padded(data, starts, np.minimum(left, width), keys[:, lead : lead + width])
    keys[:, -8:-4] = _high_first(np.minimum(left, width + 1))
    keys[:, -4:] = _high_first(np.arange(len(starts)))
    keys.view(f"S{keys.shape[1]}").reshape(-1).sort(kind="stable")
    rest = np.ndarray(len(keys), f"S{keys.shape[1] - 4}", keys, strides=keys.strides[:1])
    alike = np.zeros(len(keys), bool)
    alike[1:] = rest[1:] == rest[:-1]
    return keys[:, -4:].copy().view(">u4").reshape(-1).astype(np.int64), alike


def order(data: np.ndarray, ends: np.ndarray) -> Pieces:
    """The numbers of the pieces in the order of their bytes, equal ones as they stand; and for each whether it equals the one before.

    All pieces are ordered by their first bytes. Then those that are alike so far and go on are ordered by their next bytes, group by
    group, and so on; each turn looks at twice as many bytes, so that it never takes much more room than the pieces themselves.
    """
    count = len(ends) - 1
    if count >= 1 << 32:
        raise ValueError(f"{count} are too many to put in order at once")
    starts, left = ends[:-1], np.diff(ends)
    placed, same = np.empty(count, np.int64), np.zeros(count, bool)
    which, slots, groups = np.arange(count), np.arange(count), None
    at, chunk = 0, FIRST_CHUNK
    while len(which):
        by, alike = _chunk_order(data, starts[which] + at, left[which] - at, chunk, groups)
        which = which[by]
        placed[slots], same[slots] = which, alike
        at += chunk
        chunk *= 2
        # What is alike and goes on stands in slots side by side, and is put in order among these.
        tied = alike.copy()
        tied[:-1] |= alike[1:]
        tied &= left[which] > at
        groups = np.cumsum(~alike)[tied]
        which, slots = which[tied], slots[tied]
    return placed, same
