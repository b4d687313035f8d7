"""Refusals: why the station did nothing, as an exception with its numbers and the words for them.

``REASONS`` is the one table of this package. Its words are those of the bindings for Rust, and a test holds the two to each other.
"""

from __future__ import annotations

from typing import NamedTuple, Optional, Tuple


class Reason(NamedTuple):
    """What the number of a refusal means, and what each of its further numbers counts."""

    words: str
    second: str
    third: str = ""
    fourth: str = ""


#: Number of a refusal -> what it means. The words are a format in ``second``, ``third`` and ``fourth``.
REASONS = {
    1: Reason("the list is empty or cut in the column at place {second}", "place"),
    2: Reason("unknown kind at place {second} of the list", "place"),
    3: Reason("option bits unknown, or not for this kind, in the column at place {second} of the list", "place"),
    4: Reason("a width over 1,024, or outside fixed binary, in the column at place {second} of the list", "place"),
    5: Reason("a 65th column begins at place {second} of the list", "place"),
    6: Reason("{second} rows, over 4,096", "rows"),
    7: Reason("column {second} of the sheet is cut", "column"),
    8: Reason("a spare bit is set in column {second}", "column"),
    9: Reason("the ends of column {second} fall at row {third}", "column", "row"),
    10: Reason("a slot over 65,535 bytes in column {second}, row {third}", "column", "row"),
    11: Reason("bytes after the last column, from byte {second} of the sheet on", "sheet_byte"),
    12: Reason("{second} row bytes, over 16,777,216", "bytes"),
    13: Reason("the row buffer is too small for {second} bytes", "bytes"),
    14: Reason("the list of offsets, of the order, of answers or of ends is too short for {second}", "numbers"),
    15: Reason("offset {second} is not 0 at the start, falls, or passes the row bytes", "offset"),
    16: Reason("row {second}, column {third}, byte {fourth}: the field or block is cut", "row", "column", "byte"),
    17: Reason("row {second}, column {third}, byte {fourth}: this lead byte is not allowed", "row", "column", "byte"),
    18: Reason("row {second}, column {third}, byte {fourth}: a byte after the null byte is not zero", "row", "column", "byte"),
    19: Reason("row {second}, column {third}, byte {fourth}: a bool is not 00 or 01", "row", "column", "byte"),
    20: Reason("row {second}, column {third}, byte {fourth}: the end byte is neither FF nor 1 to the block size", "row", "column", "byte"),
    21: Reason("row {second}, column {third}, byte {fourth}: padding is not zero", "row", "column", "byte"),
    22: Reason("row {second}, column {third}, byte {fourth}: bytes follow the last field", "row", "column", "byte"),
    23: Reason("row {second}, column {third}, byte {fourth}: the value is over 65,535 bytes", "row", "column", "byte"),
    24: Reason("the sheet buffer is too small for {second} bytes", "bytes"),
    26: Reason("pass {second} is out of order: row {third} is below the row before it", "pass", "row"),
    27: Reason("column {second} is required, and null in row {third}", "column", "row"),
    28: Reason("row {second}, column {third}, byte {fourth}: the float is not folded", "row", "column", "byte"),
    29: Reason("the list of descriptions is too short for {second} columns", "columns"),
    31: Reason("a key of {second} columns, of none or of more than there are", "columns"),
    32: Reason("sheet {second} has no row {third}", "sheet", "row"),
    33: Reason("the state of the row cutter breaks its rule", ""),
}

#: Answers that this package acts on itself.
TOO_MANY_BYTES = 12
SHEET_ROOM = 24
OUT_OF_ORDER = 26


class Refused(Exception):
    """The station's refusal: a number for the reason, and numbers that say where. Rows, columns and places count from 0.

    >>> refusal = Refused(17, 3, 1, 9)
    >>> print(refusal)
    refused 17 3 1 9: row 3, column 1, byte 9: this lead byte is not allowed
    >>> refusal.numbers, refusal.row, refusal.column, refusal.byte
    ((17, 3, 1, 9), 3, 1, 9)
    """

    def __init__(self, number: int, second: int, third: int, fourth: int) -> None:
        super().__init__(number, second, third, fourth)
        self.number = number
        self.second = second
        self.third = third
        self.fourth = fourth

    @property
    def numbers(self) -> Tuple[int, ...]:
        """The numbers that the station answered."""
        return (self.number, self.second, self.third, self.fourth)

    def _counts(self, what: str) -> Optional[int]:
        """The number of this refusal that counts ``what``."""
        reason = REASONS.get(self.number)
        if reason is None or what not in reason[1:]:
            return None
        return self.numbers[reason.index(what)]

    @property
    def row(self) -> Optional[int]:
        """The row that was refused, if it was a row."""
        return self._counts("row")

    @property
    def column(self) -> Optional[int]:
        """The index of the column that was refused, if it was a column."""
        return self._counts("column")

    @property
    def byte(self) -> Optional[int]:
        """The bad byte of the row that was refused, if it was a row: counted from the row's start. Of a row that is cut its length."""
        return self._counts("byte")

    @property
    def place(self) -> Optional[int]:
        """The byte of the column list that was refused, if it was the list."""
        return self._counts("place")

    @property
    def reason(self) -> str:
        """The refusal in words, without its numbers."""
        reason = REASONS.get(self.number)
        return reason.words.format(second=self.second, third=self.third, fourth=self.fourth) if reason else "unknown reason"

    def moved(self, rows: int) -> Refused:
        """The same refusal, of a row so many further on: a batch counts its rows from 0, and the caller all of them."""
        numbers = list(self.numbers)
        if self.row is not None:
            numbers[REASONS[self.number].index("row")] += rows
        return Refused(*numbers)

    def __str__(self) -> str:
        return "refused {}: {}".format(" ".join(map(str, self.numbers)), self.reason)
