"""Rows explained: the explanation and the station agree on every good and every damaged row."""

import random
import unittest

import rowstation as station
from rowstation.kinds import KINDS
from rowstation.show import explain, told

from . import model


def damaged(rnd, row):
    """A row with something changed, cut or added."""
    row = bytearray(row)
    for _ in range(rnd.choice([1, 1, 2])):
        what = rnd.randrange(4)
        if what == 0 and row:
            row[rnd.randrange(len(row))] = rnd.choice([0, 1, 2, 3, 8, 9, 32, 33, 0xFD, 0xFE, 0xFF, rnd.randrange(256)])
        elif what == 1:
            del row[rnd.randrange(len(row) + 1):]
        elif what == 2:
            row += bytes([rnd.randrange(256)])
        elif row:
            del row[rnd.randrange(len(row))]
    return bytes(row)


class Explained(unittest.TestCase):
    def agree(self, schema, row):
        parts, fault = explain(schema, row)
        at = 0
        for part in parts:
            self.assertEqual((part.place, part.bytes), (at, row[at : at + len(part.bytes)]))
            at += len(part.bytes)
        try:
            station.decode(schema, [row])
            self.assertIsNone(fault)
            self.assertEqual(at, len(row))
        except station.Refused as refusal:
            self.assertEqual((fault.number, 0, fault.column, fault.place), refusal.numbers)
            self.assertEqual(fault.place, refusal.byte)
            self.assertTrue(fault.place == len(row) if fault.number == 16 else 0 <= fault.place < len(row))

    def test_good_and_damaged(self):
        rnd = random.Random(7)
        seen = set()
        for _ in range(4000):
            schema = model.some_schema(rnd, KINDS)
            row = model.row(schema, [model.some_value(rnd, column) for column in schema])
            self.agree(schema, row)
            row = damaged(rnd, row)
            self.agree(schema, row)
            fault = explain(schema, row)[1]
            seen.add(fault.number if fault else 0)
            lines, refusal = told(schema, row, 3)
            self.assertEqual(fault is None, refusal is None)
            self.assertTrue(lines[-1].startswith("accepted" if fault is None else "refused"))
        self.assertEqual(seen, {0, 16, 17, 18, 19, 20, 21, 22, 28})

    def test_every_half(self):
        for options, flip in (("ascending", 0), ("descending", 0xFFFF)):
            schema = station.Schema([("x", "f16", "fold", options)])
            for bits in range(1 << 16):
                row = b"\1" + bits.to_bytes(2, "big")
                top = bits ^ flip
                value = top ^ (0x8000 if top & 0x8000 else 0xFFFF)
                folded = value != 0x8000 and (value & 0x7FFF <= 0x7C00 or value == 0x7E00)
                self.assertEqual(explain(schema, row)[1], None if folded else (28, 0, 1))
                if bits % 257 == 0 or not folded and bits % 17 == 0:
                    self.agree(schema, row)

    def test_too_long_a_value(self):
        schema = station.Schema("a:bytes")
        row = b"\2" + (b"a" * 8 + b"\xff") * 4 + (b"a" * 32 + b"\xff") * 2047
        self.agree(schema, row)
        self.assertEqual(explain(schema, row)[1], (23, 0, len(row) - 1))

    def test_places(self):
        schema = station.Schema("plate:u16,flag:bool,glyph:bytes")
        good = "010007" "0101" "02616500000000000002"
        for row, fault in (
            (good[:4], (16, 0, 2)), ("03" + good[2:], (17, 0, 0)), ("000001" + good[6:], (18, 0, 2)), (good[:8] + "02" + good[10:], (19, 1, 4)),
            (good[:-2] + "09", (20, 2, 14)), (good[:-4] + "0102", (21, 2, 13)), (good[:14] + "0000010000010001", (21, 2, 9)),
            (good + "ff", (22, 3, 15)), (good[:10], (16, 2, 5)),
        ):
            self.assertEqual(explain(schema, bytes.fromhex(row))[1], fault, row)

    def test_values_before_the_fault(self):
        lines, refusal = told(station.Schema("plate:u16,glyph:text"), bytes.fromhex("01000703"), 0)
        self.assertIn("value, u16: 7", lines[2])
        self.assertEqual(str(refusal), "refused 17 0 1 3: row 0, column 1, byte 3: this lead byte is not allowed")
        self.assertEqual(lines[-1], str(refusal))

    def test_text_that_is_none(self):
        lines, refusal = told(station.Schema("a:text"), model.row(station.Schema("a:bytes"), [b"\xff"]), 0)
        self.assertIsNone(refusal)
        self.assertEqual(lines[-1], "accepted: a 'not UTF-8'")


if __name__ == "__main__":
    unittest.main()
