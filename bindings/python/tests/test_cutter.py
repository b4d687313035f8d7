"""Streams that are cut into rows again: by the package, in pieces of every sort, and by the command, from pipes that are cut anywhere and
that stall."""

import os
import pickle
import random
import select
import subprocess
import sys
import threading
import time
import unittest

import numpy as np

import rowstation as station
from rowstation import library
from rowstation.cutter import PIECE_BYTES
from rowstation.kinds import KINDS

from . import PACKAGE, model
from .test_command import Typed

COLUMNS = "plate:u32,glyph:text:descending,position:f64:fold"
ENVIRONMENT = {**os.environ, "PYTHONPATH": str(PACKAGE)}


def some_rows(rnd, schema, count):
    """Rows by the model of the format."""
    return [model.row(schema, [model.some_value(rnd, column) for column in schema]) for _ in range(count)]


def ends_of(rows):
    return np.cumsum([len(row) for row in rows]).tolist()


def some_pieces(rnd, stream, most):
    """The stream in random pieces, none among them."""
    pieces, at = [], 0
    while at < len(stream):
        size = rnd.randint(0, most)
        pieces.append(stream[at : at + size])
        at += size
    return pieces


def cut_all(schema, pieces):
    """The ends of a stream, the state after it, and the numbers of what refused it, the finish included."""
    cutter, ends = station.Cutter(schema), []
    try:
        for piece in pieces:
            ends += cutter.cut(piece).tolist()
        return ends, cutter.state, (0, cutter.finish())
    except station.StreamRefused as refusal:
        return ends + refusal.ends.tolist(), cutter.state, refusal.numbers
    except station.Refused as refusal:
        return ends, cutter.state, refusal.numbers


class Streams(unittest.TestCase):
    def test_every_kind_in_pieces(self):
        rnd = random.Random(8)
        for trial in range(150):
            schema = model.some_schema(rnd, KINDS)
            rows = some_rows(rnd, schema, rnd.choice([0, 1, 2, 7, 30]))
            stream = b"".join(rows)
            with self.subTest(schema=str(schema), trial=trial):
                whole = cut_all(schema, [stream])
                self.assertEqual((whole[0], whole[2]), (ends_of(rows), (0, len(rows))))
                for most in (1, 3, 20, 1000):
                    self.assertEqual(cut_all(schema, some_pieces(rnd, stream, most)), whole)
                at = rnd.randint(0, len(stream))
                self.assertEqual(cut_all(schema, [stream[:at], b"", stream[at:]]), whole)
                found = [row for some in station.cut(schema, some_pieces(rnd, stream, 9)) for row in some]
                self.assertEqual(found, rows)

    def test_damage_is_what_decode_says(self):
        rnd = random.Random(9)
        for trial in range(600):
            schema = model.some_schema(rnd, KINDS)
            stream = bytearray(b"".join(some_rows(rnd, schema, 3)))
            stream[rnd.randrange(len(stream))] = rnd.choice([0, 1, 2, 3, 9, 0x80, 0xFE, 0xFF])
            ends, state, answer = cut_all(schema, [stream])
            self.assertEqual(cut_all(schema, some_pieces(rnd, stream, 5)), (ends, state, answer))
            # The rows between the ends, and what is left as one more.
            bounds = [0, *ends] + [len(stream)] * (len(stream) > (ends[-1] if ends else 0))
            rows = [bytes(stream[a:b]) for a, b in zip(bounds, bounds[1:])]
            with self.subTest(schema=str(schema), trial=trial, stream=stream.hex()):
                if answer[0] == 0:
                    station.decode(schema, rows)
                    continue
                with self.assertRaises(station.Refused) as caught:
                    station.decode(schema, rows)
                self.assertEqual(caught.exception.numbers, answer)

    def test_large_pieces(self):
        schema = station.Schema("contour:u8")
        stream = b"\1\5" * (PIECE_BYTES + 7)
        ends = station.Cutter(schema).cut(np.frombuffer(stream, np.uint8))
        self.assertEqual((ends.dtype, ends.tolist()), (np.int64, list(range(2, len(stream) + 1, 2))))
        rest = memoryview(stream)[1:]
        self.assertEqual(station.Cutter.of(_after(schema, b"\1")).cut(rest).tolist(), ends.tolist())
        # What is before a fault is told, whichever part of a piece it stands in.
        with self.assertRaises(station.StreamRefused) as caught:
            station.Cutter(schema).cut(stream + b"\7" + stream)
        self.assertEqual((caught.exception.numbers, caught.exception.ends.tolist()), ((17, len(ends), 0, 0), ends.tolist()))

    def test_a_refusal_stands(self):
        cutter = station.Cutter(station.Schema("contour:u8"))
        with self.assertRaises(station.StreamRefused) as caught:
            cutter.cut(b"\1\5\1\6\7")
        self.assertEqual(caught.exception.ends.tolist(), [2, 4])
        again = pickle.loads(pickle.dumps(caught.exception))
        self.assertEqual((again.numbers, again.ends.tolist()), ((17, 2, 0, 0), [2, 4]))
        state = cutter.state
        for piece in (b"", b"\1\5"):
            with self.assertRaises(station.StreamRefused) as caught:
                cutter.cut(piece)
            self.assertEqual((caught.exception.numbers, caught.exception.ends.tolist()), ((17, 2, 0, 0), []))
        self.assertEqual(cutter.state, state)

    def test_the_rows_before_a_refusal_are_given(self):
        schema, found = station.Schema("contour:u8"), []
        with self.assertRaises(station.StreamRefused):
            for rows in station.cut(schema, [b"\1", b"\5\1\6", b"\1\7\7\7"]):
                found += rows
        self.assertEqual(found, [b"\1\5", b"\1\6", b"\1\7"])
        with self.assertRaises(station.Refused) as caught:
            list(station.cut(schema, [b"\1\5\1"]))
        self.assertEqual(caught.exception.numbers, (16, 1, 0, 1))

    def test_the_ceiling(self):
        schema = station.Schema("hash:fixed:1023")
        cutter, row = station.Cutter(schema), b"\1" + bytes(1023)
        for _ in range(16):
            ends = cutter.cut(row * 1024)
        self.assertEqual((len(ends), ends[-1], cutter.finish()), (1024, library.MAX_ROW_BYTES, 16_384))
        with self.assertRaises(station.StreamRefused) as caught:
            cutter.cut(b"\x63")
        self.assertEqual(caught.exception.numbers, (12, 16_777_217, 16_384, 0))

    def test_a_broken_state(self):
        state = bytearray(_after(station.Schema("plate:u32"), b"\1\0"))
        for at in range(library.STATE_BYTES):
            broken = bytearray(state)
            broken[at] ^= 0x80
            cutter = station.Cutter.of(broken)
            with self.assertRaises(station.Refused) as caught:
                cutter.finish()
            self.assertEqual((at, caught.exception.numbers), (at, (33, 0, 0, 0)))
            self.assertEqual(cutter.state, bytes(broken))
        for short in (b"", bytes(state[:-1])):
            with self.assertRaises(station.StreamRefused):
                station.Cutter.of(short).cut(b"\1")


def _after(schema, stream):
    """The state after a stream."""
    cutter = station.Cutter(schema)
    cutter.cut(stream)
    return cutter.state


class Pipe:
    """The command as it reads a pipe: what it writes is read as it comes."""

    def __init__(self, folder, *words):
        self.run = subprocess.Popen([sys.executable, "-m", "rowstation", "cut", *words], stdin=subprocess.PIPE, stdout=subprocess.PIPE,
                                    stderr=subprocess.PIPE, cwd=folder, env=ENVIRONMENT, bufsize=0)

    def write(self, piece):
        self.run.stdin.write(piece)

    def read(self, size, seconds=60):
        """What the command writes, up to so many bytes; what has not come by then is not waited for."""
        seen, deadline = b"", time.monotonic() + seconds
        while len(seen) < size:
            ready, _, _ = select.select([self.run.stdout], [], [], max(0.0, deadline - time.monotonic()))
            more = os.read(self.run.stdout.fileno(), size - len(seen)) if ready else b""
            if not more:
                break
            seen += more
        return seen

    def end(self):
        """Closes the pipe; the rest of what the command writes, what it says, and its status."""
        out, told = self.run.communicate(timeout=60)
        return out, told.decode(), self.run.returncode

    def close(self):
        self.run.kill()
        self.run.communicate()


class Command(Typed):
    def setUp(self):
        super().setUp()
        rnd = random.Random(10)
        self.schema = station.Schema(COLUMNS)
        self.rows = some_rows(rnd, self.schema, 12)
        self.stream = b"".join(self.rows)
        self.lines = "".join(f"{end}\n" for end in ends_of(self.rows))

    def pipe(self, *words):
        pipe = Pipe(self.folder, *words, "--columns", COLUMNS, "-")
        self.addCleanup(pipe.close)
        return pipe

    def test_ends_and_rows(self):
        self.assertEqual(self.done("cut", "-", "--columns", COLUMNS, given=self.stream), self.lines)
        self.assertEqual(self.done("cut", "-", "--columns", COLUMNS), "")
        self.put("rows.stream", self.stream)
        hexed = self.done("cut", "rows.stream", "--columns", COLUMNS, "--format", "hex")
        self.assertEqual(hexed, "".join(row.hex() + "\n" for row in self.rows))
        for form in ("hex", "binary"):
            self.assertEqual(self.done("cut", "rows.stream", "--columns", COLUMNS, "--format", form, "-o", "cut.rows"), "")
            self.assertEqual(self.done("sort", "cut.rows", "--format", "hex"), "".join(row.hex() + "\n" for row in sorted(self.rows)))

    def test_the_rows_that_were_encoded(self):
        self.assertEqual(self.done("encode", "a.csv", "-o", "a.hex"), "")
        self.assertEqual(self.done("encode", "a.csv", "--format", "joined", "-o", "a.joined"), "")
        self.assertEqual((self.folder / "a.joined").read_bytes().hex(), (self.folder / "a.hex").read_text().replace("\n", ""))
        self.assertEqual(self.done("cut", "a.joined", "--format", "hex"), (self.folder / "a.hex").read_text())
        self.assertEqual(self.done("sort", "a.hex", "--format", "joined", "-o", "b.joined"), "")
        self.assertEqual(self.done("cut", "b.joined", "--format", "hex"), self.done("sort", "a.hex"))

    def test_a_pipe_that_is_cut_anywhere(self):
        rnd = random.Random(11)
        for trial in range(4):
            pipe = self.pipe()
            pieces = some_pieces(rnd, self.stream, rnd.choice([3, 20, 200]))
            writer = threading.Thread(target=lambda pipe=pipe, pieces=pieces: [pipe.write(piece) for piece in pieces if piece])
            writer.start()
            seen = pipe.read(len(self.lines))
            writer.join()
            self.assertEqual((seen.decode(), *pipe.end()), (self.lines, b"", "", 0))

    def test_a_pipe_that_stalls(self):
        """After each piece the writer waits until the ends of all rows that have arrived are there, and none of those that have not."""
        rnd, pipe, sent, told = random.Random(12), self.pipe(), 0, b""
        for piece in some_pieces(rnd, self.stream, 90):
            pipe.write(piece)
            sent += len(piece)
            arrived = "".join(f"{end}\n" for end in ends_of(self.rows) if end <= sent).encode()
            told += pipe.read(len(arrived) - len(told))
            self.assertEqual(told, arrived)
            time.sleep(0.02)
        self.assertEqual((told + pipe.read(1, 0.2)).decode(), self.lines)
        self.assertEqual(pipe.end(), (b"", "", 0))

    def test_a_pipe_that_stalls_within_a_row(self):
        pipe = self.pipe()
        pipe.write(self.rows[0] + self.rows[1][:-1])
        first = f"{len(self.rows[0])}\n".encode()
        self.assertEqual(pipe.read(len(first)), first)
        self.assertEqual(pipe.read(1, 0.5), b"")
        pipe.write(self.rows[1][-1:])
        second = f"{len(self.rows[0]) + len(self.rows[1])}\n".encode()
        self.assertEqual(pipe.read(len(second)), second)
        self.assertEqual(pipe.end(), (b"", "", 0))

    def test_refusals(self):
        columns = ("--columns", "contour:u8,glyph:text", "-")
        for stream, wrote, line in (
            (b"\1\5\0\1\7\3", "3\n", "byte 5, column glyph: refused 17 1 1 2: row 1, column 1, byte 2: this lead byte is not allowed"),
            (b"\1\5\0\1\7", "3\n", "byte 5, column glyph: refused 16 1 1 2: row 1, column 1, byte 2: the field or block is cut"),
            (b"\0\7", "", "byte 1, column contour: refused 18 0 0 1: row 0, column 0, byte 1: a byte after the null byte is not zero"),
        ):
            run = self.run_it("cut", *columns, given=stream)
            self.assertEqual((run.returncode, run.stdout.decode()), (1, wrote))
            self.assertEqual(run.stderr.decode(), f"rowstation: standard input, {line}\n")
            self.refused(1, f"standard input, {line}", "cut", *columns, "-o", "out", given=stream)
        for words in (("cut", "none"), ("cut", "."), ("cut", "-", "--columns", "plate:u33")):
            self.assertEqual(self.run_it(*words)[:2], (2, b""))

    def test_a_pipe_over_the_ceiling(self):
        row = b"\1" + bytes(1023)
        pipe = Pipe(self.folder, "--columns", "hash:fixed:1023", "-")
        self.addCleanup(pipe.close)
        ends = "".join(f"{end}\n" for end in range(1024, library.MAX_ROW_BYTES + 1, 1024))

        def write():
            try:
                for _ in range(17):
                    pipe.write(row * 1024)
            except BrokenPipeError:
                pass  # The command has ended.

        writer = threading.Thread(target=write)
        writer.start()
        self.assertEqual(pipe.read(len(ends)).decode(), ends)
        writer.join()
        refused = f"rowstation: standard input, byte {library.MAX_ROW_BYTES}: refused 12 16777217 16384 0: 16777217 row bytes, over 16,777,216\n"
        self.assertEqual(pipe.end(), (b"", refused, 1))

    def test_a_reader_that_leaves(self):
        self.put("many.stream", b"\1\5" * 2_000_000)
        command = f"{sys.executable} -m rowstation cut many.stream --columns contour:u8; echo $? >status"
        run = subprocess.run(["sh", "-c", f"({command}) | head -n 1"], cwd=self.folder, env=ENVIRONMENT, capture_output=True, check=False)
        self.assertEqual(run.stdout, b"2\n")
        self.assertEqual(run.stderr.decode(), "rowstation: standard output: cannot be written: Broken pipe\n")
        self.assertEqual((self.folder / "status").read_text(), "2\n")


if __name__ == "__main__":
    unittest.main()
