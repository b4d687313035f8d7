"""The command: ``rowstation``, or ``python3 -m rowstation``."""

from __future__ import annotations

import argparse
import os
import signal
import sys
from contextlib import ExitStack
from fractions import Fraction
from typing import Dict, Iterator, List, Optional, Sequence, Tuple

import numpy as np

from .cells import read_column, write_column
from .csvfile import Table, TableWriter
from .cutter import PIECE_BYTES, cut
from .dust import Dust, Pass
from .files import Progress, Trouble, arriving, opened, streamed, written
from .kinds import KINDS, OPTIONS
from .library import MAX_ROW_BYTES, LibraryError, version
from .picture import FORMATS as PICTURES
from .picture import NoPicture, draw, figure_class
from .refusals import Refused
from .rowfile import FORMATS, JOINED, RowReader, RowWriter
from .rows import OutOfOrder, Rows, decode, encode
from .schema import Schema
from .show import told
from .values import BadValue

#: The columns of a station's pass, which are taken where no others are said.
COLUMNS = "plate:u32,glyph:text,contour:u16,position:f64,exposure:month_day_nano"


class WrongUse(Exception):
    """What is wrong in the words of the command."""


def _columns_help() -> str:
    kinds = "\n".join(f"  {kind.name:15} {kind.words}" for kind in KINDS.values())
    options = "\n".join(f"  {name:15} {option.words}" for name, option in OPTIONS.items())
    return f"""columns:
  NAME:KIND[:OPTION...], with commas between columns, in the order in which rows are to sort. Where none are said:
  {COLUMNS}

kinds:
{kinds}

options:
{options}
"""


CSV_HELP = """in CSV:
  the first line has the names of the columns; other columns than those asked for are passed over. Numbers stand as usual, bools as true
  and false, intervals as whole numbers with spaces between them (0 0 250 is no months, no days, 250 nanoseconds), fixed and bytes in hex,
  text as it is. An empty cell is null; with --null WORD a cell that is WORD is null.
"""

STATUS_HELP = """exit status:
  0 done; 1 something in a file is refused, told in one line with file, line, column and reason; 2 wrong use, or a file that cannot be
  read or written. Output is written whole or not at all.
"""

MAIN_HELP = f"""commands:
  encode          a CSV file to rows: byte strings that sort as their values do
  decode          rows to a CSV file
  sort            rows in order
  join            two files of sorted rows in one order, each row told as ink or dust
  cut             rows that come joined, from a pipe for instance: where each ends, or the rows one by one
  dust            two CSV files compared: ink, dust, duplicates; as text, CSV and a picture
  show            a row explained byte by byte
  COMMAND --help tells more

{_columns_help()}
{CSV_HELP}
rows:
  as hex, a line for each row, or binary (--format); what is read may be either. Hex lines in the order of their bytes
  (LC_ALL=C sort) are rows in order. Joined, with nothing between them, they are read by cut. A file named - is standard
  input or output.

{STATUS_HELP}"""

CUT_HELP = """what is read:
  the bytes of rows, one row after the other, with nothing between them and no list of where they end, as encode --format joined writes them.
  The columns say where each ends. At most 16,777,216 bytes are read: the byte after them is refused, 12.

what is written:
  the end of each row, counted in bytes from the start, a line each; with --format hex the rows as hex lines, and with --format binary as a
  binary file, both of which the other commands read. Standard output has a row, or its end, as soon as the row has arrived, also where the
  pipe then stalls, and keeps what came before a refusal. A file is written whole or not at all.

exit status:
  0 done, and the input ended after a row; 1 it is refused, told in one line with the byte, the column and the reason; 2 wrong use, or a file
  that cannot be read or written.
"""

DUST_HELP = f"""why quantise:
  ink is equality of bytes. Two cameras never agree in the last bits of a position, so without --quantise nearly every point is dust. With
  --quantise position=0.01 each position is moved to the nearest multiple of 0.01 before it is compared. Take a step well above what the
  cameras differ by, and well below the distance of two points: two positions that are closer than the step are one point, except where an
  edge between two multiples runs between them.

words:
  a point is one set of values of the key columns, however often it stands in a pass. A point in both passes is ink, a point in one is dust.
  Duplicates are the rows of a pass beyond the first of their point. Columns that are not in the key play no part.

{_columns_help()}
{CSV_HELP}
{STATUS_HELP}
example:
  rowstation dust a.csv b.csv --key plate,glyph,contour,position --quantise position=0.01 --picture dust.png
"""


def _schema(text: str) -> Schema:
    try:
        return Schema(text)
    except (ValueError, Refused) as error:
        raise WrongUse(f"--columns: {error}") from None


def _steps(words: Sequence[str], schema: Schema) -> Dict[str, Fraction]:
    """The step of each column that is to be quantised."""
    steps: Dict[str, Fraction] = {}
    for word in (part for given in words for part in given.split(",")):
        name, _, step = word.partition("=")
        try:
            steps[name] = Fraction(step)
            good = steps[name] > 0
        except (ValueError, ZeroDivisionError):
            good = False
        if not good:
            raise WrongUse(f"--quantise {word}: it is NAME=STEP, as position=0.01")
        if name not in schema.names:
            raise WrongUse(f"--quantise {word}: there is no column {name} among {', '.join(schema.names)}")
        if schema[name].kind.family != "float":
            raise WrongUse(f"--quantise {word}: column {name} is {schema[name].kind.name}, and only floats are quantised")
    return steps


def _delimiter(word: str) -> str:
    if word == "tab":
        return "\t"
    if len(word) != 1 or not word.isascii() or word in '"\r\n':
        raise argparse.ArgumentTypeError("it is one character, or tab")
    return word


def _encoding(word: str) -> str:
    try:
        "".encode(word)
    except LookupError:
        raise argparse.ArgumentTypeError(f"there is no encoding {word}") from None
    return word


def _size(path: str) -> int:
    try:
        return 0 if path == "-" else os.path.getsize(path)
    except OSError:
        return 0


def encoded(path: str, schema: Schema, steps: Dict[str, Fraction], said: argparse.Namespace, progress: Progress) -> Iterator[Tuple[Rows, np.ndarray]]:
    """The rows of a CSV file, block by block, each with its line."""
    with progress.step(f"reading {path}", _size(path)), opened(path) as file:
        table = Table(path, file, said.delimiter, said.encoding, progress)
        indices = [table.index(name) for name in schema.names]
        for block in table.blocks():
            columns = [read_column(column, block, index, said.null, path, steps.get(column.name)) for column, index in zip(schema, indices)]
            try:
                with progress.step("encoding"):
                    rows = encode(schema, columns)
            except Refused as refusal:
                place = "" if refusal.row is None else f"line {block.lines[refusal.row]}"
                raise Trouble(path, str(refusal), place, schema.column_of(refusal)) from None
            yield rows, block.lines
        if table.open_end:
            progress.clear()
            print(f"rowstation: {path}: the last line has no newline; was the file cut?", file=sys.stderr)


def _read_pass(path: str, schema: Schema, steps: Dict[str, Fraction], said: argparse.Namespace, progress: Progress) -> Pass:
    blocks = list(encoded(path, schema, steps, said, progress))
    rows = Rows.concatenated([Rows.of(schema, [])] + [rows for rows, _ in blocks])
    return Pass(path, rows, np.concatenate([np.empty(0, np.int64)] + [lines for _, lines in blocks]))


def do_encode(said: argparse.Namespace, progress: Progress) -> int:
    schema = _schema(said.columns)
    steps = _steps(said.quantise, schema)
    with written(said.out) as file:
        writer = RowWriter(file, said.format)
        for rows, _ in encoded(said.file, schema, steps, said, progress):
            with progress.step("writing"):
                writer.write(rows)
        writer.finish()
    return 0


def do_decode(said: argparse.Namespace, progress: Progress) -> int:
    schema = _schema(said.columns)
    with written(said.out) as file, progress.step("decoding", _size(said.file)), opened(said.file) as source:
        reader = RowReader(said.file, source, schema, progress)
        writer = TableWriter(file, schema.names, said.delimiter)
        before = 0
        for rows in reader.blocks():
            try:
                columns = decode(schema, rows)
                words = [write_column(column, columns[column.name], said.null) for column in schema]
            except Refused as refusal:
                place = reader.place(before + refusal.row) if refusal.row is not None else ""
                raise Trouble(said.file, str(refusal.moved(before)), place, schema.column_of(refusal)) from None
            except BadValue as bad:
                raise Trouble(said.file, bad.reason, reader.place(before + (bad.row or 0)), bad.column) from None
            writer.write(words)
            before += len(rows)
        writer.finish()
    return 0


def _read_rows(path: str, progress: Progress) -> Tuple[Rows, RowReader]:
    with progress.step(f"reading {path}", _size(path)), opened(path) as file:
        reader = RowReader(path, file, None, progress)
        return reader.all(), reader


def do_sort(said: argparse.Namespace, progress: Progress) -> int:
    rows, reader = _read_rows(said.file, progress)
    with progress.step("sorting"):
        rows = rows.sort()
    with written(said.out) as file, progress.step("writing"):
        writer = RowWriter(file, said.format or reader.format)
        writer.write(rows)
        writer.finish()
    return 0


def do_join(said: argparse.Namespace, progress: Progress) -> int:
    passes = [_read_rows(path, progress) for path in (said.a, said.b)]
    try:
        with progress.step("joining"):
            joined = passes[0][0].join(passes[1][0])
    except OutOfOrder as error:
        path, reader = (said.a, said.b)[error.which], passes[error.which][1]
        raise Trouble(path, "this row is below the one before it; `rowstation sort` puts rows in order", reader.place(error.row)) from None
    with written(said.out) as file, progress.step("writing"):
        what = np.where(joined.is_ink, "ink", "dust")[joined.points].tolist()
        rows = [row.hex() for row in joined.entries]
        writer = TableWriter(file, ["pass", "row", "mark", "bytes"], said.delimiter)
        writer.write([joined.passes.tolist(), joined.rows.tolist(), what, rows])
        writer.finish()
    return 0


def do_cut(said: argparse.Namespace, progress: Progress) -> int:
    schema = _schema(said.columns)
    start = 0
    with streamed(said.out) as file, opened(said.file) as source:
        writer = None if said.format == "ends" else RowWriter(file, said.format)
        try:
            for rows in cut(schema, arriving(said.file, source, PIECE_BYTES)):
                if writer is None:
                    file.write("".join(f"{end}\n" for end in (start + rows.offsets[1:]).tolist()).encode())
                else:
                    writer.write(rows)
                file.flush()
                start += int(rows.offsets[-1])
        except Refused as refusal:
            # Of a row the bad byte is counted from the row's start, which is where the last one ended.
            place = MAX_ROW_BYTES if refusal.byte is None else start + refusal.byte
            raise Trouble(said.file, str(refusal), f"byte {place}", schema.column_of(refusal)) from None
        if writer is not None:
            writer.finish()
    return 0


def _key(said: argparse.Namespace, schema: Schema) -> Tuple[Schema, int]:
    """The schema of the key columns, and by how many of them points are grouped."""
    names = said.key.split(",")
    for name in names:
        if name not in schema.names:
            raise WrongUse(f"--key: there is no column {name}; the columns are {', '.join(schema.names)}, and --columns says others")
    try:
        key = schema.only(names)
    except ValueError as error:
        raise WrongUse(f"--key: {error}") from None
    by = said.by.split(",") if said.by else list(key.names[:2])
    if tuple(by) != key.names[: len(by)]:
        raise WrongUse(f"--by {said.by}: points are grouped by the first columns of the key, {said.key}")
    return key, len(by)


def _picture(said: argparse.Namespace, key: Schema) -> Tuple[str, str, str]:
    """The kind of picture, and the columns along its sides."""
    form = os.path.splitext(said.picture)[1][1:].lower()
    if form not in PICTURES:
        raise WrongUse(f"--picture {said.picture}: the file's name ends in {', '.join('.' + one for one in PICTURES)}")
    figure_class()
    numbers = [column.name for column in key if column.kind.family in ("float", "integer")]
    floats = [column.name for column in key if column.kind.family == "float"]
    across = said.across or (floats or numbers or list(key.names))[-1]
    up = said.up or next((name for name in key.names[1:] if name != across), across)
    for name in (across, up):
        if name not in key.names:
            raise WrongUse(f"there is no column {name} in the key, {said.key}")
    return form, across, up


def do_dust(said: argparse.Namespace, progress: Progress) -> int:
    key, by = _key(said, _schema(said.columns))
    steps = _steps(said.quantise, key)
    picture = _picture(said, key) if said.picture else None
    passes = [_read_pass(path, key, steps, said, progress) for path in (said.a, said.b)]
    dust = Dust(passes[0], passes[1], by, progress)
    with ExitStack() as stack, progress.step("writing"):
        out = stack.enter_context(written(said.out))
        for path, table in ((said.csv, dust.group_table), (said.points, dust.point_table)):
            if path:
                try:
                    names, columns = table(said.null)
                except BadValue as bad:
                    raise Trouble(path, bad.reason, "", bad.column) from None
                writer = TableWriter(stack.enter_context(written(path)), names, said.delimiter)
                writer.write(columns)
                writer.finish()
        lines = dust.report(said.most)
        if picture is not None:
            with progress.step("drawing"):
                drawn = draw(dust, stack.enter_context(written(said.picture)), picture[0], said.plate, *picture[1:])
            lines.append(f"{said.picture}: {drawn}")
        out.write("".join(line + "\n" for line in lines).encode())
    return 0


def do_show(said: argparse.Namespace, progress: Progress) -> int:
    schema = _schema(said.columns)
    if bool(said.rows) == bool(said.file):
        raise WrongUse("show: either rows in hex or --in FILE")
    place = "row {}".format
    if said.file:
        rows, reader = _read_rows(said.file, progress)
        place = reader.place
        numbers = range(len(rows)) if said.row is None else [said.row]
        if said.row is not None and not 0 <= said.row < len(rows):
            raise WrongUse(f"--row {said.row}: {said.file} has {len(rows)} rows, and the first is row 0")
        wanted = [(number, rows[number]) for number in numbers]
    else:
        try:
            wanted = [(number, bytes.fromhex(row)) for number, row in enumerate(said.rows)]
        except ValueError:
            raise WrongUse("show: a row is given in hex, two digits a byte") from None
    refused: List[str] = []
    with written("-") as out:
        for number, row in wanted:
            lines, refusal = told(schema, row, number)
            out.write("".join(line + "\n" for line in lines).encode())
            if refusal is not None:
                refused.append(str(Trouble(said.file or "show", str(refusal), place(number), schema.column_of(refusal))))
    for line in refused:
        print(f"rowstation: {line}", file=sys.stderr)
    return 1 if refused else 0


def parser() -> argparse.ArgumentParser:
    """The words of the command."""
    plain = argparse.RawDescriptionHelpFormatter
    main_parser = argparse.ArgumentParser(
        "rowstation", description="Columns of values as rows of bytes that sort as the values do, and two passes joined by them.",
        epilog=MAIN_HELP, formatter_class=plain)
    main_parser.add_argument("--version", action="store_true", help="say the edition of the station's library, and end")
    commands = main_parser.add_subparsers(dest="command", metavar="COMMAND")

    columns = argparse.ArgumentParser(add_help=False)
    columns.add_argument("--columns", default=COLUMNS, metavar="LIST", help="the columns, as NAME:KIND[:OPTION...],... (see below)")
    table = argparse.ArgumentParser(add_help=False)
    table.add_argument("--null", default="", metavar="WORD", help="the cell that means null (an empty one)")
    table.add_argument("--delimiter", default=",", type=_delimiter, metavar="CHAR", help="what stands between cells (a comma); tab for tabs")
    source = argparse.ArgumentParser(add_help=False)
    source.add_argument("--encoding", default="utf-8", type=_encoding, metavar="NAME", help="what the CSV is written in (utf-8)")
    source.add_argument("--quantise", action="append", default=[], metavar="NAME=STEP",
                        help="move each value of a float column to the nearest multiple of a step; may be said for several columns")
    out = argparse.ArgumentParser(add_help=False)
    out.add_argument("-o", "--out", default="-", metavar="FILE", help="the file to write (standard output)")
    times = argparse.ArgumentParser(add_help=False)
    times.add_argument("--times", action="store_true", help="say on standard error how long each step took")

    def command(name: str, words: str, epilog: str, *parents: argparse.ArgumentParser) -> argparse.ArgumentParser:
        return commands.add_parser(name, description=words, epilog=epilog, formatter_class=plain, parents=[*parents, times])

    one = command("encode", "A CSV file to rows.", "\n".join([_columns_help(), CSV_HELP, STATUS_HELP]) + """
example:
  rowstation encode a.csv --columns plate:u32,glyph:text:nulls_last -o a.hex
""", columns, table, source, out)
    one.add_argument("file", metavar="CSV", help="the file to read; - for standard input")
    one.add_argument("--format", choices=(*FORMATS, JOINED), default="hex", help="how rows are written (hex); joined is for cut")

    one = command("decode", "Rows to a CSV file. Every row is checked, and a damaged one is refused.",
                  "\n".join([_columns_help(), CSV_HELP, STATUS_HELP]), columns, table, out)
    one.add_argument("file", metavar="ROWS", help="the file of rows to read; - for standard input")

    one = command("sort", "Rows in the order of their bytes, which is the order of their values.", STATUS_HELP + """
For rows that memory does not hold: `rowstation encode` and `decode` take any number, and LC_ALL=C sort sorts hex lines on disk.
""", out)
    one.add_argument("file", metavar="ROWS", help="the file of rows to read; - for standard input")
    one.add_argument("--format", choices=(*FORMATS, JOINED), help="how rows are written (as they are read); joined is for cut")

    one = command("join", "Two files of sorted rows in one order, as CSV: pass, row, ink or dust, the row in hex. Every row of both stands once; "
                  "equal rows of pass 0 come first.", STATUS_HELP, out)
    one.add_argument("a", metavar="A", help="the rows of pass 0, in order")
    one.add_argument("b", metavar="B", help="the rows of pass 1, in order")
    one.add_argument("--delimiter", default=",", type=_delimiter, metavar="CHAR", help="what stands between cells (a comma); tab for tabs")

    one = command("cut", "Rows that come joined, with no list of their ends: where each ends. Every row is checked as decode does.",
                  "\n".join([CUT_HELP, _columns_help()]) + """
example:
  camera | rowstation cut --columns plate:u32,glyph:text --format hex - | rowstation decode - --columns plate:u32,glyph:text
""", columns, out)
    one.add_argument("file", metavar="STREAM", help="the file to read; - for standard input")
    one.add_argument("--format", choices=("ends", *FORMATS), default="ends", help="what is written (ends)")

    one = command("dust", "Two passes in CSV files: what is ink, what is dust in each, what stands twice; by plate and glyph.", DUST_HELP,
                  columns, table, source, out)
    one.add_argument("a", metavar="A.csv", help="the first pass")
    one.add_argument("b", metavar="B.csv", help="the second pass")
    one.add_argument("--key", default="plate,glyph,contour,position", metavar="NAMES",
                     help="the columns that make a point, in the order of sorting (plate,glyph,contour,position)")
    one.add_argument("--by", default="", metavar="NAMES", help="the first columns of the key, by which points are counted (the first two)")
    one.add_argument("--most", type=int, default=20, metavar="N", help="how many groups are told, those with the most dust (20); 0 for all")
    one.add_argument("--csv", metavar="FILE", help="write the counts of every group as CSV")
    one.add_argument("--points", metavar="FILE", help="write every point as CSV: what it is, how often, and its first line in each pass")
    one.add_argument("--picture", metavar="FILE", help="draw the points of one plate, ink and dust in two colours: .png, .svg or .pdf")
    one.add_argument("--plate", default="", metavar="VALUE", help="which value of the first key column is drawn (the one with the most dust)")
    one.add_argument("--across", default="", metavar="NAME", help="the column along the picture (the last float of the key)")
    one.add_argument("--up", default="", metavar="NAME", help="the column up the picture (the second of the key)")

    one = command("show", "Rows explained byte by byte: field, lead, value, blocks, padding, and the byte at which a row is refused.",
                  "\n".join([_columns_help(), STATUS_HELP]) + """
example:
  rowstation show --columns plate:u32,glyph:text 010000000702616500000000000002
""", columns)
    one.add_argument("rows", nargs="*", metavar="HEX", help="a row in hex")
    one.add_argument("--in", dest="file", metavar="ROWS", help="a file of rows")
    one.add_argument("--row", type=int, metavar="N", help="only this row of the file; the first is 0")
    return main_parser


COMMANDS = {
    "encode": do_encode, "decode": do_decode, "sort": do_sort, "join": do_join, "cut": do_cut, "dust": do_dust, "show": do_show,
}


def main(words: Optional[Sequence[str]] = None) -> int:
    """Runs the command, and gives its exit status."""
    parsed = parser()
    said = parsed.parse_args(words)
    signal.signal(signal.SIGTERM, lambda *_: sys.exit(143))
    progress = Progress(sys.stderr)
    try:
        if said.version:
            print(version())
            return 0
        if said.command is None:
            parsed.print_usage(sys.stderr)
            return 2
        status = COMMANDS[said.command](said, progress)
        if said.times:
            progress.clear()
            for name, seconds in progress.seconds.items():
                print(f"{seconds:8.2f} s  {name}", file=sys.stderr)
        return status
    except (Trouble, WrongUse, NoPicture, LibraryError) as error:
        progress.clear()
        print(f"rowstation: {error}", file=sys.stderr)
        return getattr(error, "status", 2)
    except KeyboardInterrupt:
        return 130
    finally:
        progress.clear()
