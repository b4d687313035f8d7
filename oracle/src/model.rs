//! Document 01 as a plain program, written from the document: slow, and easy to hold against it. The
//! descriptions, the look-up, sheets that are compared and the join are document 02's.

use crate::columns::{
    value_bytes, Column, BOOL, DAY_TIME, FIXED_BINARY, FLOATS, I128, I256, KINDS, MONTH_DAY_NANO,
    VARIABLE,
};
use crate::table::{Slot, Table};
use std::ops::Range;

pub const MAX_COLUMNS: usize = 64;
pub const MAX_ROWS: u64 = 4096;
pub const MAX_WIDTH: usize = 1024;
pub const MAX_SLOT: usize = 65_535;
pub const MAX_TOTAL: u64 = 16_777_216;

/// The four numbers that an entry returns.
pub type Numbers = [u64; 4];

/// What was asked for, or the numbers of the refusal.
pub type Checked<T> = Result<T, Numbers>;

/// A refusal that is not of a row's content: its fourth number is 0.
fn refuse_if(fault: bool, [number, second, third]: [u64; 3]) -> Checked<()> {
    match fault {
        true => Err([number, second, third, 0]),
        false => Ok(()),
    }
}

// ---- the list

/// The columns of a list: left to right, and at each column 5, 2, 1, 3, 4.
pub fn read_list(list: &[u8]) -> Checked<Vec<Column>> {
    refuse_if(list.is_empty(), [1, 0, 0])?;
    let mut columns = Vec::new();
    let mut place = 0;
    while place < list.len() {
        refuse_if(columns.len() == MAX_COLUMNS, [5, place as u64, 0])?;
        let column = read_column(&list[place..]);
        let column = column.map_err(|number| [number, place as u64, 0, 0])?;
        place += column.spelled().len();
        columns.push(column);
    }
    Ok(columns)
}

/// The column that stands in front of a rest of the list, or the number of what is wrong with it.
fn read_column(list: &[u8]) -> Result<Column, u64> {
    let kind = list[0];
    if !KINDS.contains(&kind) {
        return Err(2);
    }
    if list.len() < if kind == FIXED_BINARY { 4 } else { 2 } {
        return Err(1);
    }
    let width = match kind {
        FIXED_BINARY => u16::from_le_bytes([list[2], list[3]]),
        _ => 0,
    };
    column_of(kind, list[1], width)
}

/// The column of a known kind, the options and the width that is said: 3, 4. Only fixed binary has a
/// width that is said.
fn column_of(kind: u8, options: u8, width: u16) -> Result<Column, u64> {
    if options > if FLOATS.contains(&kind) { 15 } else { 7 } {
        return Err(3);
    }
    let most = if kind == FIXED_BINARY { MAX_WIDTH } else { 0 };
    if width as usize > most {
        return Err(4);
    }
    Ok(Column {
        kind,
        width: match kind {
            FIXED_BINARY => width as usize,
            _ => value_bytes(kind),
        },
        descending: options & 1 == 1,
        nulls_first: options & 2 == 2,
        required: options & 4 == 4,
        fold: options & 8 == 8,
    })
}

/// The descriptions of a list's columns: all list faults, then 29 (needed count, 0).
pub fn read_once(list: &[u8], room: usize) -> Checked<Vec<Column>> {
    let columns = read_list(list)?;
    let count = columns.len();
    refuse_if(room < count, [29, count as u64, 0])?;
    Ok(columns)
}

/// The columns of descriptions, four bytes each; a shorter tail does not count. None lent is 1; then
/// left to right 5, 2, 3, 4, as of the bytes of a list, with the index as place.
pub fn read_descriptions(descriptions: &[u8]) -> Checked<Vec<Column>> {
    refuse_if(descriptions.len() < 4, [1, 0, 0])?;
    let mut columns = Vec::new();
    for (i, four) in descriptions.chunks_exact(4).enumerate() {
        refuse_if(i == MAX_COLUMNS, [5, i as u64, 0])?;
        refuse_if(!KINDS.contains(&four[0]), [2, i as u64, 0])?;
        let column = column_of(four[0], four[1], u16::from_le_bytes([four[2], four[3]]));
        columns.push(column.map_err(|number| [number, i as u64, 0, 0])?);
    }
    Ok(columns)
}

// ---- the sheet

/// The slots of a column: none is null, and else the value's bytes in the sheet.
pub type Slots<'a> = Vec<Option<&'a [u8]>>;

/// Bit `i mod 8` of byte `i div 8`, least bit first.
fn bit(bytes: &[u8], i: usize) -> bool {
    bytes[i / 8] >> (i % 8) & 1 == 1
}

/// The first `count` bytes of what is left of the sheet; column cut is 7.
fn take<'a>(rest: &mut &'a [u8], count: usize, c: u64) -> Checked<&'a [u8]> {
    refuse_if(rest.len() < count, [7, c, 0])?;
    let (taken, left) = rest.split_at(count);
    *rest = left;
    Ok(taken)
}

/// Packed bits of n rows: 7, 8.
fn take_bits<'a>(rest: &mut &'a [u8], n: usize, c: u64) -> Checked<&'a [u8]> {
    let bits = take(rest, n.div_ceil(8), c)?;
    refuse_if((n..8 * bits.len()).any(|i| bit(bits, i)), [8, c, 0])?;
    Ok(bits)
}

/// The values of a variable column: ends cut 7, row by row 9, 10, then bytes 7. The bytes before the
/// first end are the column's too, and mean nothing.
fn take_variable<'a>(rest: &mut &'a [u8], n: usize, c: u64) -> Checked<Vec<&'a [u8]>> {
    let ends = take(rest, 4 * (n + 1), c)?;
    let end = |i: usize| {
        let bytes = ends[4 * i..4 * i + 4].try_into().expect("four bytes");
        u32::from_le_bytes(bytes) as usize
    };
    for i in 0..n {
        refuse_if(end(i + 1) < end(i), [9, c, i as u64])?;
        refuse_if(end(i + 1) - end(i) > MAX_SLOT, [10, c, i as u64])?;
    }
    let bytes = take(rest, end(n), c)?;
    Ok((0..n).map(|i| &bytes[end(i)..end(i + 1)]).collect())
}

/// The values of a column, valid or not.
fn take_values<'a>(
    rest: &mut &'a [u8],
    column: Column,
    n: usize,
    c: u64,
) -> Checked<Vec<&'a [u8]>> {
    match column.kind {
        BOOL => {
            let bits = take_bits(rest, n, c)?;
            let value = |i| if bit(bits, i) { &[1][..] } else { &[0] };
            Ok((0..n).map(value).collect())
        }
        VARIABLE => take_variable(rest, n, c),
        _ => {
            let (bytes, width) = (take(rest, n * column.width, c)?, column.width);
            Ok((0..n).map(|i| &bytes[i * width..][..width]).collect())
        }
    }
}

/// The slots of each column: refusals 7 to 11, and 27 right after the validity bits.
pub fn read_sheet<'a>(columns: &[Column], n: usize, sheet: &'a [u8]) -> Checked<Vec<Slots<'a>>> {
    let mut rest = sheet;
    let mut slots = Vec::new();
    for (c, column) in columns.iter().enumerate() {
        let valid = take_bits(&mut rest, n, c as u64)?;
        if let (true, Some(r)) = (column.required, (0..n).find(|i| !bit(valid, *i))) {
            return Err([27, c as u64, r as u64, 0]);
        }
        let values = take_values(&mut rest, *column, n, c as u64)?;
        let slot = |(i, value)| bit(valid, i).then_some(value);
        slots.push(values.into_iter().enumerate().map(slot).collect());
    }
    let place = (sheet.len() - rest.len()) as u64;
    refuse_if(!rest.is_empty(), [11, place, 0])?;
    Ok(slots)
}

// ---- writing rows

/// 0x00 for nulls first, 0xFF for last, never inverted.
fn null_byte(column: Column) -> u8 {
    match column.nulls_first {
        true => 0x00,
        false => 0xFF,
    }
}

/// Whether a field with this lead byte is null, which none is in a required column.
pub fn null_lead(column: Column, lead: u8) -> bool {
    !column.required && lead == null_byte(column)
}

fn invert(bytes: &mut [u8]) {
    bytes.iter_mut().for_each(|b| *b = !*b);
}

/// High byte first.
fn unsigned_key(value: &[u8]) -> Vec<u8> {
    value.iter().rev().copied().collect()
}

/// The same, top bit flipped.
fn signed_key(value: &[u8]) -> Vec<u8> {
    let mut key = unsigned_key(value);
    key[0] ^= 0x80;
    key
}

/// If the sign bit is set, invert all other bits; low byte first.
fn invert_below_sign(bits: &mut [u8]) {
    let top = bits.len() - 1;
    if bits[top] & 0x80 != 0 {
        invert(bits);
        bits[top] ^= 0x80;
    }
}

/// Sign bit and other bits as above; then as signed.
fn float_key(value: &[u8]) -> Vec<u8> {
    let mut bits = value.to_vec();
    invert_below_sign(&mut bits);
    signed_key(&bits)
}

/// A value as it is encoded: in a column that folds every NaN is 7E00, 7FC00000 or 7FF8000000000000,
/// and -0 is +0.
fn folded(column: Column, value: &[u8]) -> Vec<u8> {
    let number = |bytes: &[u8]| bytes.iter().rev().fold(0u64, |x, b| x << 8 | *b as u64);
    let (infinity, nan) = match column.width {
        2 => (0x7C00, 0x7E00),
        4 => (0x7F80_0000, 0x7FC0_0000),
        _ => (0x7FF0_0000_0000_0000, 0x7FF8_0000_0000_0000u64),
    };
    if !column.fold {
        return value.to_vec();
    }
    let sign = 1 << (8 * column.width - 1);
    let bits = match number(value) {
        bits if bits & !sign > infinity => nan,
        bits if bits == sign => 0,
        bits => bits,
    };
    bits.to_le_bytes()[..column.width].to_vec()
}

/// A value of a fixed kind to its value bytes, or back, given how a signed number and a float go:
/// unsigned numbers are reversed both ways, a bool and fixed binary stay as they stand.
fn turned(
    column: Column,
    bytes: &[u8],
    signed: fn(&[u8]) -> Vec<u8>,
    float: fn(&[u8]) -> Vec<u8>,
) -> Vec<u8> {
    match column.kind {
        2..=5 | I128 | I256 => signed(bytes),
        6..=9 => unsigned_key(bytes),
        10..=12 => float(bytes),
        DAY_TIME => each_part(&[4, 4], bytes, signed),
        MONTH_DAY_NANO => each_part(&[4, 4, 8], bytes, signed),
        _ => bytes.to_vec(),
    }
}

/// Parts of so many bytes each, each turned by `f`, joined.
fn each_part(widths: &[usize], bytes: &[u8], f: fn(&[u8]) -> Vec<u8>) -> Vec<u8> {
    let mut rest = bytes;
    let mut joined = Vec::new();
    for width in widths {
        let (part, left) = rest.split_at(*width);
        joined.extend(f(part));
        rest = left;
    }
    joined
}

/// The first four blocks hold 8 bytes, all later ones 32.
fn block_size(k: usize) -> usize {
    match k {
        0..=3 => 8,
        _ => 32,
    }
}

/// Empty is 01. Otherwise 02, then blocks: data, zeros up to the size, one end byte.
fn variable_key(value: &[u8]) -> Vec<u8> {
    if value.is_empty() {
        return vec![1];
    }
    let (mut field, mut rest, mut k) = (vec![2], value, 0);
    while !rest.is_empty() {
        let size = block_size(k);
        let (data, more) = rest.split_at(size.min(rest.len()));
        field.extend(data);
        field.extend(std::iter::repeat_n(0, size - data.len()));
        field.push(if more.is_empty() {
            data.len() as u8
        } else {
            0xFF
        });
        (rest, k) = (more, k + 1);
    }
    field
}

/// The field of one slot.
fn field(column: Column, slot: Option<&[u8]>) -> Vec<u8> {
    match slot {
        None => {
            let mut field = vec![0; 1 + column.width];
            field[0] = null_byte(column);
            field
        }
        Some(value) if column.kind == VARIABLE => {
            let mut field = variable_key(value);
            if column.descending {
                invert(&mut field);
            }
            field
        }
        Some(value) => {
            let mut key = turned(column, value, signed_key, float_key);
            if column.descending {
                invert(&mut key);
            }
            [vec![1], key].concat()
        }
    }
}

/// Row r of slots: their fields, joined.
fn row_of(columns: &[Column], slots: &[Slots], r: usize) -> Vec<u8> {
    let mut row = Vec::new();
    for (column, slots) in columns.iter().zip(slots) {
        let value = slots[r].map(|value| folded(*column, value));
        row.extend(field(*column, value.as_deref()));
    }
    row
}

/// Field length, as document 01 gives it.
fn field_length(column: Column, slot: Option<&[u8]>) -> u64 {
    let length = slot.map_or(0, <[u8]>::len);
    let bytes = match column.kind {
        VARIABLE if length == 0 => 1,
        VARIABLE if length <= 32 => 1 + 9 * length.div_ceil(8),
        VARIABLE => 4 + 33 * length.div_ceil(32),
        _ => 1 + column.width,
    };
    bytes as u64
}

// ---- measure and encode

/// What measure knows.
pub struct Measured<'a> {
    pub columns: Vec<Column>,
    pub slots: Vec<Slots<'a>>,
    pub total: u64,
    pub nulls: u64,
}

/// List, 6, sheet, 12.
pub fn measure<'a>(list: &[u8], n: u64, sheet: &'a [u8]) -> Checked<Measured<'a>> {
    measure_under(read_list(list)?, n, sheet)
}

/// The same after the list.
pub fn measure_under(columns: Vec<Column>, n: u64, sheet: &[u8]) -> Checked<Measured<'_>> {
    refuse_if(n > MAX_ROWS, [6, n, 0])?;
    let slots = read_sheet(&columns, n as usize, sheet)?;
    let (mut total, mut nulls) = (0, 0);
    for (column, slots) in columns.iter().zip(&slots) {
        for slot in slots {
            total += field_length(*column, *slot);
            nulls += slot.is_none() as u64;
        }
    }
    refuse_if(total > MAX_TOTAL, [12, total, 0])?;
    Ok(Measured {
        columns,
        slots,
        total,
        nulls,
    })
}

/// Rows with their offsets, and the null total.
pub struct Encoded {
    pub rows: Vec<u8>,
    pub offsets: Vec<u64>,
    pub nulls: u64,
}

/// As measure, then 13, 14.
pub fn encode(
    list: &[u8],
    n: u64,
    sheet: &[u8],
    row_room: usize,
    offset_room: usize,
) -> Checked<Encoded> {
    encode_under(read_list(list)?, n, sheet, row_room, offset_room)
}

/// The same after the list.
pub fn encode_under(
    columns: Vec<Column>,
    n: u64,
    sheet: &[u8],
    row_room: usize,
    offset_room: usize,
) -> Checked<Encoded> {
    let measured = measure_under(columns, n, sheet)?;
    let total = measured.total;
    refuse_if((row_room as u64) < total, [13, total, 0])?;
    refuse_if((offset_room as u64) < n + 1, [14, n + 1, 0])?;
    let (mut rows, mut offsets) = (Vec::new(), vec![0]);
    for r in 0..n as usize {
        rows.extend(row_of(&measured.columns, &measured.slots, r));
        offsets.push(rows.len() as u64);
    }
    assert_eq!(rows.len() as u64, total, "the lengths of document 01");
    Ok(Encoded {
        rows,
        offsets,
        nulls: measured.nulls,
    })
}

// ---- reading rows

/// What is wrong in a row: the number, and the place of the byte, counted from the row's start.
type Fault = (u64, usize);

/// A row, and how far it has been read.
struct Reader<'a> {
    row: &'a [u8],
    at: usize,
}

impl<'a> Reader<'a> {
    /// The next bytes; cut is 16, and the first byte missing is the one after the row's last.
    fn take(&mut self, count: usize) -> Result<&'a [u8], Fault> {
        let bytes = self.row[self.at..]
            .get(..count)
            .ok_or((16, self.row.len()))?;
        self.at += count;
        Ok(bytes)
    }
}

/// The place of the first byte that is not zero, in bytes that stand at a place.
fn first_set(bytes: &[u8], at: usize) -> Option<usize> {
    bytes.iter().position(|b| *b != 0).map(|i| at + i)
}

/// The bytes, inverted back under descending.
fn inverted_back(column: Column, bytes: &[u8]) -> Vec<u8> {
    let mut bytes = bytes.to_vec();
    if column.descending {
        invert(&mut bytes);
    }
    bytes
}

/// After a lead byte that is allowed: fixed rest 16, 18, 19, 28.
fn read_fixed(column: Column, reader: &mut Reader) -> Result<Option<Vec<u8>>, Fault> {
    let start = reader.at;
    let lead = reader.take(1)?[0];
    if !null_lead(column, lead) && lead != 1 {
        return Err((17, start));
    }
    let bytes = reader.take(column.width)?;
    if lead != 1 {
        return match first_set(bytes, start + 1) {
            None => Ok(None),
            Some(place) => Err((18, place)),
        };
    }
    let key = inverted_back(column, bytes);
    if column.kind == BOOL && key[0] > 1 {
        return Err((19, start + 1));
    }
    match is_folded(column, &key) {
        true => Ok(Some(turned(column, &key, signed_unkey, float_unkey))),
        false => Err((28, start + 1)),
    }
}

/// Whether these value bytes, inverted back, are those of a value that is folded where the column folds.
pub fn is_folded(column: Column, key: &[u8]) -> bool {
    let value = turned(column, key, signed_unkey, float_unkey);
    folded(column, &value) == value
}

/// The number whose signed key this is.
fn signed_unkey(key: &[u8]) -> Vec<u8> {
    let mut bytes = key.to_vec();
    bytes[0] ^= 0x80;
    unsigned_key(&bytes)
}

/// The float whose key this is.
fn float_unkey(key: &[u8]) -> Vec<u8> {
    let mut bits = signed_unkey(key);
    invert_below_sign(&mut bits);
    bits
}

/// Lead byte 16, 17; each block 16, 20, 21, 23.
fn read_variable(column: Column, reader: &mut Reader) -> Result<Option<Vec<u8>>, Fault> {
    let start = reader.at;
    let lead = reader.take(1)?;
    if null_lead(column, lead[0]) {
        return Ok(None);
    }
    match inverted_back(column, lead)[0] {
        1 => return Ok(Some(Vec::new())),
        2 => {}
        _ => return Err((17, start)),
    }
    let mut value = Vec::new();
    for k in 0.. {
        let (at, size) = (reader.at, block_size(k));
        let block = inverted_back(column, reader.take(size + 1)?);
        let (data, end) = (&block[..size], block[size] as usize);
        let count = if end == 0xFF { size } else { end };
        if count < 1 || count > size {
            return Err((20, at + size));
        }
        if let Some(place) = first_set(&data[count..], at + count) {
            return Err((21, place));
        }
        value.extend(&data[..count]);
        if value.len() > MAX_SLOT {
            return Err((23, at + size));
        }
        if end != 0xFF {
            break;
        }
    }
    Ok(Some(value))
}

/// The slots of row r, or the numbers of its first fault.
fn read_row(columns: &[Column], r: usize, row: &[u8]) -> Checked<Vec<Option<Vec<u8>>>> {
    let mut reader = Reader { row, at: 0 };
    let refuse = |c: usize, (number, place): Fault| [number, r as u64, c as u64, place as u64];
    let mut slots = Vec::new();
    for (c, column) in columns.iter().enumerate() {
        let slot = match column.kind {
            VARIABLE => read_variable(*column, &mut reader),
            _ => read_fixed(*column, &mut reader),
        };
        slots.push(slot.map_err(|fault| refuse(c, fault))?);
    }
    match reader.at == row.len() {
        true => Ok(slots),
        false => Err(refuse(columns.len(), (22, reader.at))),
    }
}

// ---- decode

/// The cleared sheet and the null total.
pub struct Decoded {
    pub sheet: Vec<u8>,
    pub nulls: u64,
}

/// 14, 15 (first, falling in order, last), 12.
fn check_offsets(n: usize, rows: &[u8], offsets: &[u64]) -> Checked<()> {
    refuse_if(offsets.len() < n + 1, [14, n as u64 + 1, 0])?;
    refuse_if(offsets[0] != 0, [15, 0, 0])?;
    for i in 1..=n {
        refuse_if(offsets[i] < offsets[i - 1], [15, i as u64, 0])?;
    }
    let last = offsets[n];
    refuse_if(last > rows.len() as u64, [15, n as u64, 0])?;
    refuse_if(last > MAX_TOTAL, [12, last, 0])
}

/// List, 6, 14, 15, 12, rows, 24.
pub fn decode(
    list: &[u8],
    n: u64,
    rows: &[u8],
    offsets: &[u64],
    sheet_room: usize,
) -> Checked<Decoded> {
    decode_under(read_list(list)?, n, rows, offsets, sheet_room)
}

/// The same after the list.
pub fn decode_under(
    columns: Vec<Column>,
    n: u64,
    rows: &[u8],
    offsets: &[u64],
    sheet_room: usize,
) -> Checked<Decoded> {
    refuse_if(n > MAX_ROWS, [6, n, 0])?;
    let n = n as usize;
    check_offsets(n, rows, offsets)?;
    let mut slots: Vec<Vec<Slot>> = vec![Vec::new(); columns.len()];
    for r in 0..n {
        let row = &rows[offsets[r] as usize..offsets[r + 1] as usize];
        let row = read_row(&columns, r, row)?;
        for ((slots, column), value) in slots.iter_mut().zip(&columns).zip(row) {
            slots.push(Slot {
                valid: value.is_some(),
                bytes: value.unwrap_or_else(|| vec![0; column.width]),
            });
        }
    }
    let table = Table::new(n, columns, slots);
    let sheet = table.sheet();
    refuse_if(sheet_room < sheet.len(), [24, sheet.len() as u64, 0])?;
    Ok(Decoded {
        nulls: table.nulls(),
        sheet,
    })
}

// ---- join

/// A pass as it is lent: the count of its rows, the rows, their offsets.
pub type Pass<'a> = (u64, &'a [u8], &'a [u64]);

/// The rows between offsets: 6, 14, 15, 12.
fn cut_rows<'a>((n, rows, offsets): Pass<'a>) -> Checked<Vec<&'a [u8]>> {
    refuse_if(n > MAX_ROWS, [6, n, 0])?;
    let n = n as usize;
    check_offsets(n, rows, offsets)?;
    let row = |r: usize| &rows[offsets[r] as usize..offsets[r + 1] as usize];
    Ok((0..n).map(row).collect())
}

/// 26: the pass, the first row below its predecessor.
fn check_order(pass: u64, rows: &[&[u8]]) -> Checked<()> {
    for r in 1..rows.len() {
        refuse_if(rows[r] < rows[r - 1], [26, pass, r as u64])?;
    }
    Ok(())
}

/// The rows of a pass: 6, 14, 15, 12, 26.
fn read_pass<'a>(pass: u64, batch: Pass<'a>) -> Checked<Vec<&'a [u8]>> {
    let rows = cut_rows(batch)?;
    check_order(pass, &rows)?;
    Ok(rows)
}

/// Pass 0, pass 1, then the list, 14 (rows of both, 0). Each entry is 4,096 times the pass plus the
/// row; they are sorted by row bytes, equal rows in their order, pass 0 before pass 1.
pub fn join(first: Pass, second: Pass, room: usize) -> Checked<Vec<u64>> {
    let rows = [read_pass(0, first)?, read_pass(1, second)?];
    let both = (rows[0].len() + rows[1].len()) as u64;
    refuse_if((room as u64) < both, [14, both, 0])?;
    let entries = |pass: u64| (0..rows[pass as usize].len() as u64).map(move |r| 4096 * pass + r);
    let mut order: Vec<u64> = entries(0).chain(entries(1)).collect();
    // A stable sort: what is equal keeps its order.
    order.sort_by_key(|entry| rows[(entry / 4096) as usize][(entry % 4096) as usize]);
    Ok(order)
}

// ---- compare sheets

/// The slots of a sheet of n rows: 6, then sheet faults.
fn read_counted<'a>(columns: &[Column], (n, sheet): (u64, &'a [u8])) -> Checked<Vec<Slots<'a>>> {
    refuse_if(n > MAX_ROWS, [6, n, 0])?;
    read_sheet(columns, n as usize, sheet)
}

/// For each pair of rows, one of each sheet, 0, 1 or 2 for below, equal or above: as the bytes of their
/// rows compare, however many these are. After the list: sheet 0, then sheet 1; 32 (sheet, row) for the
/// first pair at fault, sheet 0 first; then the room, 14 (pairs, 0). A single number is no pair.
pub fn compare_pairs(
    columns: &[Column],
    [first, second]: [(u64, &[u8]); 2],
    pairs: &[u64],
    room: usize,
) -> Checked<Vec<u8>> {
    let slots = [
        read_counted(columns, first)?,
        read_counted(columns, second)?,
    ];
    let pairs: Vec<&[u64]> = pairs.chunks_exact(2).collect();
    for pair in &pairs {
        refuse_if(pair[0] >= first.0, [32, 0, pair[0]])?;
        refuse_if(pair[1] >= second.0, [32, 1, pair[1]])?;
    }
    refuse_if(room < pairs.len(), [14, pairs.len() as u64, 0])?;
    let row = |sheet: usize, r: u64| row_of(columns, &slots[sheet], r as usize);
    let ranks = pairs
        .iter()
        .map(|pair| row(0, pair[0]).cmp(&row(1, pair[1])));
    Ok(ranks.map(|order| (order as i8 + 1) as u8).collect())
}

// ---- look up

/// The rows that begin with a key, the fields of the first k columns, in a sorted batch; where none
/// does, where the first row greater than the key stands. After the list: 31 (k, 0) for a k of 0 or
/// past the columns; the key as row 0 of the first k columns; 6, 14, 15, 12, row faults, 26 (0, row).
pub fn look_up(columns: &[Column], k: u64, key: &[u8], batch: Pass) -> Checked<Range<usize>> {
    refuse_if(k == 0 || k > columns.len() as u64, [31, k, 0])?;
    read_row(&columns[..k as usize], 0, key)?;
    let rows = cut_rows(batch)?;
    for (r, row) in rows.iter().enumerate() {
        read_row(columns, r, row)?;
    }
    check_order(0, &rows)?;
    let begins = |row: &&[u8]| row.starts_with(key);
    let last = rows.iter().rposition(begins);
    Ok(match (rows.iter().position(begins), last) {
        (Some(first), Some(last)) => first..last + 1,
        _ => {
            let above = rows.iter().position(|row| *row > key);
            let place = above.unwrap_or(rows.len());
            place..place
        }
    })
}

#[cfg(test)]
mod tests {
    use super::*;
    use crate::columns::descriptions_of;

    /// The numbers of a refusal of a row's content.
    fn refused_row<T>(answer: Checked<T>) -> Numbers {
        match answer {
            Ok(_) => panic!("accepted"),
            Err(numbers) => numbers,
        }
    }

    /// The numbers of another refusal: the fourth is 0.
    fn refused<T>(answer: Checked<T>) -> [u64; 3] {
        let [number, second, third, place] = refused_row(answer);
        assert_eq!(place, 0);
        [number, second, third]
    }

    #[test]
    fn a_list_is_read_left_to_right() {
        assert_eq!(refused(read_list(&[])), [1, 0, 0]);
        assert_eq!(refused(read_list(&[4, 0, 16])), [1, 2, 0]);
        assert_eq!(refused(read_list(&[19])), [2, 0, 0]);
        assert_eq!(refused(read_list(&[1, 7, 15, 8, 1, 4])), [3, 2, 0]);
        assert_eq!(refused(read_list(&[12, 15, 9, 8])), [3, 2, 0]);
        assert_eq!(refused(read_list(&[10, 8, 11, 16])), [3, 2, 0]);
        assert_eq!(refused(read_list(&[15, 0, 1, 4])), [4, 0, 0]);
        assert_eq!(
            refused(read_list(&[&[1, 0].repeat(64)[..], &[99]].concat())),
            [5, 128, 0]
        );
        assert_eq!(
            read_list(&[15, 0, 0, 4]).map(|columns| columns[0].width),
            Ok(1024)
        );
    }

    #[test]
    fn a_list_is_read_once() {
        let columns = read_once(&[12, 15, 15, 3, 0, 4, 16, 1], 3).unwrap();
        let four: [[u8; 4]; 3] = [[12, 15, 0, 0], [15, 3, 0, 4], [16, 1, 0, 0]];
        assert_eq!(descriptions_of(&columns), four.concat());
        assert_eq!(read_descriptions(&four.concat()), Ok(columns));
        assert_eq!(refused(read_once(&[1, 0, 1, 0], 1)), [29, 2, 0]);
        assert_eq!(refused(read_once(&[1, 0, 19, 0], 0)), [2, 2, 0]);
    }

    #[test]
    fn descriptions_are_judged_by_their_index() {
        let after = |more: [u8; 4]| refused(read_descriptions(&[[1, 0, 0, 0], more].concat()));
        assert_eq!(refused(read_descriptions(&[1, 0, 0])), [1, 0, 0]);
        assert_eq!(after([0, 8, 1, 0]), [2, 1, 0]);
        assert_eq!(after([19, 0, 0, 0]), [2, 1, 0]);
        assert_eq!(after([9, 8, 1, 0]), [3, 1, 0]);
        assert_eq!(after([12, 16, 0, 0]), [3, 1, 0]);
        assert_eq!(after([15, 0, 1, 4]), [4, 1, 0]);
        assert_eq!(after([16, 0, 0, 1]), [4, 1, 0]);
        assert_eq!(after([4, 0, 4, 0]), [4, 1, 0]);
        let many = [[1, 0, 0, 0].repeat(64), vec![99; 4]].concat();
        assert_eq!(refused(read_descriptions(&many)), [5, 64, 0]);
        assert_eq!(read_descriptions(&many[..259]).map(|c| c.len()), Ok(64));
    }

    #[test]
    fn a_sheet_is_read_column_by_column() {
        let names = |n, sheet: &[u8]| refused(measure(&[16, 0], n, sheet));
        assert_eq!(names(4097, &[]), [6, 4097, 0]);
        assert_eq!(names(1, &[1, 0, 0, 0, 0, 1, 0, 0]), [7, 0, 0]);
        assert_eq!(names(1, &[2]), [8, 0, 0]);
        assert_eq!(names(1, &[1, 1, 0, 0, 0, 0, 0, 0, 0]), [9, 0, 0]);
        assert_eq!(
            names(2, &[1, 0, 0, 0, 0, 1, 0, 0, 0, 0, 0, 0, 0]),
            [9, 0, 1]
        );
        assert_eq!(names(1, &[1, 0, 0, 0, 0, 0, 0, 1, 0]), [10, 0, 0]);
        assert_eq!(names(1, &[1, 0, 0, 0, 0, 1, 0, 0, 0]), [7, 0, 0]);
        assert_eq!(names(1, &[1, 0, 0, 0, 0, 0, 0, 0, 0, 0]), [11, 9, 0]);
    }

    #[test]
    fn a_column_may_be_a_slice() {
        let slots = |n, sheet: &'static [u8]| measure(&[16, 0], n, sheet).map(|m| m.slots);
        let names: &[u8] = &[1, 2, 0, 0, 0, 3, 0, 0, 0, 9, 9, b'a'];
        assert_eq!(slots(1, names), Ok(vec![vec![Some(&b"a"[..])]]));
        assert_eq!(slots(1, &names[..11]), Err([7, 0, 0, 0]));
        assert_eq!(slots(0, &[2, 0, 0, 0, 9, 9]), Ok(vec![vec![]]));
        assert_eq!(slots(0, &[2, 0, 0, 0, 9]), Err([7, 0, 0, 0]));
        assert_eq!(slots(0, &[2, 0, 0, 0, 9, 9, 9]), Err([11, 6, 0, 0]));
    }

    #[test]
    fn a_required_column_has_no_null() {
        let plates = |n, sheet: &[u8]| refused(measure(&[6, 4], n, sheet));
        assert_eq!(plates(3, &[0b001]), [27, 0, 1]);
        assert_eq!(plates(3, &[0b1001]), [8, 0, 0]);
        assert_eq!(plates(3, &[0b111]), [7, 0, 0]);
        let read =
            |list: &[u8], row: &[u8]| refused(decode(list, 1, row, &[0, row.len() as u64], 99));
        for options in 4..8 {
            let null = [0xFF, 0x00][options as usize / 2 % 2];
            assert_eq!(read(&[6, options], &[null, 0]), [17, 0, 0]);
            assert_eq!(read(&[6, options], &[null]), [17, 0, 0]);
            assert_eq!(read(&[16, options], &[null]), [17, 0, 0]);
        }
    }

    #[test]
    fn floats_are_folded() {
        let rows = |list: &[u8], sheet: &[u8]| match encode(list, 1, sheet, 99, 2) {
            Ok(encoded) => encoded.rows,
            Err(numbers) => panic!("{numbers:?}"),
        };
        assert_eq!(rows(&[10, 10], &[1, 1, 0xFC]), [1, 0xFE, 0]);
        assert_eq!(rows(&[10, 10], &[1, 0, 0xFC]), [1, 3, 0xFF]);
        assert_eq!(rows(&[10, 11], &[1, 0, 0x80]), [1, 0x7F, 0xFF]);
        assert_eq!(rows(&[10, 2], &[1, 0, 0x80]), [1, 0x7F, 0xFF]);
        let read = |row: &[u8]| refused_row(decode(&[10, 10], 1, row, &[0, row.len() as u64], 99));
        assert_eq!(read(&[1, 0x7F, 0xFF]), [28, 0, 0, 1]);
        assert_eq!(read(&[1, 0xFE, 1, 7]), [28, 0, 0, 1]);
        assert_eq!(read(&[1, 0x7F]), [16, 0, 0, 2]);
        assert_eq!(read(&[2, 0x7F, 0xFF]), [17, 0, 0, 0]);
    }

    #[test]
    fn rooms_come_last() {
        let sheet = [1, 7];
        assert_eq!(refused(encode(&[6, 0], 1, &sheet, 1, 1)), [13, 2, 0]);
        assert_eq!(refused(encode(&[6, 0], 1, &sheet, 2, 1)), [14, 2, 0]);
        let rows = [1, 7];
        assert_eq!(refused(decode(&[6, 0], 1, &rows, &[0], 0)), [14, 2, 0]);
        assert_eq!(refused(decode(&[6, 0], 1, &rows, &[1, 0], 0)), [15, 0, 0]);
        assert_eq!(
            refused(decode(&[6, 0], 2, &rows, &[0, 2, 1], 0)),
            [15, 2, 0]
        );
        assert_eq!(refused(decode(&[6, 0], 1, &rows, &[0, 3], 0)), [15, 1, 0]);
        assert_eq!(refused(decode(&[6, 0], 1, &rows, &[0, 2], 1)), [24, 2, 0]);
    }

    #[test]
    fn a_row_is_read_field_by_field() {
        // A bool, then variable bytes, both descending with nulls last. Row 0 is good.
        let read = |row: &[u8]| {
            let (rows, end) = ([&[1, 0xFE, 0xFE], row].concat(), 3 + row.len() as u64);
            refused_row(decode(&[1, 1, 16, 1], 2, &rows, &[0, 3, end], 99))
        };
        assert_eq!(read(&[]), [16, 1, 0, 0]);
        assert_eq!(read(&[0]), [17, 1, 0, 0]);
        assert_eq!(read(&[1]), [16, 1, 0, 1]);
        assert_eq!(read(&[0xFF, 1]), [18, 1, 0, 1]);
        assert_eq!(read(&[1, 0]), [19, 1, 0, 1]);
        assert_eq!(read(&[1, 0xFE]), [16, 1, 1, 2]);
        assert_eq!(read(&[1, 0xFE, 0]), [17, 1, 1, 2]);
        assert_eq!(read(&[1, 0xFE, 0xFE, 0]), [22, 1, 2, 3]);
        let block = |data: u8, end: u8| [1, 0xFE, 0xFD, 0, 0, 0, 0, 0, 0, 0, data, end];
        assert_eq!(read(&block(0, 0xFF)), [20, 1, 1, 11]);
        assert_eq!(read(&block(0, !9)), [20, 1, 1, 11]);
        assert_eq!(read(&block(0, !7)), [21, 1, 1, 10]);
        assert_eq!(read(&block(0, !4)), [21, 1, 1, 7]);
        assert_eq!(read(&block(0, 0)), [16, 1, 1, 12]);
    }

    #[test]
    fn a_key_is_looked_up() {
        let columns = read_list(&[6, 2, 16, 2]).unwrap();
        let rows: &[u8] = &[1, 5, 0, 1, 5, 1, 1, 7, 1];
        let batch: Pass = (3, rows, &[0, 3, 6, 9]);
        let found = |k, key: &[u8]| look_up(&columns, k, key, batch);
        assert_eq!(found(1, &[1, 5]), Ok(0..2));
        assert_eq!(found(2, &[1, 5, 1]), Ok(1..2));
        assert_eq!(found(1, &[1, 6]), Ok(2..2));
        assert_eq!(found(1, &[0, 0]), Ok(0..0));
        assert_eq!(found(1, &[1, 8]), Ok(3..3));
        assert_eq!(refused(found(0, &[])), [31, 0, 0]);
        assert_eq!(refused(found(3, &[])), [31, 3, 0]);
        assert_eq!(refused_row(found(1, &[1])), [16, 0, 0, 1]);
        assert_eq!(refused_row(found(1, &[1, 5, 1])), [22, 0, 1, 2]);
        let under = |batch: Pass| refused_row(look_up(&columns, 1, &[1, 5], batch));
        assert_eq!(under((4097, b"", &[])), [6, 4097, 0, 0]);
        assert_eq!(under((2, &rows[3..], &[0, 3])), [14, 3, 0, 0]);
        let swapped: &[u8] = &[1, 7, 1, 1, 5, 9];
        assert_eq!(under((2, swapped, &[0, 3, 6])), [17, 1, 1, 2]);
        assert_eq!(under((2, &[1, 7, 1, 1, 5, 1], &[0, 3, 6])), [26, 0, 1, 0]);
    }

    #[test]
    fn rows_of_sheets_are_compared() {
        // f16 that folds, descending, nulls first: null, NaN, -0; then +0, another NaN.
        let columns = read_list(&[10, 11]).unwrap();
        let first: &[u8] = &[0b110, 9, 9, 1, 0x7C, 0, 0x80];
        let second: &[u8] = &[0b11, 0, 0, 0xFF, 0xFF];
        let sheets = [(3, first), (2, second)];
        let ranks = |pairs: &[u64], room| compare_pairs(&columns, sheets, pairs, room);
        let all = [0, 0, 0, 1, 1, 0, 1, 1, 2, 0, 2, 1];
        assert_eq!(ranks(&all, 6), Ok(vec![0, 0, 0, 1, 1, 2]));
        assert_eq!(ranks(&[2, 0, 7], 1), Ok(vec![1]));
        assert_eq!(refused(ranks(&all, 5)), [14, 6, 0]);
        assert_eq!(refused(ranks(&[0, 0, 2, 2, 3, 0], 0)), [32, 1, 2]);
        assert_eq!(refused(ranks(&[3, 2], 0)), [32, 0, 3]);
        let faults = |first, second| refused(compare_pairs(&columns, [first, second], &[9, 9], 0));
        assert_eq!(faults((4097, b""), (4098, b"")), [6, 4097, 0]);
        assert_eq!(faults((1, b""), (4097, b"")), [7, 0, 0]);
        assert_eq!(faults((2, second), (4097, b"")), [6, 4097, 0]);
        assert_eq!(faults((2, second), (2, b"\x07")), [8, 0, 0]);
    }

    #[test]
    fn a_join_checks_its_passes_in_order() {
        let ends: &[u64] = &[0, 1, 2];
        let over: Pass = (4097, b"", &[]);
        let first = |n, rows: &[u8], offsets: &[u64]| refused(join((n, rows, offsets), over, 0));
        assert_eq!(first(4098, b"", &[]), [6, 4098, 0]);
        assert_eq!(first(2, b"ba", &[0, 1]), [14, 3, 0]);
        assert_eq!(first(2, b"ba", &[1, 1, 2]), [15, 0, 0]);
        assert_eq!(first(2, b"ba", &[0, 2, 1]), [15, 2, 0]);
        assert_eq!(first(2, b"b", ends), [15, 2, 0]);
        let many = vec![1; 16_777_217];
        let last = 16_777_217;
        assert_eq!(first(2, &many, &[0, last, last]), [12, last, 0]);
        assert_eq!(first(2, b"ba", ends), [26, 0, 1]);
        assert_eq!(first(2, b"aa", ends), [6, 4097, 0]);
        let second = |rows, room| join((1, b"b", &[0, 1]), (2, rows, ends), room);
        assert_eq!(refused(second(b"ba", 0)), [26, 1, 1]);
        assert_eq!(refused(second(b"ab", 2)), [14, 3, 0]);
        assert_eq!(second(b"ab", 3), Ok(vec![4096, 0, 4097]));
        assert_eq!(second(b"bb", 9), Ok(vec![0, 4096, 4097]));
    }
}
