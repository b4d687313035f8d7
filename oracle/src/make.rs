//! Tables to try: every kind, lengths and row counts around each boundary, values around each edge.

use crate::columns::{
    known_options, Column, BOOL, DAY_TIME, FIXED_BINARY, I128, I256, KINDS, MONTH_DAY_NANO,
    VARIABLE,
};
use crate::rng::Rng;
use crate::table::{Slot, Table};

/// Row counts around each byte boundary of the packed bits.
pub const ROW_COUNTS: [usize; 8] = [0, 1, 7, 8, 9, 15, 16, 17];
/// Row counts at the ceiling.
pub const FULL_ROW_COUNTS: [usize; 2] = [4095, 4096];
/// Lengths around each block boundary.
pub const LENGTHS: [usize; 17] = [
    0, 1, 7, 8, 9, 15, 16, 17, 31, 32, 33, 63, 64, 65, 95, 96, 97,
];
/// Longer ones, up to the ceiling: 65,504 fills 2,047 blocks of 32.
pub const LONG_LENGTHS: [usize; 15] = [
    127, 128, 129, 255, 256, 257, 1023, 1024, 1025, 32_767, 32_768, 65_503, 65_504, 65_505, 65_535,
];
/// Widths of fixed binary.
pub const WIDTHS: [usize; 6] = [0, 1, 2, 16, 1023, 1024];
/// Bytes before the first end of a sliced column; what a slot may hold is no limit to them.
pub const FIRST_ENDS: [usize; 7] = [1, 7, 8, 33, 255, 256, 65_537];
/// Descending, nulls first, required and fold, in all ways.
pub const OPTIONS: std::ops::Range<u8> = 0..16;
/// Descending and nulls first, in all four ways.
pub const ORDERS: std::ops::Range<u8> = 0..4;
pub const REQUIRED: u8 = 4;
pub const FOLD: u8 = 8;

/// Which slots of a column are null.
#[derive(Clone, Copy, Debug)]
pub enum Nulls {
    None,
    All,
    Random,
    Alternating,
}

pub const NULLS: [Nulls; 4] = [Nulls::None, Nulls::All, Nulls::Random, Nulls::Alternating];

/// The patterns that a column with these options may have.
pub fn nulls_of(options: u8) -> &'static [Nulls] {
    match options & REQUIRED {
        0 => &NULLS,
        _ => &[Nulls::None],
    }
}

impl Nulls {
    fn at(self, rng: &mut Rng, row: usize) -> bool {
        match self {
            Nulls::None => false,
            Nulls::All => true,
            Nulls::Random => rng.once_in(2),
            Nulls::Alternating => row % 2 == 1,
        }
    }
}

/// Every kind that knows the given options, with each width of fixed binary.
pub fn every_column(options: u8) -> Vec<Column> {
    let kinds = KINDS.filter(|kind| options & !known_options(*kind) == 0);
    let columns = kinds.flat_map(|kind| match kind {
        FIXED_BINARY => WIDTHS
            .map(|width| Column::fixed_binary(width, options))
            .to_vec(),
        _ => vec![Column::new(kind, options)],
    });
    columns.collect()
}

/// So many kinds side by side, from `first` on, each with those of the options that it knows; the
/// first kind comes after the last.
pub fn columns_from(first: u8, count: usize, options: u8) -> Vec<Column> {
    let column = |kind| match kind {
        FIXED_BINARY => Column::fixed_binary(3, options & known_options(kind)),
        _ => Column::new(kind, options & known_options(kind)),
    };
    let kinds = KINDS.cycle().skip(first as usize - 1);
    kinds.take(count).map(column).collect()
}

/// A table of one column.
pub fn one_column(
    rng: &mut Rng,
    column: Column,
    rows: usize,
    nulls: Nulls,
    lengths: &[usize],
) -> Table {
    table_with(rng, rows, vec![column], nulls, lengths)
}

/// A table whose columns have the same pattern of nulls and the same lengths.
pub fn table_with(
    rng: &mut Rng,
    rows: usize,
    columns: Vec<Column>,
    nulls: Nulls,
    lengths: &[usize],
) -> Table {
    let slots = columns.iter();
    let slots = slots.map(|column| slots_of(rng, *column, rows, nulls, lengths));
    let slots = slots.collect();
    Table::new(rows, columns, slots)
}

/// The same table as a slice of a longer one: so many bytes stand before the first end of each
/// variable column.
pub fn sliced(rng: &mut Rng, mut table: Table, first_end: usize) -> Table {
    for (before, column) in table.before.iter_mut().zip(&table.columns) {
        if column.kind == VARIABLE {
            *before = bytes(rng, first_end);
        }
    }
    table
}

/// The slots of a column; a null slot holds a value like any other, and a required column has none.
/// Variable bytes have one of the lengths.
fn slots_of(
    rng: &mut Rng,
    column: Column,
    rows: usize,
    nulls: Nulls,
    lengths: &[usize],
) -> Vec<Slot> {
    let slot = |row| Slot {
        valid: !nulls.at(rng, row) || column.required,
        bytes: value(rng, column, lengths),
    };
    (0..rows).map(slot).collect()
}

fn value(rng: &mut Rng, column: Column, lengths: &[usize]) -> Vec<u8> {
    match column.kind {
        BOOL => vec![rng.below(2) as u8],
        VARIABLE => {
            let length = rng.pick(lengths);
            bytes(rng, length)
        }
        FIXED_BINARY => bytes(rng, column.width),
        10..=12 => float(rng, column.width),
        DAY_TIME => [number(rng, 4), number(rng, 4)].concat(),
        MONTH_DAY_NANO => [number(rng, 4), number(rng, 4), number(rng, 8)].concat(),
        I128 | I256 => wide_number(rng, column.width),
        _ => number(rng, column.width),
    }
}

/// Bytes: random ones, or bytes that mean something in a row.
fn bytes(rng: &mut Rng, count: usize) -> Vec<u8> {
    match rng.below(4) {
        0 => vec![rng.pick(&[0x00, 0x01, 0x02, 0xFE, 0xFF]); count],
        1 => vec![b'a' + rng.below(3) as u8; count],
        _ => rng.bytes(count),
    }
}

/// A number, low byte first: any, or one at an edge of the signed or unsigned range.
fn number(rng: &mut Rng, width: usize) -> Vec<u8> {
    let top = 1u64 << (8 * width - 1);
    let edges = [0, 1, 2, u64::MAX, u64::MAX - 1, top, top - 1, top + 1];
    let number = match rng.once_in(2) {
        true => rng.pick(&edges),
        false => rng.word(),
    };
    number.to_le_bytes()[..width].to_vec()
}

/// A number of some words, low byte first: any, or around zero, at an extreme or at the boundary of a
/// word. Each is a power of two or 0, negated or not, one less or more or as it is.
fn wide_number(rng: &mut Rng, width: usize) -> Vec<u8> {
    if rng.once_in(4) {
        return rng.bytes(width);
    }
    let words = width / 8;
    let mut number = vec![0u64; words];
    match rng.below(4) {
        0 => {}
        1 => number[words - 1] = 1 << 63,
        2 => number[rng.below(words)] = 1,
        _ => number[rng.below(words)] = 1 << rng.below(64),
    }
    if rng.once_in(2) {
        number.iter_mut().for_each(|word| *word = !*word);
        add(&mut number, 1);
    }
    match rng.below(3) {
        0 => add(&mut number, 1),
        1 => add(&mut number, u64::MAX),
        _ => {}
    }
    number.iter().flat_map(|word| word.to_le_bytes()).collect()
}

/// Adds a word of sign to a number of some words, low word first, modulo its size.
fn add(number: &mut [u64], signed: u64) {
    let more = (signed as i64 >> 63) as u64;
    let mut carry = false;
    for (i, word) in number.iter_mut().enumerate() {
        let (sum, first) = word.overflowing_add(if i == 0 { signed } else { more });
        let (sum, second) = sum.overflowing_add(carry as u64);
        (*word, carry) = (sum, first || second);
    }
}

/// A float's bits: any, or zero, the smallest, one, infinity or a NaN, of either sign.
fn float(rng: &mut Rng, width: usize) -> Vec<u8> {
    let (infinity, one) = match width {
        2 => (0x7C00, 0x3C00),
        4 => (0x7F80_0000, 0x3F80_0000),
        _ => (0x7FF0_0000_0000_0000, 0x3FF0_0000_0000_0000),
    };
    let sign = 1u64 << (8 * width - 1);
    let quiet = infinity | infinity >> 1;
    let edges = [
        0,
        1,
        one,
        infinity - 1,
        infinity,
        infinity + 1,
        quiet,
        sign - 1,
    ];
    let bits = match rng.once_in(2) {
        true => rng.pick(&edges) | rng.pick(&[0, sign]),
        false => rng.word(),
    };
    bits.to_le_bytes()[..width].to_vec()
}

/// Any column; a tall table gets no wide one.
fn any_column(rng: &mut Rng, tall: bool) -> Column {
    let options = rng.below(4) as u8 | rng.pick(&[0, 0, 0, REQUIRED]);
    let kind = rng.below(*KINDS.end() as usize) as u8 + 1;
    match rng.pick(&[VARIABLE, kind, kind]) {
        FIXED_BINARY if tall => Column::fixed_binary(rng.pick(&WIDTHS[..4]), options),
        FIXED_BINARY if rng.once_in(8) => Column::fixed_binary(rng.below(1025), options),
        FIXED_BINARY => Column::fixed_binary(rng.pick(&WIDTHS), options),
        kind => {
            let fold = rng.pick(&[0, FOLD]) & known_options(kind);
            Column::new(kind, options | fold)
        }
    }
}

/// One column to `most`.
fn any_columns(rng: &mut Rng, most: usize, tall: bool) -> Vec<Column> {
    let count = rng.below(most) + 1;
    (0..count).map(|_| any_column(rng, tall)).collect()
}

/// Any table: 1 to 64 columns, mostly few rows, now and then as many as there may be, and then of at
/// most 16 columns.
pub fn any_table(rng: &mut Rng) -> Table {
    let rows = match rng.below(100) {
        0..=49 => rng.pick(&ROW_COUNTS),
        50..=89 => rng.below(34),
        90..=98 => rng.below(300),
        _ => rng.pick(&FULL_ROW_COUNTS),
    };
    let most = match rows > 1000 {
        true => rng.pick(&[1, 3, 16]),
        false => rng.pick(&[1, 3, 3, 16, 16, 64]),
    };
    let columns = any_columns(rng, most, rows > 40);
    table_of(rng, rows, columns)
}

/// A table of few rows and columns with short values.
pub fn small_table(rng: &mut Rng) -> Table {
    let (columns, rows) = (any_columns(rng, 4, true), rng.below(5));
    table_of(rng, rows, columns)
}

/// A table whose columns each have their own pattern of nulls and their own lengths; one in four is
/// a slice.
pub fn table_of(rng: &mut Rng, rows: usize, columns: Vec<Column>) -> Table {
    let slots = columns.iter().map(|column| {
        let nulls = rng.pick(&NULLS);
        let most = rng.below(LENGTHS.len());
        let mut lengths = LENGTHS[..most + 1].to_vec();
        if rows < 20 && rng.once_in(100) {
            lengths.extend(LONG_LENGTHS);
        }
        slots_of(rng, *column, rows, nulls, &lengths)
    });
    let slots = slots.collect();
    let table = Table::new(rows, columns, slots);
    match rng.once_in(4) {
        true => {
            let first_end = rng.below(40) + 1;
            sliced(rng, table, first_end)
        }
        false => table,
    }
}
