//! The order of values, from document 01's sentence on it.

use crate::columns::{Column, BOOL, DAY_TIME, FIXED_BINARY, I128, I256, MONTH_DAY_NANO, VARIABLE};
use crate::table::Table;
use std::cmp::Ordering;

/// How rows i and j of a table compare: column by column.
pub fn row_order(table: &Table, i: usize, j: usize) -> Ordering {
    let pairs = table.row(i).zip(table.row(j));
    pairs.fold(Ordering::Equal, |order, ((column, a), (_, b))| {
        order.then_with(|| slot_order(column, a, b))
    })
}

/// Nulls equal each other and stand where nulls first says, whatever descending says.
fn slot_order(column: Column, a: Option<&[u8]>, b: Option<&[u8]>) -> Ordering {
    match (a, b) {
        (Some(a), Some(b)) if column.descending => value_order(column.kind, a, b).reverse(),
        (Some(a), Some(b)) => value_order(column.kind, a, b),
        // None is less than Some.
        _ if column.nulls_first => a.is_some().cmp(&b.is_some()),
        _ => b.is_some().cmp(&a.is_some()),
    }
}

/// Numbers by size; false before true; intervals part by part; bytes unsigned, a beginning first;
/// floats by totalOrder.
fn value_order(kind: u8, a: &[u8], b: &[u8]) -> Ordering {
    match kind {
        BOOL | FIXED_BINARY | VARIABLE => a.cmp(b),
        2..=5 => signed(a).cmp(&signed(b)),
        6..=9 => unsigned(a).cmp(&unsigned(b)),
        11 => f32::total_cmp(
            &f32::from_bits(unsigned(a) as u32),
            &f32::from_bits(unsigned(b) as u32),
        ),
        12 => f64::total_cmp(&f64::from_bits(unsigned(a)), &f64::from_bits(unsigned(b))),
        DAY_TIME => parts(&[4, 4], a).cmp(&parts(&[4, 4], b)),
        MONTH_DAY_NANO => parts(&[4, 4, 8], a).cmp(&parts(&[4, 4, 8], b)),
        I128 | I256 => halves(a).cmp(&halves(b)),
        _ => f16_rank(a).cmp(&f16_rank(b)),
    }
}

fn unsigned(bytes: &[u8]) -> u64 {
    bytes.iter().rev().fold(0, |x, b| x << 8 | *b as u64)
}

fn signed(bytes: &[u8]) -> i64 {
    let spare = 64 - 8 * bytes.len();
    ((unsigned(bytes) << spare) as i64) >> spare
}

/// A number of 16 or 32 bytes: its last sixteen, signed, and those before them, unsigned.
fn halves(bytes: &[u8]) -> (i128, u128) {
    let (low, high) = bytes.split_at(bytes.len() - 16);
    let low = low.iter().rev().fold(0, |x, b| x << 8 | *b as u128);
    (i128::from_le_bytes(high.try_into().expect("sixteen")), low)
}

fn parts(widths: &[usize], bytes: &[u8]) -> Vec<i64> {
    let starts = widths.iter().scan(0, |at, width| {
        *at += width;
        Some(*at - width)
    });
    let parts = starts.zip(widths);
    parts
        .map(|(at, width)| signed(&bytes[at..at + width]))
        .collect()
}

/// Sign 1 ranks below sign 0; sign 0 rises and sign 1 falls with the remaining bits.
fn f16_rank(bytes: &[u8]) -> i32 {
    let bits = unsigned(bytes) as i32;
    match bits & 0x8000 {
        0 => bits,
        _ => -1 - (bits & 0x7FFF),
    }
}
