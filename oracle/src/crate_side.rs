//! Tables to rows and back by the crate's own encoders and decoders.

use crate::columns::{Column, BOOL, DAY_TIME, FIXED_BINARY, I128, I256, MONTH_DAY_NANO};
use crate::table::Table;
use arrow_row::driver::{self, Array, Field, Kind, SheetSlot};
use arrow_schema::SortOptions;

/// The crate's name for a column's order.
fn sort_options(column: Column) -> SortOptions {
    SortOptions {
        descending: column.descending,
        nulls_first: column.nulls_first,
    }
}

fn kind(column: Column) -> Kind {
    match column.kind {
        BOOL => Kind::Boolean,
        2 => Kind::Int8,
        3 => Kind::Int16,
        4 => Kind::Int32,
        5 => Kind::Int64,
        6 => Kind::UInt8,
        7 => Kind::UInt16,
        8 => Kind::UInt32,
        9 => Kind::UInt64,
        10 => Kind::Float16,
        11 => Kind::Float32,
        12 => Kind::Float64,
        DAY_TIME => Kind::DayTime,
        MONTH_DAY_NANO => Kind::MonthDayNano,
        I128 => Kind::Decimal128,
        I256 => Kind::Decimal256,
        FIXED_BINARY => Kind::FixedBinary(column.width as i32),
        _ => Kind::Binary,
    }
}

/// The columns as the crate takes them: it does not fold, so it is given folded values.
pub fn columns(table: &Table) -> Vec<driver::Column> {
    let table = table.folded();
    let columns = table.columns.iter().zip(&table.slots).zip(&table.before);
    columns
        .map(|((column, slots), before)| {
            let slots = slots.iter().map(|slot| (slot.valid, slot.bytes.as_slice()));
            let slots: Vec<SheetSlot<'_>> = slots.collect();
            driver::Column {
                array: Array::from_slots(kind(*column), before, &slots),
                options: sort_options(*column),
            }
        })
        .collect()
}

/// The columns to decode.
pub fn fields(columns: &[Column]) -> Vec<Field> {
    let field = |column: &Column| Field {
        kind: kind(*column),
        options: sort_options(*column),
    };
    columns.iter().map(field).collect()
}

/// The rows and offsets that the crate writes into a buffer whose bytes are all `fill`; the crate
/// itself clears it first.
pub fn encode_into(table: &Table, fill: u8) -> (Vec<u8>, Vec<u64>) {
    let columns = columns(table);
    let mut offsets = Vec::new();
    let total = driver::plan(&columns, table.rows, &mut offsets);
    let mut rows = vec![fill; total];
    driver::write(&columns, &mut rows, &mut offsets);
    (rows, offsets.into_iter().map(|o| o as u64).collect())
}

/// The rows and offsets of the crate.
pub fn encode(table: &Table) -> (Vec<u8>, Vec<u64>) {
    encode_into(table, 0)
}

/// The rows between offsets.
pub fn cut<'a>(rows: &'a [u8], offsets: &[u64]) -> Vec<&'a [u8]> {
    let ends = offsets.windows(2);
    ends.map(|w| &rows[w[0] as usize..w[1] as usize]).collect()
}

/// What the crate reads: the slots of each column, and the bytes that each row has left.
pub struct Read {
    pub slots: Vec<Vec<Option<Vec<u8>>>>,
    pub left: Vec<usize>,
}

/// Decodes rows by the crate.
pub fn decode(columns: &[Column], rows: &[u8], offsets: &[u64]) -> Read {
    let mut rows = cut(rows, offsets);
    let arrays = driver::read(&fields(columns), &mut rows);
    Read {
        slots: arrays.iter().map(|array| array.slots(rows.len())).collect(),
        left: rows.iter().map(|row| row.len()).collect(),
    }
}
