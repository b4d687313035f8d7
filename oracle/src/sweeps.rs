//! The runs of the oracle on accepted sheets, one after the other.

use crate::call::{eights, Call};
use crate::columns::{Column, BOOL, VARIABLE};
use crate::document::one_slot_each;
use crate::judge::Judge;
use crate::make::{self, Nulls};
use crate::model::{MAX_COLUMNS, MAX_ROWS, MAX_TOTAL};
use crate::rng::Rng;
use crate::stack::FEW_ROWS;
use crate::table::Table;

/// Every kind, option, pattern of nulls and row count: tables of one column. Unless `tall`, the row
/// counts at the ceiling are left to the narrow kinds.
pub fn kinds(judge: &mut Judge, rng: &mut Rng, tall: bool) {
    for options in make::OPTIONS {
        for column in make::every_column(options) {
            judge.progress("kinds", options as usize, 16);
            for nulls in make::nulls_of(options) {
                let mut row_counts = make::ROW_COUNTS.to_vec();
                if tall || column.width <= 2 {
                    row_counts.extend(make::FULL_ROW_COUNTS);
                }
                for rows in row_counts {
                    judge.table(&make::one_column(rng, column, rows, *nulls, &make::LENGTHS));
                }
            }
        }
    }
}

/// Variable bytes of every length up to 300 and of the long ones, as values and in null slots.
pub fn lengths(judge: &mut Judge, rng: &mut Rng) {
    let lengths: Vec<usize> = (0..=300).chain(make::LONG_LENGTHS).collect();
    for options in make::ORDERS {
        let column = Column::new(VARIABLE, options);
        for (i, length) in lengths.iter().enumerate() {
            judge.progress("lengths", i, lengths.len());
            let nulls = Nulls::Alternating;
            judge.table(&make::one_column(rng, column, 3, nulls, &[*length]));
        }
    }
}

/// Sliced columns: bytes of every count before the first end, every option and pattern of nulls, no
/// rows too; alone and with a column on each side.
pub fn slices(judge: &mut Judge, rng: &mut Rng) {
    for options in make::ORDERS {
        judge.progress("slices", options as usize, 4);
        for first_end in make::FIRST_ENDS {
            for nulls in make::NULLS {
                for rows in make::ROW_COUNTS {
                    let names = Column::new(VARIABLE, options);
                    for columns in [vec![names], vec![Column::new(6, options), names, names]] {
                        let table = make::table_with(rng, rows, columns, nulls, &[0, 1, 8, 9, 33]);
                        judge.table(&make::sliced(rng, table, first_end));
                    }
                }
            }
        }
    }
}

/// Every f16 there is, folded.
pub fn halves(judge: &mut Judge) {
    for options in [make::FOLD, make::FOLD | 3] {
        for start in (0..=u16::MAX).step_by(MAX_ROWS as usize) {
            judge.progress("halves", start as usize, u16::MAX as usize);
            let values: Vec<[u8; 2]> = (start..=start + 4095).map(u16::to_le_bytes).collect();
            let values: Vec<Option<&[u8]>> = values.iter().map(|value| Some(&value[..])).collect();
            judge.table(&one_slot_each(Column::new(10, options), &values));
        }
    }
}

/// Tables of one to sixty-four columns, then random ones.
pub fn tables(judge: &mut Judge, rng: &mut Rng, count: usize) {
    for count in 1..=MAX_COLUMNS as u8 {
        let columns = make::columns_from(count, count as usize, count % 16);
        judge.table(&make::table_of(rng, 17, columns));
    }
    for i in 0..count {
        judge.progress("random tables", i, count);
        judge.table(&make::any_table(rng));
    }
}

/// As many rows as there may be, of sixteen kinds together and of all in two tables, and of as many columns as there may be, and then
/// as few as take less of the stack: what every entry takes of it is seen in the end ([`crate::stack`]).
pub fn full(judge: &mut Judge, rng: &mut Rng) {
    for options in [0, 7, 9, 14] {
        judge.progress("4,096 rows", options as usize, 16);
        for (first, count) in [(1, 16), (3, 16), (1, MAX_COLUMNS)] {
            let columns = make::columns_from(first, count, options);
            for rows in [MAX_ROWS, FEW_ROWS] {
                judge.table(&make::table_of(rng, rows as usize, columns.clone()));
            }
        }
    }
}

/// Row bytes at 16,777,216 and one over, in encode and in decode.
pub fn ceiling(judge: &mut Judge, rng: &mut Rng) {
    judge.progress("row bytes at the ceiling", 0, 1);
    judge.table(&at_ceiling(rng));
    let over = over_ceiling(rng);
    let (list, n, sheet) = (over.list(), over.rows as u64, over.sheet());
    judge.call(Call::measure(&list, n, &sheet));
    judge.call(Call::encode(&list, n, &sheet, MAX_TOTAL as usize + 1, 0));
    let list = Column::new(BOOL, 0).spelled();
    for total in [MAX_TOTAL, MAX_TOTAL + 1] {
        let rows = vec![0; total as usize];
        judge.call(Call::decode(&list, 1, &rows, &eights(&[0, total]), 2));
    }
}

/// Fixed binary columns, of so many bytes a row with their lead bytes.
fn wide_columns(row: usize) -> Vec<Column> {
    let whole = vec![Column::fixed_binary(1024, 2); row / 1025];
    let rest = Column::fixed_binary(row % 1025 - 1, 2);
    whole.into_iter().chain([rest]).collect()
}

/// 4,096 rows of 4,096 bytes.
fn at_ceiling(rng: &mut Rng) -> Table {
    make::table_of(rng, MAX_ROWS as usize, wide_columns(4096))
}

/// 16,777,217 row bytes: 4,096 rows of 4,087 bytes and a variable field, of 10 bytes in 3,641 rows
/// and of 1 byte in the others.
pub fn over_ceiling(rng: &mut Rng) -> Table {
    let mut table = make::table_of(rng, MAX_ROWS as usize, wide_columns(4087));
    let names: Vec<Option<&[u8]>> = (0..4096).map(|r| (r < 3641).then_some(&b"a"[..])).collect();
    let names = one_slot_each(Column::new(VARIABLE, 2), &names);
    table.columns.extend(names.columns);
    table.slots.extend(names.slots);
    table.before.extend(names.before);
    table
}
