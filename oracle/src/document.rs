//! Document 01's own examples: its table, its cases to run, the program's input. The bytes and
//! numbers here are copied from the document.

use crate::call::{eights, numbers, Call};
use crate::columns::{Column, I128, I256, VARIABLE};
use crate::crate_side;
use crate::hex::hex;
use crate::judge::Judge;
use crate::model::Numbers;
use crate::table::{Slot, Table};

/// A kind with its options, a value's bytes in the sheet (none: null), and the field.
type Written = (u8, u8, Option<&'static [u8]>, &'static [u8]);

/// Lines 1 to 9 of the table; -1 in the kinds of document 02, and its folded floats.
const FIELDS: [Written; 24] = [
    (4, 2, Some(&[0xFF; 4]), &[0x01, 0x7F, 0xFF, 0xFF, 0xFF]),
    (4, 3, Some(&[0xFF; 4]), &[0x01, 0x80, 0x00, 0x00, 0x00]),
    (3, 1, None, &[0xFF, 0x00, 0x00]),
    (7, 2, Some(&[2, 1]), &[0x01, 0x01, 0x02]),
    (
        11,
        2,
        Some(&[0, 0, 0, 0x80]),
        &[0x01, 0x7F, 0xFF, 0xFF, 0xFF],
    ),
    (11, 2, Some(&[0, 0, 0, 0]), &[0x01, 0x80, 0x00, 0x00, 0x00]),
    (
        11,
        2,
        Some(&[0, 0, 0x80, 0x3F]),
        &[0x01, 0xBF, 0x80, 0x00, 0x00],
    ),
    (
        11,
        2,
        Some(&[0, 0, 0x80, 0xBF]),
        &[0x01, 0x40, 0x7F, 0xFF, 0xFF],
    ),
    (1, 3, Some(&[1]), &[0x01, 0xFE]),
    (
        13,
        2,
        Some(&[1, 0, 0, 0, 0xFF, 0xFF, 0xFF, 0xFF]),
        &[0x01, 0x80, 0x00, 0x00, 0x01, 0x7F, 0xFF, 0xFF, 0xFF],
    ),
    (VARIABLE, 2, Some(&[]), &[0x01]),
    (VARIABLE, 3, Some(&[]), &[0xFE]),
    (VARIABLE, 2, Some(b"a"), &[2, 0x61, 0, 0, 0, 0, 0, 0, 0, 1]),
    (
        VARIABLE,
        3,
        Some(b"a"),
        &[0xFD, 0x9E, 0xFF, 0xFF, 0xFF, 0xFF, 0xFF, 0xFF, 0xFF, 0xFE],
    ),
    (VARIABLE, 0, None, &[0xFF]),
    (I128, 2, Some(&[0xFF; 16]), &minus_one::<17>(0xFF)),
    (I128, 3, Some(&[0xFF; 16]), &minus_one::<17>(0x00)),
    (I256, 2, Some(&[0xFF; 32]), &minus_one::<33>(0xFF)),
    (I256, 1, None, &null_last::<33>()),
    (10, 10, Some(&[0x01, 0xFC]), &[0x01, 0xFE, 0x00]),
    (10, 10, Some(&[0x00, 0xFC]), &[0x01, 0x03, 0xFF]),
    (
        11,
        10,
        Some(&[0, 0, 0, 0x80]),
        &[0x01, 0x80, 0x00, 0x00, 0x00],
    ),
    (
        11,
        11,
        Some(&[0, 0, 0xC0, 0xFF]),
        &[0x01, 0x00, 0x3F, 0xFF, 0xFF],
    ),
    (
        12,
        14,
        Some(&[1, 0, 0, 0, 0, 0, 0xF0, 0x7F]),
        &[0x01, 0xFF, 0xF8, 0, 0, 0, 0, 0, 0],
    ),
];

/// 01, then bytes that are all this one but for the top bit.
const fn minus_one<const N: usize>(byte: u8) -> [u8; N] {
    let mut field = [byte; N];
    (field[0], field[1]) = (1, byte ^ 0x80);
    field
}

/// FF, then zeros.
const fn null_last<const N: usize>() -> [u8; N] {
    let mut field = [0; N];
    field[0] = 0xFF;
    field
}

/// A length, the bytes of its field, and some places in it with the bytes there.
type Ended = (usize, usize, &'static [(usize, u8)]);

/// Line 11 of the table, and the lengths among the cases to run.
const LENGTHS: [Ended; 6] = [
    (1, 10, &[(9, 1)]),
    (8, 10, &[(9, 8)]),
    (9, 19, &[(9, 0xFF), (18, 1)]),
    (32, 37, &[(36, 8)]),
    (33, 70, &[(36, 0xFF), (69, 1)]),
    (65_535, 67_588, &[(67_587, 31)]),
];

/// Rows of one variable column, nulls first, what is wrong with them, and at which byte.
const DAMAGED: [(&[u8], u64, u64); 7] = [
    (&[3], 17, 0),
    (&[2], 16, 1),
    (&[2, 0x61, 0, 0, 0, 0, 0, 0, 0, 9], 20, 9),
    (&[2, 0x61, 0, 0, 0, 0, 0, 0, 0, 0], 20, 9),
    (&[2, 0x61, 0, 0, 0, 0, 0, 0, 1, 1], 21, 8),
    (&[2, 0x61, 0, 0, 7, 0, 0, 0, 1, 1], 21, 4),
    (&[2, 0x61, 0, 0, 0, 0, 0, 0, 0], 16, 9),
];

/// A required column with a null byte, and rows of it that begin with that byte.
const MISSING: [([u8; 2], &[u8]); 6] = [
    ([6, 4], &[0xFF, 0]),
    ([6, 6], &[0x00, 0]),
    ([6, 5], &[0xFF]),
    ([VARIABLE, 4], &[0xFF]),
    ([VARIABLE, 5], &[0xFF]),
    ([VARIABLE, 7], &[0x00]),
];

/// A table of one column.
pub fn one_slot_each(column: Column, values: &[Option<&[u8]>]) -> Table {
    let slot = |value: &Option<&[u8]>| Slot {
        valid: value.is_some(),
        bytes: value.map_or(vec![0; column.width], <[u8]>::to_vec),
    };
    let slots = values.iter().map(slot).collect();
    Table::new(values.len(), vec![column], vec![slots])
}

/// All of them.
pub fn hold(judge: &mut Judge) {
    for (kind, options, value, field) in FIELDS {
        let table = one_slot_each(Column::new(kind, options), &[value]);
        hold_rows(judge, &table, &[field]);
    }
    let width_0 = one_slot_each(Column::fixed_binary(0, 2), &[Some(&[]), None]);
    hold_rows(judge, &width_0, &[&[0x01], &[0x00]]);
    let program = one_slot_each(Column::new(4, 2), &[Some(&[1, 0, 0, 0]), None]);
    hold_rows(judge, &program, &[&[1, 0x80, 0, 0, 1], &[0, 0, 0, 0, 0]]);
    hold_lengths(judge);
    hold_refusals(judge);
}

/// The crate writes these rows, and the station the crate's.
fn hold_rows(judge: &mut Judge, table: &Table, rows: &[&[u8]]) {
    let (bytes, offsets) = crate_side::encode(table);
    judge.ensure(crate_side::cut(&bytes, &offsets) == rows, || {
        format!("the crate: {} for {table}", hex(&bytes))
    });
    judge.table(table);
}

/// The field of a value of each length takes so many bytes, of which these are as document 01 says.
fn hold_lengths(judge: &mut Judge) {
    for (length, bytes, ends) in LENGTHS {
        let value = vec![b'a'; length];
        let table = one_slot_each(Column::new(VARIABLE, 2), &[Some(&value), None]);
        let (rows, offsets) = crate_side::encode(&table);
        let (first, second) = (bytes as u64, bytes as u64 + 1);
        let right = offsets == [0, first, second] && ends.iter().all(|(at, end)| rows[*at] == *end);
        judge.ensure(right, || {
            format!("the crate ends length {length} otherwise")
        });
        judge.table(&table);
    }
}

fn hold_refusals(judge: &mut Judge) {
    let list = Column::new(VARIABLE, 2).spelled();
    for (row, number, place) in DAMAGED {
        let offsets = eights(&[0, row.len() as u64]);
        let call = Call::decode(&list, 1, row, &offsets, 64);
        hold_numbers(judge, call, [number, 0, 0, place]);
    }
    for (list, row) in MISSING {
        let call = Call::decode(&list, 1, row, &eights(&[0, row.len() as u64]), 64);
        hold_numbers(judge, call, [17, 0, 0, 0]);
    }
    // -0 and a NaN of sign 1, under a column that folds.
    for row in [&[1, 0x7F, 0xFF, 0xFF, 0xFF], &[1, 0x00, 0x3F, 0xFF, 0xFF]] {
        let call = Call::decode(&[11, 10], 1, row, &eights(&[0, 5]), 64);
        hold_numbers(judge, call, [28, 0, 0, 1]);
    }
    // Null in row 1 of column 1; the values may be cut, and a spare bit comes first.
    for (bits, number) in [(0b101, 27), (0b1101, 8)] {
        for values in [&[5, 6, 7][..], &[]] {
            let sheet = [&[0b111, 1, 2, 3, bits], values].concat();
            let call = Call::encode(&[6, 2, 6, 6], 3, &sheet, 100, 32);
            let row = if number == 27 { 1 } else { 0 };
            hold_numbers(judge, call, [number, 1, row, 0]);
        }
    }
    let long = one_slot_each(Column::new(VARIABLE, 2), &[Some(&[0; 65_536])]);
    let call = Call::encode(&list, 1, &long.sheet(), 100_000, 16);
    hold_numbers(judge, call, [10, 0, 0, 0]);
}

/// The model says these numbers, and the station what the model says.
fn hold_numbers(judge: &mut Judge, call: Call, said: Numbers) {
    let modelled = numbers(&call.expected().answer);
    judge.ensure(modelled == said, || {
        format!("the model: {modelled:?}, not {said:?}, for {call}")
    });
    judge.call(call);
}
