//! Rows that the crate misreads and the station refuses, and bytes that the crate leaves unwritten:
//! for each the smallest input, what the crate gives, what the station answers.

use crate::columns::{Column, BOOL, VARIABLE};
use crate::crate_side;
use crate::document::one_slot_each;
use crate::hex::hex;
use crate::judge::Judge;
use crate::model::Numbers;
use std::panic::catch_unwind;

const U8: u8 = 6;
const NULLS_FIRST: u8 = 2;

/// What the crate makes of a row of one column.
#[derive(Debug, PartialEq, Eq)]
enum Outcome {
    Value(Vec<u8>),
    Null,
    /// A value, and so many bytes of the row that are never looked at.
    ValueAndRest(Vec<u8>, usize),
    Panic,
}

/// A damaged row of one column, nulls first.
struct Misread {
    what: &'static str,
    kind: u8,
    row: &'static [u8],
    crate_reads: Outcome,
    refused: Numbers,
}

fn misreads() -> Vec<Misread> {
    let misread = |what, kind, row, crate_reads, (number, place)| Misread {
        what,
        kind,
        row,
        crate_reads,
        refused: [number, 0, 0, place],
    };
    let value = |bytes: &[u8]| Outcome::Value(bytes.to_vec());
    let mut all = vec![
        misread(
            "a stray lead byte read as empty",
            VARIABLE,
            &[3],
            value(b""),
            (17, 0),
        ),
        misread(
            "the other null byte read as empty",
            VARIABLE,
            &[0xFF],
            value(b""),
            (17, 0),
        ),
        misread(
            "any byte but 01 taken for null",
            U8,
            &[2, 0],
            Outcome::Null,
            (17, 0),
        ),
        misread(
            "a byte after a null not looked at",
            U8,
            &[0, 5],
            Outcome::Null,
            (18, 1),
        ),
        misread(
            "a bool of 02 read as false",
            BOOL,
            &[1, 2],
            value(&[0]),
            (19, 1),
        ),
        misread(
            "padding not looked at",
            VARIABLE,
            &[2, b'a', 0, 0, 0, 0, 0, 0, 1, 1],
            value(b"a"),
            (21, 8),
        ),
        misread(
            "an end byte over the block size, read into the value",
            VARIABLE,
            &[2, b'a', 0, 0, 0, 0, 0, 0, 0, 9],
            value(&[b'a', 0, 0, 0, 0, 0, 0, 0, 9]),
            (20, 9),
        ),
        misread(
            "an end byte of 0 read as empty",
            VARIABLE,
            &[2, b'a', 0, 0, 0, 0, 0, 0, 0, 0],
            value(b""),
            (20, 9),
        ),
        misread("a cut row", VARIABLE, &[2], Outcome::Panic, (16, 1)),
    ];
    all.push(Misread {
        what: "bytes after the last field not looked at",
        kind: VARIABLE,
        row: &[1, 7],
        crate_reads: Outcome::ValueAndRest(Vec::new(), 1),
        refused: [22, 0, 1, 1],
    });
    all
}

/// What the crate makes of a row.
fn crate_reads(column: Column, row: &'static [u8]) -> Outcome {
    let offsets = [0, row.len() as u64];
    match catch_unwind(|| crate_side::decode(&[column], row, &offsets)) {
        Err(_) => Outcome::Panic,
        Ok(read) => match (&read.slots[0][0], read.left[0]) {
            (None, _) => Outcome::Null,
            (Some(value), 0) => Outcome::Value(value.clone()),
            (Some(value), left) => Outcome::ValueAndRest(value.clone(), left),
        },
    }
}

/// All of them; how many there are.
pub fn hold(judge: &mut Judge) -> usize {
    // A panic is an outcome here, and needs no report of its own.
    let hook = std::panic::take_hook();
    std::panic::set_hook(Box::new(|_| {}));
    let misreads = misreads();
    for misread in &misreads {
        hold_misread(judge, misread);
    }
    std::panic::set_hook(hook);
    hold_unwritten(judge, U8, None, &[0, 0xAA], &[0, 0]);
    hold_unwritten(
        judge,
        VARIABLE,
        Some(b"a"),
        &[2, b'a', 0xAA, 0xAA, 0xAA, 0xAA, 0xAA, 0xAA, 0xAA, 1],
        &[2, b'a', 0, 0, 0, 0, 0, 0, 0, 1],
    );
    misreads.len() + 2
}

fn hold_misread(judge: &mut Judge, misread: &Misread) {
    let Misread { what, row, .. } = misread;
    let column = Column::new(misread.kind, NULLS_FIRST);
    let read = crate_reads(column, row);
    let (list, offsets) = (column.spelled(), [0, row.len() as u64]);
    let station = station::decode(&list, 1, row, &offsets, &mut [0; 64]);
    let refused = station.map_err(|r| [r.number, r.second, r.third, r.place]);
    let as_said = read == misread.crate_reads && refused == Err(misread.refused);
    judge.ensure(as_said, || {
        let row = hex(row);
        format!("{what}, row {row}: the crate reads {read:?}, the station answers {refused:?}")
    });
}

/// One slot written into a buffer that holds AA: the crate's row and the station's.
fn hold_unwritten(
    judge: &mut Judge,
    kind: u8,
    value: Option<&[u8]>,
    crate_row: &[u8],
    station_row: &[u8],
) {
    let table = one_slot_each(Column::new(kind, NULLS_FIRST), &[value]);
    let (crate_rows, _) = crate_side::encode_into(&table, 0xAA);
    let mut rows = vec![0xAA; station_row.len()];
    let answer = station::encode(&table.list(), 1, &table.sheet(), &mut rows, &mut [0; 2]);
    let as_said = answer.is_ok() && crate_rows == crate_row && rows == station_row;
    judge.ensure(as_said, || {
        let (crate_rows, rows) = (hex(&crate_rows), hex(&rows));
        format!("into a buffer of AA: the crate writes {crate_rows}, the station {rows}")
    });
}
