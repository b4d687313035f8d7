//! Recorded cases for the program `vectors`: a line that it reads, and the line that it must answer.
//! The parts of a line stand between spaces: bytes in hex, `-` for none; numbers in decimal, with
//! commas between them.
//!
//! ```text
//! encode LIST SHEET N,ROWS,OFFSETS      with so much room for row bytes and offsets
//! decode LIST ROWS N,SHEET,OFFSET,..    with so much room for the sheet
//! compare A B
//! ```
//!
//! An answer gives for each entry its name, its four numbers and the whole of the lent buffers,
//! which held [`FILL`] and [`OFFSET_FILL`]. To `encode` check_list, measure and encode answer, then
//! decode of what the two buffers hold, into as much room as the sheet takes.

use crate::call::{numbers, Call, Entry};
use crate::crate_side;
use crate::hex::hex;
use crate::model::{self, Checked, Decoded, Encoded, Numbers};
use crate::table::{Slot, Table};

const FILL: u8 = 0xEE;
const OFFSET_FILL: u64 = 9;

/// One case: a sheet that is accepted, with so many row bytes and offsets more than it needs; or a
/// call that is refused, or one of compare.
pub enum Case {
    Sheet(Table, usize),
    Call(Call),
}

impl Case {
    /// The line that is read.
    pub fn input(&self) -> String {
        let call = match self {
            Case::Call(call) => call,
            Case::Sheet(table, spare) => &sheet_call(table, *spare),
        };
        let mut counts = Vec::new();
        match call.entry {
            Entry::Encode => counts.extend([
                call.numbers[0],
                call.lent[0] as u64,
                call.lent[1] as u64 / 8,
            ]),
            Entry::Decode => {
                counts.extend([call.numbers[0], call.lent[0] as u64]);
                counts.extend(numbers(&call.given[2]));
            }
            _ => {}
        }
        let counts: Vec<String> = counts.iter().map(u64::to_string).collect();
        let (first, second) = (hex(&call.given[0]), hex(&call.given[1]));
        let line = format!(
            "{} {first} {second} {}",
            call.entry.name(),
            counts.join(",")
        );
        line.trim_end().to_string()
    }

    /// The line that answers it: a sheet as the crate's own code has it, a call as document 01 has it.
    pub fn answer(&self) -> String {
        match self {
            Case::Sheet(table, spare) => {
                let (encoded, decoded) = (encoded_by_crate(table), decoded_by_crate(table));
                encode_line(&sheet_call(table, *spare), &Ok(encoded), &Ok(decoded))
            }
            Case::Call(call) if call.entry == Entry::Encode => {
                let rows = vec![FILL; call.lent[0]];
                let offsets = vec![OFFSET_FILL; call.lent[1] / 8];
                let (list, sheet) = (&call.given[0], &call.given[1]);
                let n = call.numbers[0];
                let encoded = model::encode(list, n, sheet, rows.len(), offsets.len());
                let decoded = model::decode(list, n, &rows, &offsets, sheet.len());
                encode_line(call, &encoded, &decoded)
            }
            Case::Call(call) if call.entry == Entry::Decode => {
                let (list, rows, offsets) = (&call.given[0], &call.given[1], &call.given[2]);
                let (n, offsets) = (call.numbers[0], numbers(offsets));
                let decoded = model::decode(list, n, rows, &offsets, call.lent[0]);
                decode_words("decode", &decoded, call.lent[0])
            }
            Case::Call(call) => format!("compare {}", call.expected().sign),
        }
    }
}

/// Encode with so many row bytes and offsets more than the sheet needs.
fn sheet_call(table: &Table, spare: usize) -> Call {
    let (rows, offsets) = crate_side::encode(table);
    let rooms = (rows.len() + spare, 8 * (offsets.len() + spare));
    let n = table.rows as u64;
    Call::encode(&table.list(), n, &table.sheet(), rooms.0, rooms.1)
}

/// The rows that the crate writes.
pub fn encoded_by_crate(table: &Table) -> Encoded {
    let (rows, offsets) = crate_side::encode(table);
    Encoded {
        rows,
        offsets,
        nulls: table.nulls(),
    }
}

/// The sheet of what the crate reads from the rows that it writes.
fn decoded_by_crate(table: &Table) -> Decoded {
    let (rows, offsets) = crate_side::encode(table);
    let read = crate_side::decode(&table.columns, &rows, &offsets);
    let slots = read.slots.into_iter().zip(&table.columns);
    let slots = slots.map(|(slots, column)| {
        let slot = |value: Option<Vec<u8>>| Slot {
            valid: value.is_some(),
            bytes: value.unwrap_or_else(|| vec![0; column.width]),
        };
        slots.into_iter().map(slot).collect()
    });
    let read = Table::new(table.rows, table.columns.clone(), slots.collect());
    Decoded {
        sheet: read.sheet(),
        nulls: read.nulls(),
    }
}

/// What the entries answer to a case of encode.
fn encode_line(call: &Call, encoded: &Checked<Encoded>, decoded: &Checked<Decoded>) -> String {
    let (list, sheet) = (&call.given[0], &call.given[1]);
    let columns = model::read_list(list).map(|columns| [0, columns.len() as u64, 0, 0]);
    let measured = model::measure(list, call.numbers[0], sheet);
    let measured = measured.map(|measured| [0, measured.total, measured.nulls, 0]);
    [
        words("list", &columns),
        words("measure", &measured),
        encode_words("encode", encoded, call.lent[0], call.lent[1] / 8),
        decode_words("decode", decoded, sheet.len()),
    ]
    .join(" ")
}

/// A name and four numbers.
fn words(name: &str, answer: &Checked<Numbers>) -> String {
    let [a, b, c, d] = answer.unwrap_or_else(|numbers| numbers);
    format!("{name} {a} {b} {c} {d}")
}

/// The same of encode, then the lent offsets and the lent rows.
pub fn encode_words(name: &str, answer: &Checked<Encoded>, rows: usize, offsets: usize) -> String {
    let (mut lent_rows, mut lent_offsets) = (vec![FILL; rows], vec![OFFSET_FILL; offsets]);
    let answer = answer.as_ref().map_err(|numbers| *numbers);
    let answer = answer.map(|encoded| {
        lent_rows[..encoded.rows.len()].copy_from_slice(&encoded.rows);
        lent_offsets[..encoded.offsets.len()].copy_from_slice(&encoded.offsets);
        [0, encoded.rows.len() as u64, encoded.nulls, 0]
    });
    let mut parts = vec![words(name, &answer)];
    parts.extend(lent_offsets.iter().map(u64::to_string));
    parts.push(hex(&lent_rows));
    parts.join(" ")
}

/// The same of decode, then the lent sheet.
pub fn decode_words(name: &str, answer: &Checked<Decoded>, room: usize) -> String {
    let mut sheet = vec![FILL; room];
    let answer = answer.as_ref().map_err(|numbers| *numbers);
    let answer = answer.map(|decoded| {
        sheet[..decoded.sheet.len()].copy_from_slice(&decoded.sheet);
        [0, decoded.sheet.len() as u64, decoded.nulls, 0]
    });
    format!("{} {}", words(name, &answer), hex(&sheet))
}
