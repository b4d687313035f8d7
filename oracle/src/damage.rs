//! Damaged inputs: lists, counts, sheets, rows, offsets and rooms that are a little wrong.

use crate::call::{eights, numbers, Call};
use crate::columns::list_of;
use crate::model;
use crate::rng::Rng;
use crate::table::Table;

/// Bytes that mean something somewhere.
const TELLING: [u8; 19] = [
    0x00, 0x01, 0x02, 0x03, 0x04, 0x07, 0x08, 0x09, 0x0F, 0x10, 0x11, 0x20, 0x21, 0x7F, 0x80, 0xFC,
    0xFD, 0xFE, 0xFF,
];

/// Something that the entries take: a list, a sheet of it, and its rows.
pub struct Good {
    pub list: Vec<u8>,
    pub n: u64,
    pub sheet: Vec<u8>,
    pub rows: Vec<u8>,
    pub offsets: Vec<u64>,
    pub cleared: usize,
}

impl Good {
    pub fn of(table: &Table) -> Good {
        let (list, n, sheet) = (list_of(&table.columns), table.rows as u64, table.sheet());
        let encoded = model::encode(&list, n, &sheet, usize::MAX, usize::MAX)
            .unwrap_or_else(|numbers| panic!("{table} is refused {numbers:?}"));
        Good {
            list,
            n,
            sheet,
            rows: encoded.rows,
            offsets: encoded.offsets,
            cleared: table.cleared().sheet().len(),
        }
    }

    /// Encode with exact room.
    pub fn encode(&self) -> Call {
        let rooms = (self.rows.len(), 8 * self.offsets.len());
        Call::encode(&self.list, self.n, &self.sheet, rooms.0, rooms.1)
    }

    /// Decode with exact room.
    pub fn decode(&self) -> Call {
        let offsets = eights(&self.offsets);
        Call::decode(&self.list, self.n, &self.rows, &offsets, self.cleared)
    }

    /// The list read once, and measure, encode and decode under what was read.
    pub fn reads(&self) -> Vec<Call> {
        let measure = Call::measure(&self.list, self.n, &self.sheet);
        let calls = [measure, self.encode(), self.decode()];
        let mut reads: Vec<Call> = calls.iter().filter_map(Call::read).collect();
        reads.push(Call::read_list(&self.list, reads[0].given[0].len()));
        reads
    }

    /// Decode with other bytes in place of row r, and room for them.
    pub fn decode_with_row(&self, r: usize, row: &[u8]) -> Call {
        let (start, end) = (self.offsets[r] as usize, self.offsets[r + 1] as usize);
        let rows = [&self.rows[..start], row, &self.rows[end..]].concat();
        let mut offsets = self.offsets.clone();
        for offset in &mut offsets[r + 1..] {
            *offset = *offset - (end - start) as u64 + row.len() as u64;
        }
        let room = self.cleared + row.len();
        Call::decode(&self.list, self.n, &rows, &eights(&offsets), room)
    }

    pub fn row(&self, r: usize) -> &[u8] {
        &self.rows[self.offsets[r] as usize..self.offsets[r + 1] as usize]
    }
}

/// One change to some bytes: other ones, more or fewer.
pub fn change(rng: &mut Rng, bytes: &mut Vec<u8>) {
    let telling = rng.pick(&TELLING);
    let at = rng.below(bytes.len() + 1);
    match rng.below(6) {
        0 => bytes.insert(at, telling),
        1 => bytes.truncate(at),
        2 => {
            let more = rng.below(40);
            bytes.extend(rng.bytes(more));
        }
        _ if at == bytes.len() => bytes.push(telling),
        3 => drop(bytes.remove(at)),
        4 => bytes[at] = telling,
        _ => bytes[at] ^= 1 << rng.below(8),
    }
}

/// One change to a number.
fn change_number(rng: &mut Rng, number: u64) -> u64 {
    match rng.below(6) {
        0 => number.wrapping_add(1),
        1 => number.wrapping_sub(1),
        2 => rng.pick(&[0, 1, 8, 4096, 4097, 65_536, 16_777_217]),
        3 => u64::MAX - rng.below(3) as u64,
        4 => number ^ 1 << rng.below(64),
        _ => rng.word(),
    }
}

/// One change to one of some numbers; of one number, no choice is drawn.
fn change_one(rng: &mut Rng, numbers: &mut [u64]) {
    let i = match numbers.len() {
        1 => 0,
        count => rng.below(count),
    };
    numbers[i] = change_number(rng, numbers[i]);
}

/// Room a little over or under what is needed, or far from it.
fn change_room(rng: &mut Rng, room: usize) -> usize {
    match rng.below(4) {
        0 => room.saturating_sub(rng.below(9) + 1),
        1 => rng.below(64),
        _ => room + rng.below(20),
    }
}

/// Offsets with one of them wrong, too few or too many.
fn change_offsets(rng: &mut Rng, bytes: &mut Vec<u8>) {
    let mut offsets = numbers(bytes);
    if rng.once_in(3) || offsets.is_empty() {
        return change(rng, bytes);
    }
    let (i, j) = (rng.below(offsets.len()), rng.below(offsets.len()));
    match rng.once_in(3) {
        true => offsets.swap(i, j),
        false => offsets[i] = change_number(rng, offsets[i]),
    }
    *bytes = eights(&offsets);
}

/// A call of encode or measure, wrong in one way or more.
pub fn encode(rng: &mut Rng, good: &Good) -> Call {
    let mut call = good.encode();
    if rng.once_in(4) {
        call = Call::measure(&good.list, good.n, &good.sheet);
    }
    for _ in 0..rng.pick(&[1, 1, 1, 2, 3]) {
        match rng.below(8) {
            0 => change(rng, &mut call.given[0]),
            1 => change_one(rng, &mut call.numbers),
            2 if !call.lent.is_empty() => {
                let which = rng.below(2);
                call.lent[which] = change_room(rng, call.lent[which]);
            }
            3 if rng.once_in(4) => call.answer = rng.below(48),
            _ => change(rng, &mut call.given[1]),
        }
    }
    call
}

/// A call of decode, wrong in one way or more.
pub fn decode(rng: &mut Rng, good: &Good) -> Call {
    let mut call = good.decode();
    if good.n > 0 && rng.once_in(2) {
        let r = rng.below(good.n as usize);
        let mut row = good.row(r).to_vec();
        change(rng, &mut row);
        call = good.decode_with_row(r, &row);
    }
    for _ in 0..rng.below(3) {
        match rng.below(8) {
            0 => change(rng, &mut call.given[0]),
            1 => change_one(rng, &mut call.numbers),
            2 => call.lent[0] = change_room(rng, call.lent[0]),
            3 if rng.once_in(4) => call.answer = rng.below(48),
            4 | 5 => change_offsets(rng, &mut call.given[2]),
            _ => change(rng, &mut call.given[1]),
        }
    }
    call
}

/// A call of an entry on descriptions or of the reading of a list, wrong in one way or more.
pub fn read(rng: &mut Rng, good: &Good) -> Call {
    let mut call = match rng.once_in(4) {
        true => Call::read_list(&good.list, 4 * good.list.len()),
        false if rng.once_in(2) => encode(rng, good),
        false => decode(rng, good),
    };
    call = call.read().unwrap_or(call);
    for _ in 0..rng.pick(&[0, 1, 1, 1, 2]) {
        match rng.below(4) {
            0 if !call.lent.is_empty() => call.lent[0] = change_room(rng, call.lent[0]),
            _ => change(rng, &mut call.given[0]),
        }
    }
    call
}

/// A call of a look-up, wrong in one way or more: of the list or the descriptions, the numbers, the
/// key, the rows, the offsets.
pub fn look_up(rng: &mut Rng, mut call: Call) -> Call {
    for _ in 0..rng.pick(&[1, 1, 1, 2, 3]) {
        match rng.below(10) {
            0 => change(rng, &mut call.given[0]),
            1 => change_one(rng, &mut call.numbers),
            2 if rng.once_in(4) => call.answer = rng.below(48),
            3..=5 => change(rng, &mut call.given[1]),
            6 => change_offsets(rng, &mut call.given[3]),
            _ => change(rng, &mut call.given[2]),
        }
    }
    call
}

/// A call that compares rows of two sheets, wrong in one way or more.
pub fn compare(rng: &mut Rng, mut call: Call) -> Call {
    for _ in 0..rng.pick(&[1, 1, 1, 2, 3]) {
        match rng.below(8) {
            0 => change(rng, &mut call.given[0]),
            1 => change_one(rng, &mut call.numbers),
            2 if !call.lent.is_empty() => call.lent[0] = change_room(rng, call.lent[0]),
            3 if rng.once_in(4) => call.answer = rng.below(48),
            4 if call.given.len() > 3 => change_offsets(rng, &mut call.given[3]),
            _ => {
                let which = rng.below(2) + 1;
                change(rng, &mut call.given[which]);
            }
        }
    }
    call
}

/// A call of the row cutter, wrong in one way or more: of the list or the state, the piece, the rooms.
pub fn cut(rng: &mut Rng, mut call: Call) -> Call {
    for _ in 0..rng.pick(&[1, 1, 1, 2, 3]) {
        match rng.below(8) {
            0 => change(rng, &mut call.given[0]),
            1 | 2 => change_offsets(rng, &mut call.given[0]),
            3 if !call.lent.is_empty() => call.lent[0] = change_room(rng, call.lent[0]),
            4 if rng.once_in(4) => call.answer = rng.below(48),
            _ => {
                let last = call.given.len() - 1;
                change(rng, &mut call.given[last]);
            }
        }
    }
    call
}

/// A call of join, wrong in one way or more.
pub fn join(rng: &mut Rng, mut call: Call) -> Call {
    for _ in 0..rng.pick(&[1, 1, 1, 2, 3]) {
        let which = rng.below(2);
        match rng.below(8) {
            0 => change_one(rng, &mut call.numbers),
            1 => call.lent[0] = change_room(rng, call.lent[0]),
            2 if rng.once_in(4) => call.answer = rng.below(48),
            3 | 4 => change_offsets(rng, &mut call.given[2 * which + 1]),
            _ => change(rng, &mut call.given[2 * which]),
        }
    }
    call
}
