//! The runs of the oracle on inputs that are refused, or nearly so: the station must answer the
//! model's four numbers and leave every other byte as it was.

use crate::call::{eights, Call};
use crate::columns::{Column, BOOL, FIXED_BINARY, FLOATS, VARIABLE};
use crate::cutter::{self, STATE_BYTES};
use crate::damage::{self, Good};
use crate::document::one_slot_each;
use crate::joins::join;
use crate::judge::Judge;
use crate::lookups;
use crate::make::{self, Nulls};
use crate::model::{self, MAX_COLUMNS};
use crate::rng::Rng;

/// Every list of up to two bytes; every fault at every column up to the sixty-seventh; every cut.
pub fn lists(judge: &mut Judge) {
    judge.call(Call::check_list(&[]));
    for a in 0..=255 {
        judge.call(Call::check_list(&[a]));
        for b in 0..=255 {
            judge.call(Call::check_list(&[a, b]));
        }
    }
    let faults: [&[u8]; 12] = [
        &[0, 0],
        &[19, 0],
        &[1, 8],
        &[9, 8],
        &[12, 16],
        &[1],
        &[FIXED_BINARY, 0, 0],
        &[FIXED_BINARY, 8, 1, 4],
        &[FIXED_BINARY, 0, 0, 4],
        &[FIXED_BINARY, 0, 1, 4],
        &[FIXED_BINARY, 3, 0xFF, 0xFF],
        &[VARIABLE, 3],
    ];
    for before in 0..=MAX_COLUMNS + 2 {
        for fault in faults {
            let good = [1, 0].repeat(before);
            let wide = [FIXED_BINARY, 3, 9, 0].repeat(before);
            for start in [good, wide] {
                judge.call(Call::check_list(&[&start, fault].concat()));
                judge.call(Call::check_list(&[&start, fault, &[1, 0]].concat()));
            }
        }
    }
}

/// Every byte of a short row set to every value, every cut of it, and a byte after it: one row of
/// each kind and option, null and not. Of required columns, which differ in the lead byte only, the
/// narrow ones.
pub fn rows(judge: &mut Judge, rng: &mut Rng) {
    for options in make::OPTIONS {
        for column in make::every_column(options) {
            judge.progress("damaged rows", options as usize, 16);
            let lengths = match column.kind {
                VARIABLE if column.required => &[1, 9][..],
                VARIABLE => &[1, 8, 9, 32, 33, 65][..],
                _ => &[0],
            };
            let most = if column.required { 2 } else { 32 };
            for length in lengths {
                for nulls in [Nulls::None, Nulls::All] {
                    if column.width <= most {
                        let table = make::one_column(rng, column, 1, nulls, &[*length]);
                        every_change_to_row(judge, &Good::of(&table));
                    }
                }
            }
        }
    }
}

/// Every lead byte alone, then the changes.
fn every_change_to_row(judge: &mut Judge, good: &Good) {
    let row = good.row(0);
    for lead in 0..=255 {
        judge.call(good.decode_with_row(0, &[lead]));
    }
    for at in 0..row.len() {
        judge.call(good.decode_with_row(0, &row[..at]));
        for value in 0..=255 {
            let mut changed = row.to_vec();
            changed[at] = value;
            judge.call(good.decode_with_row(0, &changed));
        }
    }
    judge.call(good.decode_with_row(0, &[row, &[0]].concat()));
}

/// The last block of a value of 65,535 bytes, with other end bytes and other last bytes.
pub fn long_values(judge: &mut Judge) {
    for options in make::ORDERS {
        let column = Column::new(VARIABLE, options);
        let good = Good::of(&one_slot_each(column, &[Some(&[b'a'; 65_535])]));
        for end in [0, 30, 31, 32, 33, 0xFE, 0xFF] {
            for last in [0, b'a'] {
                let mut row = good.row(0).to_vec();
                let at = row.len() - 2;
                row[at..].copy_from_slice(&[last, end]);
                if column.descending {
                    row[at..].iter_mut().for_each(|b| *b = !*b);
                }
                judge.call(good.decode_with_row(0, &row));
                judge.call(good.decode_with_row(0, &[row, good.row(0).to_vec()].concat()));
            }
        }
    }
}

/// Every byte of a short sheet set to every value, every cut of it, and a byte after it: one column
/// of each kind, on both sides of a byte boundary, and a slice of variable bytes.
pub fn sheets(judge: &mut Judge, rng: &mut Rng) {
    let required = make::every_column(2 | make::REQUIRED).into_iter();
    let required = required.filter(|column| column.width <= 2);
    for column in make::every_column(2).into_iter().chain(required) {
        for rows in [0, 1, 3, 8] {
            judge.progress("damaged sheets", column.kind as usize, 18);
            if column.width <= 16 {
                let table = make::one_column(rng, column, rows, Nulls::Random, &[0, 1, 9]);
                every_change_to_sheet(judge, &Good::of(&table));
                if column.kind == VARIABLE {
                    let slice = make::sliced(rng, table, 2);
                    every_change_to_sheet(judge, &Good::of(&slice));
                }
            }
        }
    }
}

fn every_change_to_sheet(judge: &mut Judge, good: &Good) {
    let mut with = |sheet: &[u8]| {
        let room = 20 * (sheet.len() + 1);
        judge.call(Call::encode(&good.list, good.n, sheet, room, 80));
    };
    for at in 0..good.sheet.len() {
        with(&good.sheet[..at]);
        for value in 0..=255 {
            let mut changed = good.sheet.clone();
            changed[at] = value;
            with(&changed);
        }
    }
    with(&[&good.sheet[..], &[0]].concat());
}

/// Nulls in required columns: the first one at each row, alone and with others after it, in counts of
/// rows around each byte and word of the validity bits; with the values, and with all of them cut.
pub fn required(judge: &mut Judge, rng: &mut Rng) {
    for n in [1, 7, 8, 9, 63, 64, 65, 127, 128, 129, 200] {
        for kind in [BOOL, 6, VARIABLE] {
            let column = Column::new(kind, rng.below(4) as u8 | make::REQUIRED);
            let mut table = make::one_column(rng, column, n, Nulls::None, &[0, 1]);
            for (first, others) in (0..n).flat_map(|first| [(first, false), (first, true)]) {
                for (row, slot) in table.slots[0].iter_mut().enumerate() {
                    slot.valid = row < first || (row > first && !(others && rng.once_in(3)));
                }
                let (list, n, sheet) = (table.list(), n as u64, table.sheet());
                judge.call(Call::measure(&list, n, &sheet));
                judge.call(Call::measure(&list, n, &sheet[..n.div_ceil(8) as usize]));
            }
        }
    }
}

/// Rows of floats that are not folded, or only happen to be, under a list that folds; whole, cut, and
/// with a byte after them.
pub fn unfolded(judge: &mut Judge, rng: &mut Rng) {
    for kind in FLOATS {
        for options in make::ORDERS {
            for _ in 0..200 {
                let column = Column::new(kind, options);
                let good = Good::of(&make::one_column(rng, column, 3, Nulls::Random, &[]));
                let list = [kind, options | make::FOLD];
                let (whole, row) = (good.decode(), good.row(2));
                let cut = good.decode_with_row(2, &row[..row.len() - 1]);
                let long = good.decode_with_row(2, &[row, &[0]].concat());
                for mut call in [whole, cut, long] {
                    call.given[0] = list.to_vec();
                    judge.call(call);
                }
            }
        }
    }
}

/// Rooms around what is needed, answers around 32 bytes, counts around the ceiling.
pub fn rooms(judge: &mut Judge, rng: &mut Rng) {
    for _ in 0..200 {
        let good = Good::of(&make::small_table(rng));
        for less in 0..18 {
            let mut encode = good.encode();
            encode.lent[0] = (encode.lent[0] + 9).saturating_sub(less);
            judge.call(encode.clone());
            encode.lent[1] = (encode.lent[1] + 9).saturating_sub(less);
            judge.call(encode);
            let mut decode = good.decode();
            decode.lent[0] = (decode.lent[0] + 9).saturating_sub(less);
            judge.call(decode.clone());
            let offsets = decode.given[2].len().saturating_sub(less);
            decode.given[2].truncate(offsets);
            judge.call(decode);
        }
        for answer in [0, 1, 8, 23, 24, 25, 31, 32, 33, 40] {
            judge.call(Call::check_list(&good.list).answer(answer));
            judge.call(Call::measure(&good.list, good.n, &good.sheet).answer(answer));
            judge.call(good.encode().answer(answer));
            judge.call(good.decode().answer(answer));
            let reads = good.reads().into_iter();
            reads.for_each(|call| judge.call(call.answer(answer)));
        }
        for n in [4096, 4097, u64::MAX] {
            judge.call(Call::measure(&good.list, n, &good.sheet));
            judge.call(good.encode().with_number(0, n));
            judge.call(good.decode().with_number(0, n));
        }
    }
}

/// Every entry with slices of no bytes, in every choice of them. Each such slice is lent as a null
/// pointer too ([`Judge::call`]).
pub fn empty(judge: &mut Judge) {
    let names = one_slot_each(Column::new(VARIABLE, 2), &[Some(b"a"), None]);
    let good = Good::of(&names);
    let state = cutter::state_bytes(&cutter::start(model::read_list(&good.list)));
    let calls = [
        Call::check_list(&good.list),
        Call::measure(&good.list, good.n, &good.sheet),
        good.encode(),
        good.decode(),
        Call::read_list(&good.list, 4),
        lookups::look_up(&good, 1, good.row(0)),
        Call::compare_sheets(&good.list, [(good.n, &good.sheet); 2], [0, 1]),
        Call::compare_pairs(&good.list, [(good.n, &good.sheet); 2], &eights(&[0, 1]), 1),
        Call::cutter_start(&good.list, STATE_BYTES),
        Call::cut(&state, &good.rows, 8 * good.rows.len()),
        Call::cutter_finish(&state),
        join(&[vec![b"a".to_vec(), b"b".to_vec()], vec![b"a".to_vec()]]),
        Call::compare(good.row(0), good.row(1)),
        // No rows: nothing is refused, though slices are empty.
        Call::encode(&good.list, 0, &[0; 4], 0, 8),
        Call::decode(&good.list, 0, &[], &[0; 8], 4),
        Call::measure(&[1, 0], 0, &[]),
        Call::encode(&[1, 0], 0, &[], 0, 8),
        Call::decode(&[1, 0], 0, &[], &[0; 8], 0),
        join(&[vec![], vec![]]),
        join(&[vec![vec![]], vec![vec![]; 2]]),
    ];
    let read = calls.iter().filter_map(Call::read);
    let read: Vec<Call> = read.collect();
    for call in calls.into_iter().chain(read) {
        let slices = call.given.len() + call.lent.len() + 1;
        for choice in 0..1 << slices {
            judge.call(emptied(&call, choice));
        }
    }
}

/// A call with its chosen slices emptied: bit i of the choice is for slice i, the answer's the last.
fn emptied(call: &Call, choice: usize) -> Call {
    let mut call = call.clone();
    let given = call.given.len();
    for i in (0..given + call.lent.len() + 1).filter(|i| choice >> i & 1 == 1) {
        if i < given {
            call.given[i].clear();
        } else if let Some(room) = call.lent.get_mut(i - given) {
            *room = 0;
        } else {
            call.answer = 0;
        }
    }
    call
}

/// Random damage to random tables.
pub fn damaged(judge: &mut Judge, rng: &mut Rng, count: usize) {
    for i in 0..count {
        judge.progress("random damage", i, count);
        let good = match rng.once_in(8) {
            true => Good::of(&make::any_table(rng)),
            false => Good::of(&make::small_table(rng)),
        };
        for _ in 0..4 {
            judge.call(damage::encode(rng, &good));
            judge.call(damage::decode(rng, &good));
        }
    }
}
