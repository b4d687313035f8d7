//! The runs of the oracle on lists that are read once (document 02, request 6): what the reading
//! writes and refuses, and descriptions that no reading could have made.

use crate::call::Call;
use crate::columns::{list_of, Column, FIXED_BINARY, FLOATS, VARIABLE};
use crate::damage::{self, Good};
use crate::judge::Judge;
use crate::make::{self, Nulls};
use crate::model::MAX_COLUMNS;
use crate::rng::Rng;

/// Lists of one to sixty-six columns, with room for each count of descriptions around theirs, tails of
/// one to three bytes, and the list at fault in its last column; every list of two bytes.
pub fn lists(judge: &mut Judge) {
    for count in 1..=MAX_COLUMNS + 2 {
        let kinds = make::columns_from(count as u8, count, count as u8 % 16);
        for columns in [kinds, vec![Column::fixed_binary(1024, 7); count]] {
            let good = list_of(&columns);
            let unknown = [&good[..], &[0]].concat();
            for list in [&good, &unknown, &good[..good.len() - 1].to_vec()] {
                for room in (0..8).chain(4 * count - 5..4 * count + 6) {
                    judge.call(Call::read_list(list, room));
                }
            }
        }
    }
    for (kind, options) in (0..=255).flat_map(|kind| (0..=255).map(move |o| (kind, o))) {
        if kind < 24 || options < 2 {
            judge.call(Call::read_list(&[kind, options], 5));
        }
    }
}

/// Descriptions with each byte set to each value, in measure, encode and decode; every fault at every
/// index up to the sixty-seventh, alone and with another after it; tails; none at all.
pub fn descriptions(judge: &mut Judge, rng: &mut Rng) {
    let columns = make::every_column(2).into_iter();
    for column in columns.filter(|column| column.width <= 32) {
        judge.progress("damaged descriptions", column.kind as usize, 18);
        let columns = vec![Column::new(6, 0), column];
        let table = make::table_with(rng, 2, columns, Nulls::Random, &[0, 1, 9]);
        every_change(judge, &Good::of(&table));
    }
    let faults: [[u8; 4]; 12] = [
        [0, 0, 0, 0],
        [19, 0, 0, 0],
        [255, 255, 255, 255],
        [1, 8, 0, 0],
        [VARIABLE, 128, 0, 0],
        [*FLOATS.end(), 16, 1, 0],
        [FIXED_BINARY, 8, 1, 4],
        [FIXED_BINARY, 0, 1, 4],
        [FIXED_BINARY, 0, 0, 128],
        [4, 0, 4, 0],
        [VARIABLE, 0, 0, 1],
        [VARIABLE, 3, 0, 0],
    ];
    for before in 0..=MAX_COLUMNS + 2 {
        for fault in faults {
            for after in [&[][..], &[0, 255, 255, 255], &[1, 0, 0]] {
                let good = [15, 3, 0, 0].repeat(before);
                under(judge, &[&good[..], &fault, after].concat());
            }
        }
    }
    for len in 0..12 {
        under(judge, &[1, 0, 0, 0].repeat(3)[..len]);
    }
}

/// Each entry under these descriptions, with a sheet and rows of no rows.
fn under(judge: &mut Judge, descriptions: &[u8]) {
    for call in [
        Call::measure(&[], 0, &[]),
        Call::encode(&[], 0, &[], 0, 8),
        Call::decode(&[], 0, &[], &[0; 8], 8),
    ] {
        judge.call(call.under(descriptions).expect("an entry with a list"));
    }
}

/// Each byte of the descriptions set to each value.
fn every_change(judge: &mut Judge, good: &Good) {
    for call in good.reads() {
        for at in 0..call.given[0].len() {
            for value in 0..=255 {
                let mut changed = call.clone();
                changed.given[0][at] = value;
                judge.call(changed);
            }
        }
    }
}

/// Random damage to lists that are read and to what was read.
pub fn damaged(judge: &mut Judge, rng: &mut Rng, count: usize) {
    for i in 0..count {
        judge.progress("random damage to descriptions", i, count);
        let table = match rng.once_in(8) {
            true => make::any_table(rng),
            false => make::small_table(rng),
        };
        let good = Good::of(&table);
        judge.call(damage::read(rng, &good));
        judge.call(damage::read(rng, &good));
    }
}
