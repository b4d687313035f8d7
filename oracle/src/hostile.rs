//! Calls with anything in them.

use crate::call::{Call, Entry, ENTRIES};
use crate::columns::descriptions_of;
use crate::comparisons;
use crate::cuts;
use crate::cutter::STATE_BYTES;
use crate::damage::{self, Good};
use crate::joins;
use crate::lookups;
use crate::make;
use crate::rng::Rng;

/// Random bytes, few or many.
fn noise(rng: &mut Rng) -> Vec<u8> {
    let count = match rng.below(10) {
        0 => 0,
        1 => rng.below(4096),
        _ => rng.below(100),
    };
    match rng.once_in(4) {
        true => vec![rng.byte(); count],
        false => rng.bytes(count),
    }
}

/// A list that may be good, whatever comes with it.
fn some_list(rng: &mut Rng) -> Vec<u8> {
    match rng.once_in(4) {
        true => noise(rng),
        false => make::small_table(rng).list(),
    }
}

/// Descriptions that may be good, whatever comes with them.
fn some_descriptions(rng: &mut Rng) -> Vec<u8> {
    match rng.once_in(4) {
        true => noise(rng),
        false => descriptions_of(&make::small_table(rng).columns),
    }
}

/// Any 64-bit number, mostly a small one.
fn some_count(rng: &mut Rng) -> u64 {
    match rng.below(4) {
        0 => rng.word(),
        1 => rng.below(5000) as u64,
        _ => rng.below(10) as u64,
    }
}

/// Offsets that rise, or noise.
fn some_offsets(rng: &mut Rng, rows: usize) -> Vec<u8> {
    if rng.once_in(3) {
        return noise(rng);
    }
    let mut offset = 0;
    let mut bytes = Vec::new();
    for _ in 0..rng.below(12) {
        bytes.extend((offset as u64).to_le_bytes());
        offset += rng.below(rows / 4 + 2);
    }
    bytes
}

/// A cutter's state that may be one, whatever comes with it.
fn some_state(rng: &mut Rng) -> Vec<u8> {
    match rng.once_in(4) {
        true => noise(rng),
        false => cuts::some_cut(rng).given.swap_remove(0),
    }
}

/// A call of an entry with slices that have nothing to do with each other.
fn noisy(rng: &mut Rng, entry: Entry) -> Call {
    let (list, n, bytes) = (some_list(rng), some_count(rng), noise(rng));
    let (room, other_room) = (rng.below(200), rng.below(200));
    match entry {
        Entry::CheckList => Call::check_list(&list),
        Entry::ReadList => Call::read_list(&list, rng.below(40)),
        Entry::Measure => Call::measure(&list, n, &bytes),
        Entry::Encode => Call::encode(&list, n, &bytes, room, other_room),
        Entry::Decode => {
            let offsets = some_offsets(rng, bytes.len());
            Call::decode(&list, n, &bytes, &offsets, room)
        }
        Entry::LookUp => {
            let (k, key) = (some_count(rng), noise(rng));
            let offsets = some_offsets(rng, bytes.len());
            Call::look_up(&list, k, &key, n, [&bytes, &offsets])
        }
        Entry::CompareSheets | Entry::ComparePairs => {
            let (n1, others, pairs) = (some_count(rng), noise(rng), noise(rng));
            let sheets = [(n, &bytes[..]), (n1, &others[..])];
            match entry {
                Entry::ComparePairs => Call::compare_pairs(&list, sheets, &pairs, room),
                _ => Call::compare_sheets(&list, sheets, [some_count(rng), some_count(rng)]),
            }
        }
        Entry::MeasureRead
        | Entry::EncodeRead
        | Entry::DecodeRead
        | Entry::LookUpRead
        | Entry::CompareSheetsRead
        | Entry::ComparePairsRead
        | Entry::CutterStartRead => {
            let listed = noisy(rng, entry.listed());
            let descriptions = some_descriptions(rng);
            listed.under(&descriptions).expect("an entry with a list")
        }
        Entry::CutterStart => {
            let room = rng.pick(&[STATE_BYTES, STATE_BYTES, room]);
            Call::cutter_start(&list, room)
        }
        Entry::Cut => Call::cut(&some_state(rng), &bytes, 8 * room),
        Entry::CutterFinish => Call::cutter_finish(&some_state(rng)),
        Entry::Join => {
            let (n1, others) = (some_count(rng), noise(rng));
            let offsets = [bytes.len(), others.len()].map(|len| some_offsets(rng, len));
            let passes = [[&bytes[..], &offsets[0]], [&others, &offsets[1]]];
            Call::join([n, n1], passes, room)
        }
        Entry::Compare => {
            // The same beginning, so that more than the first byte is looked at.
            let mut other = bytes.clone();
            damage::change(rng, &mut other);
            Call::compare(&bytes, &other)
        }
    }
}

/// Something good to damage, mostly small.
fn some_good(rng: &mut Rng) -> Good {
    Good::of(&match rng.once_in(50) {
        true => make::any_table(rng),
        false => make::small_table(rng),
    })
}

/// A call of any entry.
pub fn call(rng: &mut Rng) -> Call {
    call_among(rng, &ENTRIES)
}

/// A call of one of these entries: noise, or a good one that was damaged.
pub fn call_among(rng: &mut Rng, entries: &[Entry]) -> Call {
    let entry = rng.pick(entries);
    let mut call = match entry {
        Entry::Encode | Entry::Measure if !rng.once_in(4) => {
            let good = some_good(rng);
            damage::encode(rng, &good)
        }
        Entry::Decode if !rng.once_in(4) => {
            let good = some_good(rng);
            damage::decode(rng, &good)
        }
        Entry::ReadList | Entry::MeasureRead | Entry::EncodeRead | Entry::DecodeRead
            if !rng.once_in(4) =>
        {
            let good = some_good(rng);
            damage::read(rng, &good)
        }
        Entry::LookUp | Entry::LookUpRead if !rng.once_in(4) => {
            let good = lookups::some_look_up(rng);
            let good = match entry {
                Entry::LookUp => good,
                _ => good.read().expect("a list that can be read"),
            };
            match rng.once_in(4) {
                true => good,
                false => damage::look_up(rng, good),
            }
        }
        Entry::CompareSheets
        | Entry::CompareSheetsRead
        | Entry::ComparePairs
        | Entry::ComparePairsRead
            if !rng.once_in(4) =>
        {
            let good = comparisons::some_comparison(rng, entry.listed());
            let good = match entry.listed() == entry {
                true => good,
                false => good.read().expect("a list that can be read"),
            };
            match rng.once_in(4) {
                true => good,
                false => damage::compare(rng, good),
            }
        }
        Entry::Cut if !rng.once_in(4) => {
            let good = cuts::some_cut(rng);
            match rng.once_in(4) {
                true => good,
                false => damage::cut(rng, good),
            }
        }
        Entry::CutterFinish if !rng.once_in(4) => {
            let good = Call::cutter_finish(&cuts::some_cut(rng).given[0]);
            match rng.once_in(4) {
                true => good,
                false => damage::cut(rng, good),
            }
        }
        Entry::Join if !rng.once_in(4) => {
            let good = joins::join(&joins::some_passes(rng));
            match rng.once_in(4) {
                true => good,
                false => damage::join(rng, good),
            }
        }
        _ => noisy(rng, entry),
    };
    if rng.once_in(10) {
        call.answer = rng.below(56);
    }
    call
}
