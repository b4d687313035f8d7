//! The runs of the oracle on rows of two sheets that are compared by their values (document 02, request
//! 14): against the bytes of their rows, every refusal, and damage.

use crate::call::{eights, Call, Entry};
use crate::columns::Column;
use crate::crate_side;
use crate::damage;
use crate::judge::Judge;
use crate::make::{self, Nulls};
use crate::model::{MAX_COLUMNS, MAX_ROWS};
use crate::rng::Rng;
use crate::sweeps;
use crate::table::Table;

/// Two tables under one list. Rows of the second are rows of the first, with a slot changed or not, and
/// now and then rows of their own.
struct Two {
    tables: [Table; 2],
}

impl Two {
    /// So many rows in each table.
    fn new(rng: &mut Rng, rows: [usize; 2], columns: Vec<Column>) -> Two {
        let [first, mut second] = rows.map(|rows| make::table_of(rng, rows, columns.clone()));
        for r in (0..rows[1]).filter(|_| rows[0] > 0) {
            let (from, changed) = (rng.below(rows[0]), rng.below(2 * columns.len()));
            for (c, slots) in second.slots.iter_mut().enumerate() {
                if c != changed && !rng.once_in(20) {
                    slots[r] = first.slots[c][from].clone();
                }
            }
        }
        Two {
            tables: [first, second],
        }
    }

    fn sheets(&self) -> [(u64, Vec<u8>); 2] {
        let sheet = |table: &Table| (table.rows as u64, table.sheet());
        self.tables.each_ref().map(sheet)
    }

    /// The comparison of one pair.
    fn compare_sheets(&self, rows: [u64; 2]) -> Call {
        let sheets = self.sheets();
        let lent = sheets.each_ref().map(|(n, sheet)| (*n, &sheet[..]));
        Call::compare_sheets(&self.tables[0].list(), lent, rows)
    }

    /// The comparison of pairs, with exact room.
    fn compare_pairs(&self, pairs: &[u64]) -> Call {
        let sheets = self.sheets();
        let lent = sheets.each_ref().map(|(n, sheet)| (*n, &sheet[..]));
        let list = self.tables[0].list();
        Call::compare_pairs(&list, lent, &eights(pairs), pairs.len() / 2)
    }

    /// Every pair of rows, or many of them.
    fn pairs(&self, rng: &mut Rng, most: usize) -> Vec<u64> {
        let [rows, others] = self.tables.each_ref().map(|table| table.rows);
        let all = rows * others;
        let pair = |i: usize| [(i / others) as u64, (i % others) as u64];
        match all <= most {
            true => (0..all).flat_map(pair).collect(),
            false => (0..most).flat_map(|_| pair(rng.below(all))).collect(),
        }
    }

    /// The station, asked by the bindings, says what its comparison of the crate's rows says.
    fn hold_bytes(&self, judge: &mut Judge, pairs: &[u64]) {
        let encoded = self.tables.each_ref().map(crate_side::encode);
        let rows = encoded
            .each_ref()
            .map(|(rows, offsets)| crate_side::cut(rows, offsets));
        let sheets = self.sheets();
        let [first, second] = sheets.each_ref().map(|(n, sheet)| (*n, &sheet[..]));
        let pairs: Vec<[u64; 2]> = pairs.chunks_exact(2).map(|p| [p[0], p[1]]).collect();
        let mut ranks = vec![9; pairs.len()];
        let list = self.tables[0].list();
        let done = station::compare_pairs(&list, first, second, &pairs, &mut ranks);
        judge.ensure(done.is_ok(), || format!("pairs are refused: {done:?}"));
        for ([i, j], rank) in pairs.iter().zip(ranks) {
            let order = station::compare(rows[0][*i as usize], rows[1][*j as usize]);
            judge.ensure(rank.cmp(&1) == order, || {
                let tables = &self.tables;
                format!("rows {i} of {} and {j} of {}: {rank}", tables[0], tables[1])
            });
        }
    }
}

/// A small comparison by one of the two entries.
pub fn some_comparison(rng: &mut Rng, entry: Entry) -> Call {
    let rows = [rng.below(6) + 1, rng.below(6) + 1];
    let columns = make::small_table(rng).columns;
    let two = Two::new(rng, rows, columns);
    match entry {
        Entry::ComparePairs => {
            let most = rng.below(9);
            two.compare_pairs(&two.pairs(rng, most))
        }
        _ => two.compare_sheets(rows.map(|rows| rng.below(rows) as u64)),
    }
}

/// Random tables; every kind and option; as many rows and columns as there may be; rows over the
/// ceiling, which are compared as any others are.
pub fn compared(judge: &mut Judge, rng: &mut Rng, count: usize) {
    for i in 0..count {
        judge.progress("rows of two sheets", i, count);
        let columns = match rng.once_in(10) {
            true => make::any_table(rng).columns,
            false => make::small_table(rng).columns,
        };
        let rows = [rng.below(7), rng.below(7)];
        let two = Two::new(rng, rows, columns);
        hold(judge, rng, &two);
    }
    for options in make::OPTIONS {
        judge.progress("rows of every kind", options as usize, 16);
        for column in make::every_column(options) {
            let two = Two::new(rng, [17, 9], vec![column]);
            hold(judge, rng, &two);
        }
    }
    for columns in [
        make::columns_from(1, 16, 2),
        make::columns_from(3, MAX_COLUMNS, 7),
    ] {
        judge.progress("4,096 rows to compare", columns.len(), 64);
        let two = Two::new(rng, [MAX_ROWS as usize; 2], columns);
        let pairs = two.pairs(rng, 4096);
        judge.call(two.compare_sheets([MAX_ROWS - 1, 7]));
        judge.call(two.compare_pairs(&pairs));
        two.hold_bytes(judge, &pairs);
    }
    let over = sweeps::over_ceiling(rng);
    let two = Two {
        tables: [over.clone(), over],
    };
    judge.call(two.compare_sheets([0, 4095]));
    judge.call(two.compare_pairs(&[3640, 3641, 4095, 4095]));
}

/// Every pair, by each entry, and by the bytes of the rows. Pairs and answers past the last pair mean
/// nothing.
fn hold(judge: &mut Judge, rng: &mut Rng, two: &Two) {
    let pairs = two.pairs(rng, 100);
    let (mut call, more) = (two.compare_pairs(&pairs), rng.below(16));
    call.given[3].extend(rng.bytes(more));
    call.lent[0] += more;
    call.read().into_iter().for_each(|read| judge.call(read));
    judge.call(call);
    for pair in pairs.chunks_exact(2).take(3) {
        judge.call(two.compare_sheets([pair[0], pair[1]]));
    }
    two.hold_bytes(judge, &pairs);
}

/// Each refusal, alone and with those that come later.
pub fn refused(judge: &mut Judge, rng: &mut Rng) {
    for _ in 0..60 {
        let columns = make::small_table(rng).columns;
        let two = Two::new(rng, [3, 2], columns);
        let pairs = two.pairs(rng, 6);
        let good = [two.compare_sheets([2, 1]), two.compare_pairs(&pairs)];
        for call in &good {
            sheet_faults(judge, call);
            for answer in [0, 1, 8, 24, 31, 32, 33, 40] {
                judge.call(call.clone().answer(answer));
            }
        }
        rows_past(judge, &two, &pairs);
        for room in 0..9 {
            let mut call = good[1].clone();
            call.lent[0] = room;
            judge.call(call);
        }
        for len in 0..good[1].given[3].len() {
            let mut call = good[1].clone();
            call.given[3].truncate(len);
            judge.call(call);
        }
    }
    nulls_by_their_slots(judge, rng);
}

/// Each sheet and each count of rows wrong, and the list; then two of them.
fn sheet_faults(judge: &mut Judge, call: &Call) {
    let second = call.numbers.len() / 2;
    let faults: [fn(&mut Call, usize); 7] = [
        |call, _| call.given[0].push(0),
        |call, _| call.numbers[0] = MAX_ROWS + 1,
        |call, _| call.given[1].truncate(1),
        |call, _| call.given[1].push(0),
        |call, second| call.numbers[second] = MAX_ROWS + 2,
        |call, _| call.given[2].truncate(1),
        |call, _| call.given[2].push(0),
    ];
    for first in faults {
        for then in faults {
            let mut wrong = call.clone();
            first(&mut wrong, second);
            then(&mut wrong, second);
            judge.call(wrong);
        }
    }
}

/// 32: each row number of each pair past its sheet, and two of them.
fn rows_past(judge: &mut Judge, two: &Two, pairs: &[u64]) {
    for past in [3, 4, MAX_ROWS, u64::MAX] {
        for rows in [[past, 0], [0, past], [past, past], [2, past], [past, 1]] {
            judge.call(two.compare_sheets(rows));
        }
        for at in 0..pairs.len() {
            let mut wrong = pairs.to_vec();
            wrong[at] = past;
            judge.call(two.compare_pairs(&wrong));
            wrong[pairs.len() - 1] = past + (at as u64 % 2);
            let mut short = two.compare_pairs(&wrong);
            short.lent[0] = 0;
            judge.call(short);
        }
    }
}

/// Nulls that hold anything, and folded floats of other bits, are equal.
fn nulls_by_their_slots(judge: &mut Judge, rng: &mut Rng) {
    for options in make::ORDERS {
        for column in make::every_column(options) {
            let tables =
                [(); 2].map(|()| make::one_column(rng, column, 4, Nulls::All, &[0, 1, 9, 40]));
            let two = Two { tables };
            let pairs = two.pairs(rng, 16);
            judge.call(two.compare_pairs(&pairs));
        }
    }
}

/// Random damage to random comparisons.
pub fn damaged(judge: &mut Judge, rng: &mut Rng, count: usize) {
    for i in 0..count {
        judge.progress("random damage to comparisons", i, count);
        for entry in [Entry::CompareSheets, Entry::ComparePairs] {
            let good = some_comparison(rng, entry);
            judge.call(damage::compare(rng, good.clone()));
            judge.call(damage::compare(rng, good));
        }
    }
}
