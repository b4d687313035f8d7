//! The runs of the oracle on the look-up (document 02, request 12): keys that are found and keys that
//! are not, every refusal, and damage.

use crate::call::{eights, Call};
use crate::columns::{list_of, Column, VARIABLE};
use crate::damage::{self, Good};
use crate::judge::Judge;
use crate::make;
use crate::model::{MAX_ROWS, MAX_TOTAL};
use crate::rng::Rng;
use crate::table::Table;

/// Places of a slice that are changed.
const MOST_PLACES: usize = 100;

/// The look-up of a key in the rows of something good.
pub fn look_up(good: &Good, k: usize, key: &[u8]) -> Call {
    let offsets = eights(&good.offsets);
    Call::look_up(&good.list, k as u64, key, good.n, [&good.rows, &offsets])
}

/// The same table with its rows in the order of their bytes.
fn sorted(mut table: Table) -> Table {
    let good = Good::of(&table);
    let mut order: Vec<usize> = (0..table.rows).collect();
    order.sort_by_key(|r| good.row(*r));
    for slots in &mut table.slots {
        *slots = order.iter().map(|r| slots[*r].clone()).collect();
    }
    table
}

/// A sorted table of few different rows: each row is one of a few, with the last columns changed.
fn batch(rng: &mut Rng, rows: usize, columns: Vec<Column>) -> Table {
    let mut table = make::table_of(rng, rows, columns);
    for r in 1..rows {
        let kept = rng.below(table.columns.len() + 1);
        let from = rng.below(r);
        table.slots[..kept]
            .iter_mut()
            .for_each(|slots| slots[r] = slots[from].clone());
    }
    sorted(table)
}

/// The bytes of the first k fields of row r.
fn key_of(table: &Table, k: usize, r: usize) -> Vec<u8> {
    let slots = table.slots[..k].iter();
    let slots = slots.map(|slots| vec![slots[r].clone()]).collect();
    Good::of(&Table::new(1, table.columns[..k].to_vec(), slots)).rows
}

/// A key under the first k columns that need not be that of a row.
fn any_key(rng: &mut Rng, table: &Table, k: usize) -> Vec<u8> {
    let columns = table.columns[..k].to_vec();
    Good::of(&make::table_of(rng, 1, columns)).rows
}

/// A look-up in a small batch.
pub fn some_look_up(rng: &mut Rng) -> Call {
    let (columns, rows) = (make::small_table(rng).columns, rng.below(9));
    let table = batch(rng, rows, columns);
    let k = rng.below(table.columns.len()) + 1;
    let key = match rows > 0 && !rng.once_in(3) {
        true => key_of(&table, k, rng.below(rows)),
        false => any_key(rng, &table, k),
    };
    look_up(&Good::of(&table), k, &key)
}

/// Every k of random batches, with the keys of their rows and others; batches of no row, of one, of
/// equal rows, and of as many rows and columns as there may be. Row bytes past the last offset, and
/// offsets past index n, mean nothing.
pub fn found(judge: &mut Judge, rng: &mut Rng, count: usize) {
    for i in 0..count {
        judge.progress("keys", i, count);
        let (columns, rows) = match rng.once_in(20) {
            true => (make::any_table(rng).columns, rng.below(40)),
            false => (make::small_table(rng).columns, rng.below(12)),
        };
        let table = batch(rng, rows, columns);
        every_key(judge, rng, &table);
    }
    for options in make::OPTIONS {
        judge.progress("keys of every kind", options as usize, 16);
        for column in make::every_column(options) {
            let columns = vec![column, Column::new(VARIABLE, options & 7)];
            let table = batch(rng, 6, columns);
            every_key(judge, rng, &table);
        }
    }
    full(judge, rng);
}

/// Each k, with the key of each row and with one more.
fn every_key(judge: &mut Judge, rng: &mut Rng, table: &Table) {
    let good = Good::of(table);
    for k in 1..=table.columns.len() {
        let mut keys: Vec<Vec<u8>> = (0..table.rows.min(8))
            .map(|r| key_of(table, k, r))
            .collect();
        keys.push(any_key(rng, table, k));
        for key in keys {
            let mut call = look_up(&good, k, &key);
            let more = rng.below(20);
            call.given[2].extend(rng.bytes(more));
            call.given[3].extend(rng.bytes(more));
            judge.call(call);
        }
    }
}

/// 4,096 rows of 16 and of 64 columns, and of one column of few values.
fn full(judge: &mut Judge, rng: &mut Rng) {
    let rows = MAX_ROWS as usize;
    for columns in [
        make::columns_from(1, 16, 2),
        make::columns_from(3, 64, 7),
        vec![Column::new(1, 2)],
    ] {
        judge.progress("4,096 rows to look up in", columns.len(), 64);
        let table = batch(rng, rows, columns);
        let (good, all) = (Good::of(&table), table.columns.len());
        for k in [1, all.div_ceil(2), all] {
            for r in [0, 1, rows / 2, rows - 1] {
                let call = look_up(&good, k, &key_of(&table, k, r));
                call.read().into_iter().for_each(|read| judge.call(read));
                judge.call(call);
            }
            judge.call(look_up(&good, k, &any_key(rng, &table, k)));
        }
    }
}

/// Each refusal, alone and with one that comes later: list faults before 31, 31 before the key's, the
/// key's before the batch's, 26 last.
pub fn refused(judge: &mut Judge, rng: &mut Rng) {
    for _ in 0..60 {
        let columns = make::small_table(rng).columns;
        let rows = rng.below(6) + 2;
        let table = batch(rng, rows, columns);
        let (good, all) = (Good::of(&table), table.columns.len());
        for k in [0, all as u64 + 1, all as u64 + 64, u64::MAX] {
            with_later_faults(judge, &look_up(&good, 1, &[]).with_number(0, k));
        }
        for k in 1..=all {
            let key = key_of(&table, k, rng.below(rows));
            every_change(judge, &look_up(&good, k, &key));
        }
        batch_faults(judge, &look_up(&good, 1, &key_of(&table, 1, 0)));
        out_of_order(judge, &table);
    }
    ceilings(judge);
    for answer in [0, 1, 8, 24, 31, 32, 33, 40] {
        judge.call(some_look_up(rng).answer(answer));
    }
}

/// The call as it is; with its list at fault; with too many rows, no offsets, and rows cut short.
fn with_later_faults(judge: &mut Judge, call: &Call) {
    judge.call(call.clone());
    let mut wrong = call.clone();
    wrong.given[0].push(0);
    judge.call(wrong);
    judge.call(call.clone().with_number(1, MAX_ROWS + 1));
    let mut wrong = call.clone();
    wrong.given[3].clear();
    judge.call(wrong);
    let mut wrong = call.clone();
    wrong.given[2].iter_mut().for_each(|byte| *byte ^= 0x55);
    judge.call(wrong);
}

/// So many places of a long slice, and every place of a short one.
fn places(len: usize) -> impl Iterator<Item = usize> {
    (0..len).step_by(len / MOST_PLACES + 1)
}

/// The key with each byte changed, each cut of it, and a byte after it.
fn every_change(judge: &mut Judge, call: &Call) {
    let key = call.given[1].clone();
    let mut with = |key: &[u8], later: bool| {
        let mut call = call.clone();
        call.given[1] = key.to_vec();
        match later {
            true => with_later_faults(judge, &call),
            false => judge.call(call),
        }
    };
    for at in places(key.len()) {
        with(&key[..at], at < 2);
        for bit in 0..8 {
            let mut changed = key.clone();
            changed[at] ^= 1 << bit;
            with(&changed, at < 2 && bit == 7);
        }
    }
    with(&[&key[..], &[0]].concat(), true);
    with(&[&key[..], &key].concat(), false);
}

/// 6, 14 and 15, and each byte of the rows changed.
fn batch_faults(judge: &mut Judge, call: &Call) {
    for n in [MAX_ROWS, MAX_ROWS + 1, u64::MAX] {
        judge.call(call.clone().with_number(1, n));
    }
    let rows = call.given[2].len() as u64;
    for at in (0..call.given[3].len()).step_by(8) {
        for wrong in [0, 1, rows, rows + 1, u64::MAX] {
            let mut changed = call.clone();
            changed.given[3][at..at + 8].copy_from_slice(&wrong.to_le_bytes());
            judge.call(changed);
        }
        let mut cut = call.clone();
        cut.given[3].truncate(at + 7);
        judge.call(cut);
    }
    for at in places(call.given[2].len()) {
        for bit in [0, 1, 7] {
            let mut changed = call.clone();
            changed.given[2][at] ^= 1 << bit;
            judge.call(changed);
        }
    }
}

/// 26 at each row: it is put before its predecessor.
fn out_of_order(judge: &mut Judge, table: &Table) {
    for r in 1..table.rows {
        let mut swapped = table.clone();
        let columns = swapped.slots.iter_mut();
        columns.for_each(|slots| slots.swap(r - 1, r));
        let good = Good::of(&swapped);
        judge.call(look_up(&good, 1, &key_of(table, 1, r)));
    }
}

/// Row bytes at 16,777,216 and one over: 12 comes before the faults of rows.
fn ceilings(judge: &mut Judge) {
    let list = list_of(&[Column::new(6, 2)]);
    for total in [MAX_TOTAL, MAX_TOTAL + 1] {
        judge.progress("row bytes at the ceiling", 0, 1);
        let (rows, offsets) = (vec![1; total as usize], eights(&[0, total]));
        judge.call(Call::look_up(&list, 1, &[1, 5], 1, [&rows, &offsets]));
    }
}

/// Random damage to random look-ups.
pub fn damaged(judge: &mut Judge, rng: &mut Rng, count: usize) {
    for i in 0..count {
        judge.progress("random damage to look-ups", i, count);
        let good = some_look_up(rng);
        for _ in 0..4 {
            judge.call(damage::look_up(rng, good.clone()));
        }
    }
}
