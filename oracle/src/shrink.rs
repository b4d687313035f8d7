//! From an input that fails to a small one that still does.

use crate::call::Call;
use crate::columns::VARIABLE;
use crate::table::Table;
use std::ops::Range;
use std::time::{Duration, Instant};

/// How long smaller inputs are looked for.
const PATIENCE: Duration = Duration::from_secs(20);

/// A step to a smaller input.
type Step<T> = Box<dyn Fn(&mut T)>;

/// Takes the first step after which the input still fails, again and again.
fn shrunk<T: Clone + PartialEq>(
    start: T,
    steps: fn(&T) -> Vec<Step<T>>,
    mut fails: impl FnMut(&T) -> bool,
) -> T {
    let started = Instant::now();
    let mut best = start;
    loop {
        let next = steps(&best).into_iter().find_map(|step| {
            let mut next = best.clone();
            step(&mut next);
            let tried = next != best && started.elapsed() < PATIENCE;
            (tried && fails(&next)).then_some(next)
        });
        match next {
            Some(next) => best = next,
            None => return best,
        }
    }
}

/// A small table that still fails.
pub fn shrunk_table(table: Table, fails: impl FnMut(&Table) -> bool) -> Table {
    shrunk(table, table_steps, fails)
}

/// A small call that still fails.
pub fn shrunk_call(call: Call, fails: impl FnMut(&Call) -> bool) -> Call {
    shrunk(call, call_steps, fails)
}

/// Parts of `len` things to leave out: all first, single ones last.
fn parts(len: usize) -> Vec<Range<usize>> {
    let mut parts = Vec::new();
    let mut size = len;
    while size > 0 {
        let starts = (0..len).step_by(size).take(64);
        parts.extend(starts.map(|start| start..len.min(start + size)));
        size /= 2;
    }
    parts
}

/// Fewer columns, fewer rows, fewer bytes before a first end, then shorter and simpler values.
fn table_steps(table: &Table) -> Vec<Step<Table>> {
    let mut steps: Vec<Step<Table>> = Vec::new();
    for part in parts(table.columns.len()) {
        if part.len() < table.columns.len() {
            steps.push(Box::new(move |table| {
                table.columns.drain(part.clone());
                table.slots.drain(part.clone());
                table.before.drain(part.clone());
            }));
        }
    }
    for part in parts(table.rows) {
        steps.push(Box::new(move |table| {
            table.rows -= part.len();
            for slots in &mut table.slots {
                slots.drain(part.clone());
            }
        }));
    }
    for (c, before) in table.before.iter().enumerate() {
        for part in parts(before.len()) {
            steps.push(Box::new(move |table| {
                table.before[c].drain(part.clone());
            }));
        }
    }
    if table.rows * table.columns.len() <= 64 {
        steps.extend(slot_steps(table));
    }
    steps
}

/// One slot shorter (variable bytes), or with zeros in it.
fn slot_steps(table: &Table) -> Vec<Step<Table>> {
    let mut steps: Vec<Step<Table>> = Vec::new();
    for (c, column) in table.columns.iter().enumerate() {
        for r in 0..table.rows {
            let len = table.slots[c][r].bytes.len();
            if column.kind == VARIABLE {
                for shorter in [len / 2, len.saturating_sub(1)] {
                    steps.push(Box::new(move |t| t.slots[c][r].bytes.truncate(shorter)));
                }
            }
            steps.push(Box::new(move |t| t.slots[c][r].bytes.fill(0)));
        }
    }
    steps
}

/// Fewer rows, fewer bytes read, fewer bits set in them, less room.
fn call_steps(call: &Call) -> Vec<Step<Call>> {
    let mut steps: Vec<Step<Call>> = Vec::new();
    for (i, number) in call.numbers.iter().copied().enumerate() {
        for less in [0, 1, number / 2, number.saturating_sub(1)] {
            steps.push(Box::new(move |call| call.numbers[i] = less.min(number)));
        }
    }
    for (i, bytes) in call.given.iter().enumerate() {
        for part in parts(bytes.len()) {
            steps.push(Box::new(move |call| {
                call.given[i].drain(part.clone());
            }));
        }
        for (at, byte) in bytes.iter().copied().enumerate().take(64) {
            for simpler in [0, byte & byte.wrapping_sub(1)] {
                steps.push(Box::new(move |call| call.given[i][at] = simpler));
            }
        }
    }
    for (i, room) in call.lent.iter().copied().enumerate() {
        for less in [0, room / 2, room.saturating_sub(8), room.saturating_sub(1)] {
            steps.push(Box::new(move |call| call.lent[i] = less));
        }
    }
    let least = call.answer.min(station::ANSWER_BYTES);
    steps.push(Box::new(move |call| call.answer = least));
    steps
}

#[cfg(test)]
mod tests {
    use super::*;
    use crate::columns::Column;
    use crate::make::{self, Nulls};
    use crate::rng::Rng;

    #[test]
    fn a_table_shrinks_to_what_fails() {
        let columns = [4, VARIABLE, 9].map(|kind| Column::new(kind, 2)).to_vec();
        let table = make::table_with(&mut Rng::new(5), 200, columns, Nulls::Random, &[40]);
        let long = |table: &Table| {
            let names = table.columns.iter().position(|c| c.kind == VARIABLE);
            names.is_some_and(|c| table.slots[c].iter().any(|slot| slot.bytes.len() >= 9))
        };
        let small = shrunk_table(table, long);
        assert_eq!((small.columns.len(), small.rows), (1, 1));
        assert_eq!(small.slots[0][0].bytes, [0; 9]);
    }

    #[test]
    fn a_call_shrinks_to_what_fails() {
        let call = Call::measure(&[5; 90], 1000, &[7; 300]);
        let small = shrunk_call(call, |call| call.given[1].contains(&7));
        assert_eq!(
            (small.numbers, small.given),
            (vec![0], vec![vec![], vec![7]])
        );
    }
}
