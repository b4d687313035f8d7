//! The runs of the oracle on the join of two passes (document 02, request 1): passes that are joined,
//! every refusal, and damage.

use crate::call::{eights, Call};
use crate::crate_side;
use crate::damage;
use crate::judge::Judge;
use crate::make;
use crate::model::{MAX_ROWS, MAX_TOTAL};
use crate::rng::Rng;
use crate::table::Table;

/// The rows of a pass.
pub type Pass = Vec<Vec<u8>>;

/// Pass 0 and pass 1.
pub type Passes = [Pass; 2];

/// Lengths of equal beginnings, around the words that a comparison may go by.
const BEGINNINGS: [usize; 13] = [0, 1, 2, 3, 7, 8, 9, 15, 16, 17, 31, 32, 33];

/// The join of two passes as they are, with exact room.
pub fn join(passes: &Passes) -> Call {
    let [first, second] = passes.each_ref().map(|pass| {
        let mut offsets = vec![0];
        for row in pass {
            offsets.push(offsets[offsets.len() - 1] + row.len() as u64);
        }
        [pass.concat(), eights(&offsets)]
    });
    let counts = passes.each_ref().map(|pass| pass.len() as u64);
    let room = 8 * counts.iter().sum::<u64>() as usize;
    let lent = [&first, &second].map(|pass| pass.each_ref().map(Vec::as_slice));
    Call::join(counts, lent, room)
}

fn sorted(mut pass: Pass) -> Pass {
    pass.truncate(MAX_ROWS as usize);
    pass.sort();
    pass
}

/// The rows of a sheet, as the crate writes them.
fn rows_of(table: &Table) -> Pass {
    let (rows, offsets) = crate_side::encode(table);
    let rows = crate_side::cut(&rows, &offsets);
    rows.into_iter().map(<[u8]>::to_vec).collect()
}

/// Two sorted passes, the first of them a table's: some rows twice in their pass, some in both.
fn passes_of(rng: &mut Rng, table: &Table) -> Passes {
    let rows = rng.below(table.rows + 1);
    let other = make::table_of(rng, rows, table.columns.clone());
    let [mut first, mut second] = [rows_of(table), rows_of(&other)];
    let twice = first.iter().step_by(rng.below(5) + 2).cloned();
    first.extend(twice.collect::<Pass>());
    second.extend(first.iter().step_by(rng.below(5) + 2).cloned());
    [sorted(first), sorted(second)]
}

/// Rows of any bytes, few different ones, with equal beginnings.
fn any_row(rng: &mut Rng) -> Vec<u8> {
    let (beginning, count) = (rng.pick(&BEGINNINGS), rng.below(12));
    let mut row = vec![rng.pick(&[0x00, 0x61, 0xFF]); beginning];
    match rng.once_in(2) {
        true => row.extend(rng.bytes(count)),
        false => row.extend((0..count).map(|_| rng.pick(&[0x00, 0x7F, 0x80, 0xFF]))),
    }
    row
}

/// Two sorted passes of rows that are no fields of anything, up to `most` of them each.
fn any_passes(rng: &mut Rng, most: usize) -> Passes {
    [(); 2].map(|()| {
        let count = rng.below(most + 1);
        sorted((0..count).map(|_| any_row(rng)).collect())
    })
}

/// Two sorted passes, mostly small: rows of sheets, or any bytes.
pub fn some_passes(rng: &mut Rng) -> Passes {
    match rng.once_in(2) {
        true => any_passes(rng, 8),
        false => {
            let table = make::small_table(rng);
            passes_of(rng, &table)
        }
    }
}

/// Passes that are joined: random ones; none, one or both of them empty; all rows equal; every other
/// row; a beginning of rows in each length; and as many rows as there may be.
pub fn joined(judge: &mut Judge, rng: &mut Rng, count: usize) {
    for i in 0..count {
        judge.progress("random passes", i, count);
        let passes = match rng.once_in(20) {
            true => {
                let table = make::any_table(rng);
                passes_of(rng, &table)
            }
            false => some_passes(rng),
        };
        with_empty(judge, &passes);
        // Row bytes past the last offset, offsets past index n, and the list past the order, mean nothing.
        let (mut call, more) = (join(&passes), rng.below(20));
        call.given
            .iter_mut()
            .for_each(|bytes| bytes.extend(rng.bytes(more)));
        call.lent[0] += more;
        judge.call(call);
    }
    for counts in [[1, 1], [2, 3], [5, 1], [0, 4], [9, 9]] {
        judge.call(join(&counts.map(|count| vec![b"ink".to_vec(); count])));
        judge.call(join(&counts.map(|count| vec![vec![]; count])));
    }
    for length in BEGINNINGS {
        let steps = |odd: u8| (0..6).map(move |i| [vec![7; length], vec![2 * i + odd]].concat());
        let longer = |more: usize| (0..6).map(move |i| vec![7; length + 2 * i + more]);
        for (first, second) in [(0, 1), (1, 0), (0, 0)] {
            judge.call(join(&[first, second].map(|odd| steps(odd).collect())));
            judge.call(join(
                &[first as usize, second as usize].map(|more| longer(more).collect()),
            ));
        }
    }
    full(judge, rng);
}

/// The passes as they are, in the other order, and each with none and with itself.
fn with_empty(judge: &mut Judge, [first, second]: &Passes) {
    let pairs = [
        (first, second),
        (second, first),
        (first, &vec![]),
        (&vec![], first),
        (first, first),
    ];
    for (a, b) in pairs {
        judge.call(join(&[a.clone(), b.clone()]));
    }
}

/// 4,096 rows in each pass: of sheets, and of bytes that are nearly all equal.
fn full(judge: &mut Judge, rng: &mut Rng) {
    let rows = MAX_ROWS as usize;
    for options in make::ORDERS {
        judge.progress("4,096 rows to join", options as usize, 4);
        let columns = make::columns_from(6, 4, options);
        let table = make::table_of(rng, rows, columns);
        let [first, _] = passes_of(rng, &table);
        let [other, _] = passes_of(rng, &table);
        judge.call(join(&[first, other]));
    }
    let many = [(); 2].map(|()| sorted((0..rows).map(|_| any_row(rng)).collect()));
    judge.call(join(&many));
    let mut short = join(&many);
    short.lent[0] -= 1;
    judge.call(short);
}

/// What is refused: each fault of each pass, alone and with faults that come later.
pub fn refused(judge: &mut Judge, rng: &mut Rng) {
    for count in 0..10 {
        let passes = [0u8, 1].map(|odd| (0..count).map(|i| vec![2 * i + odd; 3]).collect());
        for which in 0..2 {
            out_of_order(judge, &passes, which);
            offsets(judge, &passes, which);
        }
        rooms(judge, &passes);
    }
    steps_down(judge);
    ceilings(judge);
    for _ in 0..400 {
        let passes = some_passes(rng);
        rooms(judge, &passes);
        for which in 0..2 {
            out_of_order(judge, &passes, which);
        }
    }
}

/// A call of a join with one of its passes replaced by what is wrong, and what comes after it right,
/// wrong in each pass's way, or missing: of two faults the first counts.
fn with_later_faults(judge: &mut Judge, call: &Call, which: usize) {
    judge.call(call.clone());
    let mut short = call.clone();
    short.lent[0] = short.lent[0].saturating_sub(8);
    judge.call(short);
    if which == 0 {
        judge.call(call.clone().with_number(1, 4097));
        let mut cut = call.clone();
        cut.given[3].clear();
        judge.call(cut);
    }
}

/// 26 at each row: a row put in front of its predecessor, and the first row put after each.
fn out_of_order(judge: &mut Judge, passes: &Passes, which: usize) {
    for r in 1..passes[which].len() {
        let mut swapped = passes.clone();
        swapped[which].swap(r - 1, r);
        let mut moved = passes.clone();
        moved[which][..=r].rotate_left(1);
        for wrong in [swapped, moved] {
            with_later_faults(judge, &join(&wrong), which);
        }
    }
}

/// 6, 14 and 15: counts over the ceiling, offsets too few, each offset falling or past the rows.
fn offsets(judge: &mut Judge, passes: &Passes, which: usize) {
    let (good, slot) = (join(passes), 2 * which + 1);
    for n in [MAX_ROWS, MAX_ROWS + 1, u64::MAX] {
        let call = good.clone().with_number(which, n);
        with_later_faults(judge, &call, which);
    }
    let rows = good.given[2 * which].len() as u64;
    for at in (0..good.given[slot].len()).step_by(8) {
        for wrong in [0, 1, rows, rows + 1, u64::MAX] {
            let mut call = good.clone();
            call.given[slot][at..at + 8].copy_from_slice(&wrong.to_le_bytes());
            with_later_faults(judge, &call, which);
        }
        for less in [at, at + 7] {
            let mut call = good.clone();
            call.given[slot].truncate(less);
            with_later_faults(judge, &call, which);
        }
    }
}

/// Rooms around what is needed, and answers around 32 bytes.
fn rooms(judge: &mut Judge, passes: &Passes) {
    let good = join(passes);
    for less in 0..18 {
        let mut call = good.clone();
        call.lent[0] = (call.lent[0] + 9).saturating_sub(less);
        judge.call(call);
    }
    for answer in [0, 1, 8, 24, 31, 32, 33, 40] {
        judge.call(good.clone().answer(answer));
    }
}

/// Two rows of which the second is below the first, from each place on; and the same two the other way
/// round, and equal.
fn steps_down(judge: &mut Judge) {
    for length in BEGINNINGS {
        for rest in [0, 1, 9] {
            let row = |byte: u8, rest: usize| [vec![7; length], vec![byte], vec![9; rest]].concat();
            let shorter = vec![7; length];
            let pairs = [
                [row(0x80, rest), row(0x7F, 9)],
                [row(1, 0), row(0, rest)],
                [row(0, rest), shorter],
                [row(3, rest), row(3, rest)],
            ];
            for [high, low] in pairs {
                for pass in [
                    vec![high.clone(), low.clone()],
                    vec![low.clone(), high.clone()],
                ] {
                    judge.call(join(&[pass.clone(), vec![]]));
                    judge.call(join(&[vec![high.clone()], pass]));
                }
            }
        }
    }
}

/// Row bytes at 16,777,216 and one over, in each pass, in order and out of it: 12 comes before 26.
fn ceilings(judge: &mut Judge) {
    for which in 0..2 {
        for total in [MAX_TOTAL as usize, MAX_TOTAL as usize + 1] {
            for rows in [
                vec![vec![], vec![3; total]],
                vec![vec![3; total - 1], vec![2]],
            ] {
                judge.progress("row bytes of a pass at the ceiling", which, 2);
                let mut passes = [vec![], vec![vec![1]]];
                passes[which] = rows;
                judge.call(join(&passes));
            }
        }
    }
}

/// Random damage to random passes.
pub fn damaged(judge: &mut Judge, rng: &mut Rng, count: usize) {
    for i in 0..count {
        judge.progress("random damage to passes", i, count);
        let passes = some_passes(rng);
        for _ in 0..4 {
            judge.call(damage::join(rng, join(&passes)));
        }
    }
}
