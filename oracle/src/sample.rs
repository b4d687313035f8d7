//! The cases that are recorded: some hundreds of small ones, chosen from a seed.

use crate::call::{numbers, Call, Entry};
use crate::columns::{Column, BOOL, FIXED_BINARY, VARIABLE};
use crate::crate_side;
use crate::damage::Good;
use crate::hostile;
use crate::make::{self, Nulls};
use crate::model;
use crate::record::Case;
use crate::rng::Rng;
use crate::table::Table;
use std::collections::BTreeMap;

/// Calls to choose from.
const CALLS: usize = 400_000;
/// The entries that these are of: the program `vectors` has no line for the others.
const RECORDED: [Entry; 5] = [
    Entry::CheckList,
    Entry::Measure,
    Entry::Encode,
    Entry::Decode,
    Entry::Compare,
];
/// How many calls of each sort are kept.
const KEPT: usize = 2;
/// The most bytes that a chosen call reads, and the most that it lends for rows or a sheet.
const MOST: usize = 150;
const MOST_ROOM: usize = 40;

/// Accepted sheets, refused calls, compared rows.
pub fn cases(rng: &mut Rng) -> Vec<Case> {
    let tables = tables(rng);
    let mut calls = chosen(rng);
    calls.extend(lists());
    calls.extend(row_counts());
    calls.extend(tables.iter().step_by(24).flat_map(short_rooms));
    calls.extend(tables.iter().step_by(8).filter_map(first_two_rows));
    let spare = [0, 0, 1, 3].into_iter().cycle();
    let sheets = tables.into_iter().zip(spare);
    let sheets = sheets.map(|(table, spare)| Case::Sheet(table, spare));
    sheets.chain(calls.into_iter().map(Case::Call)).collect()
}

/// Every kind and option, with nulls and without; every boundary length and option; every pattern of
/// nulls at every small row count; slices; the widest fixed binary; one to sixteen columns, and as
/// many as there may be.
fn tables(rng: &mut Rng) -> Vec<Table> {
    let mut tables = Vec::new();
    for options in make::OPTIONS {
        let columns = make::every_column(options).into_iter();
        for column in columns.filter(|column| column.width <= 32) {
            for nulls in [Nulls::None, Nulls::Alternating] {
                if column.required && !matches!(nulls, Nulls::None) {
                    continue;
                }
                tables.push(make::one_column(rng, column, 3, nulls, &[0, 1, 8, 9]));
            }
        }
    }
    for options in make::ORDERS {
        for length in make::LENGTHS {
            let column = Column::new(VARIABLE, options);
            tables.push(make::one_column(rng, column, 1, Nulls::None, &[length]));
        }
    }
    for length in make::LONG_LENGTHS
        .into_iter()
        .filter(|length| *length < 300)
    {
        let column = Column::new(VARIABLE, 3);
        tables.push(make::one_column(rng, column, 1, Nulls::None, &[length]));
    }
    for nulls in make::NULLS {
        for rows in make::ROW_COUNTS {
            for kind in [BOOL, 6, VARIABLE] {
                let column = Column::new(kind, rows as u8 % 4);
                tables.push(make::one_column(rng, column, rows, nulls, &[0, 1]));
            }
        }
    }
    for first_end in make::FIRST_ENDS.into_iter().filter(|end| *end < 300) {
        for rows in [0, 1, 3] {
            let columns = vec![Column::new(VARIABLE, rows as u8); 2];
            let table = make::table_with(rng, rows, columns, Nulls::Random, &[0, 1, 9]);
            tables.push(make::sliced(rng, table, first_end));
        }
    }
    for nulls in [Nulls::None, Nulls::All] {
        let column = Column::fixed_binary(model::MAX_WIDTH, 1);
        tables.push(make::one_column(rng, column, 1, nulls, &[]));
    }
    for count in (1..=16).chain([32, 51, 63, 64]) {
        let columns = make::columns_from(count, count as usize, count % 16);
        tables.push(make::table_with(rng, 2, columns, Nulls::Random, &[0, 1, 9]));
    }
    tables
}

/// Every fault of a list at the first, the second, the sixty-fourth and the sixty-fifth column.
fn lists() -> Vec<Call> {
    let faults: [&[u8]; 9] = [
        &[0, 0],
        &[19, 0],
        &[1],
        &[FIXED_BINARY, 0, 0],
        &[1, 8],
        &[9, 8],
        &[12, 16],
        &[FIXED_BINARY, 0, 1, 4],
        &[FIXED_BINARY, 3, 0xFF, 0xFF],
    ];
    let mut calls = vec![Call::encode(&[], 0, &[], 0, 8)];
    for before in [0, 1, model::MAX_COLUMNS - 1, model::MAX_COLUMNS] {
        for fault in faults {
            let list = [&[1, 0].repeat(before), fault].concat();
            calls.push(Call::encode(&list, 0, &[], 0, 8));
            calls.push(Call::decode(&list, 0, &[], &[0; 8], 0));
        }
    }
    calls
}

/// Row counts around the ceiling, and the largest number; the first is refused for what is missing.
fn row_counts() -> Vec<Call> {
    let counts = [model::MAX_ROWS, model::MAX_ROWS + 1, u64::MAX];
    let calls = counts.map(|n| {
        [
            Call::encode(&[1, 0], n, &[], 0, 8),
            Call::decode(&[1, 0], n, &[], &[0; 8], 0),
        ]
    });
    calls.concat()
}

/// One row byte, offset or sheet byte less than a table needs.
fn short_rooms(table: &Table) -> Vec<Call> {
    let good = Good::of(table);
    let [mut rows, mut offsets] = [good.encode(), good.encode()];
    let [mut given, mut sheet] = [good.decode(), good.decode()];
    rows.lent[0] = rows.lent[0].saturating_sub(1);
    offsets.lent[1] -= 8;
    given.given[2].truncate(8 * table.rows);
    sheet.lent[0] = sheet.lent[0].saturating_sub(1);
    let calls = [rows, offsets, given, sheet].into_iter();
    calls.filter(|call| sort(call).is_some()).collect()
}

/// The first two rows that the crate writes, to compare.
fn first_two_rows(table: &Table) -> Option<Call> {
    let (rows, offsets) = crate_side::encode(table);
    match crate_side::cut(&rows, &offsets)[..] {
        [first, second, ..] => Some(Call::compare(first, second)),
        _ => None,
    }
}

/// What tells one sort of call from another: the entry, what it answers, whether that is about the
/// first place, row and column or a later one, and the kind of the column at fault.
type Sort = (&'static str, u64, bool, u8);

/// The sort of a call; none of one that is accepted.
fn sort(call: &Call) -> Option<Sort> {
    let exit = call.expected();
    let [number, b, c, _] = numbers(&exit.answer)[..] else {
        panic!("an answer is four numbers");
    };
    let column = match number {
        7..=10 | 27 => b,
        16..=21 | 28 => c,
        _ => u64::MAX,
    };
    let columns = model::read_list(&call.given[0]).unwrap_or_default();
    let kind = columns.get(column as usize).map_or(0, |column| column.kind);
    match (call.entry, number) {
        (Entry::Compare, _) => Some(("compare", (exit.sign + 1) as u64, false, 0)),
        (Entry::Encode | Entry::Decode, 1..) => {
            Some((call.entry.name(), number, b > 0 || c > 0, kind))
        }
        _ => None,
    }
}

/// The smallest calls of each sort. Refusals 12 and 23 need more bytes than are kept here.
fn chosen(rng: &mut Rng) -> Vec<Call> {
    let mut kept: BTreeMap<Sort, Vec<Call>> = BTreeMap::new();
    for _ in 0..CALLS {
        let call = hostile::call_among(rng, &RECORDED).answer(station::ANSWER_BYTES);
        let room = call.lent.iter().max().copied().unwrap_or(0);
        if call.size() > MOST || room > MOST_ROOM {
            continue;
        }
        let Some(sort) = sort(&call) else {
            continue;
        };
        let calls = kept.entry(sort).or_default();
        if !calls.contains(&call) {
            calls.push(call);
            calls.sort_by_key(Call::size);
            calls.truncate(KEPT);
        }
    }
    kept.into_values().flatten().collect()
}
