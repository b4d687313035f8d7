//! Holds the station against the crate and the model, counts, and reports the smallest failure.

use crate::call::{eights, junk, numbers, Call, Entry, Exit, Lending, ENTRIES};
use crate::crate_side;
use crate::hex::hex_start;
use crate::model;
use crate::order::row_order;
use crate::shrink::{shrunk_call, shrunk_table};
use crate::stack::{self, Stacks};
use crate::table::Table;
use crate::yard::Yard;
use std::collections::BTreeMap;
use std::process::ExitCode;
use std::time::{Duration, Instant};

/// Of so many calls under a list that can be read, one is made again under its descriptions.
const READ_AGAIN: u64 = 4;
/// Pairs of rows that are compared in each table.
const PAIRS: usize = 64;

/// What was done.
#[derive(Default)]
struct Tally {
    tables: u64,
    rows: u64,
    row_bytes: u64,
    pairs: u64,
    calls: [u64; ENTRIES.len()],
    /// How often each number was answered: 0, and refusals.
    answers: BTreeMap<u64, u64>,
    short_answers: u64,
    null_calls: u64,
    refusals: u64,
    /// Calls under a list, of which some are made again under its descriptions.
    listed: u64,
}

/// An input that fails, with what was wrong when it was found.
enum Failing {
    Table(Table, String),
    Call(Call, String),
    Other(String),
}

impl Failing {
    fn size(&self) -> usize {
        match self {
            Failing::Table(table, _) => table.list().len() + table.sheet().len(),
            Failing::Call(call, _) => call.size(),
            Failing::Other(text) => text.len(),
        }
    }
}

pub struct Judge {
    yard: Yard,
    /// A stack for each entry; none where the slices lie on the heap, for a checker of memory.
    stacks: Option<Stacks>,
    tally: Tally,
    started: Instant,
    shown: Instant,
    failures: u64,
    smallest: Option<Failing>,
}

impl Judge {
    pub fn new(yard: Yard) -> Judge {
        Judge {
            stacks: yard.is_fenced().then(Stacks::painted),
            yard,
            tally: Tally::default(),
            started: Instant::now(),
            shown: Instant::now(),
            failures: 0,
            smallest: None,
        }
    }

    /// A line on standard error, every few seconds.
    pub fn progress(&mut self, stage: &str, done: usize, all: usize) {
        if self.shown.elapsed() > Duration::from_secs(5) {
            self.shown = Instant::now();
            let seconds = self.started.elapsed().as_secs();
            let failures = self.failures;
            eprintln!("  {stage}: {done} of {all}, {seconds} s, {failures} failures");
        }
    }

    /// One call: the station must leave behind exactly what document 01 says. Now and then it is made
    /// again with the list read before.
    pub fn call(&mut self, call: Call) {
        self.tally.listed += call.entry.read().is_some() as u64;
        let again = match self.tally.listed % READ_AGAIN {
            0 => call.read(),
            _ => None,
        };
        self.call_as_is(call);
        if let Some(again) = again {
            self.call_as_is(again);
        }
    }

    fn call_as_is(&mut self, call: Call) {
        if let Err(fault) = self.hold(&call) {
            self.failed(Failing::Call(call, fault));
        }
    }

    /// One table: the station's rows must be the crate's, and all that follows from it.
    pub fn table(&mut self, table: &Table) {
        if let Err(fault) = self.hold_table(table) {
            self.failed(Failing::Table(table.clone(), fault));
        }
    }

    /// Anything else that must hold, or else what is wrong.
    pub fn ensure(&mut self, held: bool, fault: impl FnOnce() -> String) {
        if !held {
            self.failed(Failing::Other(fault()));
        }
    }

    fn failed(&mut self, failing: Failing) {
        self.failures += 1;
        let smaller = |least: &Failing| failing.size() < least.size();
        if self.smallest.as_ref().is_none_or(smaller) {
            self.smallest = Some(failing);
        }
    }

    /// A slice of no bytes is lent as a place first, and then as a null pointer. Where nothing but the
    /// answer may be written, all else is shut.
    fn hold(&mut self, call: &Call) -> Result<(), String> {
        let (expected, shut) = call.expected_or_stays();
        self.count(call.entry, &expected);
        self.tally.refusals += shut as u64;
        self.hold_lent(call, &expected, Lending { nulls: false, shut })?;
        if call.has_empty() {
            self.tally.null_calls += 1;
            self.hold_lent(call, &expected, Lending { nulls: true, shut })?;
        }
        Ok(())
    }

    fn hold_lent(&mut self, call: &Call, expected: &Exit, lending: Lending) -> Result<(), String> {
        let exit = call.performed(&mut self.yard, self.stacks.as_mut(), lending)?;
        ensure(exit == *expected, || {
            let nulls = if lending.nulls { ", null pointers" } else { "" };
            format!("document 01: {expected}\n  the station{nulls}: {exit}")
        })
    }

    fn count(&mut self, entry: Entry, exit: &Exit) {
        self.tally.calls[entry as usize] += 1;
        match numbers(&exit.answer)[..] {
            _ if entry == Entry::Compare => {}
            [number, _, _, _, ..] => *self.tally.answers.entry(number).or_default() += 1,
            _ => self.tally.short_answers += 1,
        }
    }

    fn hold_table(&mut self, table: &Table) -> Result<(), String> {
        let (rows, offsets) = crate_side::encode(table);
        self.tally.tables += 1;
        self.tally.rows += table.rows as u64;
        self.tally.row_bytes += rows.len() as u64;
        hold_model(table, &rows, &offsets)?;
        self.hold_entries(table, &rows, &offsets)?;
        hold_bindings(table, &rows, &offsets)?;
        let folded = table.folded();
        hold_crate_decoders(&folded, &rows, &offsets)?;
        self.hold_order(&folded, &rows, &offsets)
    }

    /// The C entries, each slice fenced, with exact room and with a little more; row bytes past the
    /// last offset and offsets past index n mean nothing.
    fn hold_entries(&mut self, table: &Table, rows: &[u8], offsets: &[u64]) -> Result<(), String> {
        let (list, sheet, n) = (table.list(), table.sheet(), table.rows as u64);
        let more = table.rows % 3 * 5;
        let rows = [rows, &junk(more)].concat();
        let offsets = [eights(offsets), junk(more)].concat();
        let sheet_room = table.cleared().sheet().len() + more;
        self.hold(&Call::check_list(&list))?;
        self.hold(&Call::read_list(&list, 4 * table.columns.len() + more))?;
        for call in [
            Call::measure(&list, n, &sheet),
            Call::encode(&list, n, &sheet, rows.len(), offsets.len()),
            Call::decode(&list, n, &rows, &offsets, sheet_room),
        ] {
            self.hold(&call)?;
            self.hold_read(&call)?;
        }
        Ok(())
    }

    /// The same call under the descriptions of its list: the same answer, and the same bytes.
    fn hold_read(&mut self, call: &Call) -> Result<(), String> {
        let read = call.read().ok_or("a list that cannot be read")?;
        ensure(read.expected() == call.expected(), || {
            "the model's two ways differ".to_string()
        })?;
        self.hold(&read)
    }

    /// Compare against the order of slices, and that against the order of values.
    fn hold_order(&mut self, table: &Table, rows: &[u8], offsets: &[u64]) -> Result<(), String> {
        let rows = crate_side::cut(rows, offsets);
        for i in 0..rows.len().min(PAIRS) {
            for j in [(i + 1) % rows.len(), (7 * i + 3) % rows.len()] {
                self.tally.pairs += 1;
                let order = rows[i].cmp(rows[j]);
                ensure(station::compare(rows[i], rows[j]) == order, || {
                    format!("rows {i} and {j} do not compare as their bytes")
                })?;
                ensure(row_order(table, i, j) == order, || {
                    format!("the bytes of rows {i} and {j} are not in the order of their values")
                })?;
            }
        }
        match rows[..] {
            [first, .., last] => self.hold(&Call::compare(first, last)),
            _ => Ok(()),
        }
    }

    /// Prints what was done; a failure is made small first, and printed in hex. Refusals in `needed`
    /// must all have been seen.
    pub fn finish(mut self, needed: impl IntoIterator<Item = u64>) -> ExitCode {
        let answers = &self.tally.answers;
        let needed = needed.into_iter();
        let unseen: Vec<u64> = needed.filter(|i| !answers.contains_key(i)).collect();
        self.ensure(unseen.is_empty(), || {
            format!("no call was answered with {unseen:?}")
        });
        self.hold_stacks();
        self.print_tally();
        match self.smallest.take() {
            None => {
                println!("all agree");
                ExitCode::SUCCESS
            }
            Some(failing) => {
                println!("{} FAILURES; the smallest:", self.failures);
                println!("{}", self.described(failing));
                ExitCode::FAILURE
            }
        }
    }

    /// No call took more stack than the header says, and the README says the same.
    fn hold_stacks(&mut self) {
        let Some(stacks) = self.stacks.take() else {
            return;
        };
        let mut figures = Vec::new();
        for entry in ENTRIES {
            let name = entry.name();
            for rows in stack::ROWS {
                let (taken, promised) = (stacks.deepest(entry, rows), stack::promised(entry, rows));
                figures.push(format!("{name} ({rows:?}) {taken} of {promised}"));
                self.ensure(taken <= promised, || {
                    format!("{name} took {taken} bytes of stack, over the {promised} that station.h says ({rows:?} rows)")
                });
            }
            self.ensure(stack::is_in_readme(entry), || {
                format!("the README says another stack of {name}")
            });
        }
        println!("most bytes of stack: {}", figures.join(", "));
    }

    fn print_tally(&self) {
        let tally = &self.tally;
        if tally.tables > 0 {
            println!(
                "accepted sheets {}, rows {}, row bytes {}, pairs of rows compared {}",
                tally.tables, tally.rows, tally.row_bytes, tally.pairs
            );
        }
        let calls = ENTRIES.iter().zip(tally.calls);
        let calls: Vec<String> = calls.map(|(e, n)| format!("{} {n}", e.name())).collect();
        println!(
            "fenced calls: {}; refused, with what must stay shut: {}; again with null pointers: {}",
            calls.join(", "),
            tally.refusals,
            tally.null_calls
        );
        let answers = tally.answers.iter();
        let answers: Vec<String> = answers.map(|(i, n)| format!("{i}: {n}")).collect();
        println!(
            "answers: {}; too short for an answer: {}",
            answers.join(", "),
            tally.short_answers
        );
        println!("time: {:.1} s", self.started.elapsed().as_secs_f64());
    }

    /// A failing input, made small, and what is wrong with it.
    fn described(&mut self, failing: Failing) -> String {
        match failing {
            Failing::Other(fault) => fault,
            Failing::Call(call, first) => {
                let call = shrunk_call(call, |call| self.hold(call).is_err());
                let fault = self.hold(&call).err().unwrap_or(first);
                format!("  {call}\n  {fault}")
            }
            Failing::Table(table, first) => {
                let table = shrunk_table(table, |table| self.hold_table(table).is_err());
                let fault = self.hold_table(&table).err().unwrap_or(first);
                let (rows, offsets) = crate_side::encode(&table);
                let rows = hex_start(&rows);
                format!("  {table}\n  {fault}\n  the crate: rows {rows} offsets {offsets:?}")
            }
        }
    }
}

fn ensure(held: bool, fault: impl FnOnce() -> String) -> Result<(), String> {
    match held {
        true => Ok(()),
        false => Err(fault()),
    }
}

/// The model writes what the crate writes.
fn hold_model(table: &Table, rows: &[u8], offsets: &[u64]) -> Result<(), String> {
    let (list, n, sheet) = (table.list(), table.rows as u64, table.sheet());
    let encoded = model::encode(&list, n, &sheet, rows.len(), offsets.len())
        .map_err(|numbers| format!("the model refuses what the crate encodes: {numbers:?}"))?;
    ensure(encoded.rows == rows && encoded.offsets == offsets, || {
        "the model's rows are not the crate's".to_string()
    })?;
    ensure(encoded.nulls == table.nulls(), || {
        "the model's null total is off".to_string()
    })
}

/// The safe bindings: encode, decode to the cleared sheet, encode that again.
fn hold_bindings(table: &Table, rows: &[u8], offsets: &[u64]) -> Result<(), String> {
    let (list, n, cleared) = (table.list(), table.rows as u64, table.cleared().sheet());
    let refused = |refusal: station::Refusal| format!("the station refuses: {refusal}");
    for sheet in [&table.sheet(), &cleared] {
        let encoded = station::encode_to_vec(&list, n, sheet).map_err(refused)?;
        let same_rows = encoded.bytes == rows && encoded.offsets == offsets;
        ensure(same_rows && encoded.nulls == table.nulls(), || {
            let (rows, offsets) = (hex_start(&encoded.bytes), &encoded.offsets);
            let nulls = encoded.nulls;
            format!("the station: rows {rows} offsets {offsets:?} nulls {nulls}")
        })?;
    }
    let decoded = station::decode_to_vec(&list, n, rows, offsets).map_err(refused)?;
    ensure(decoded == cleared, || {
        format!("the station decodes to {}", hex_start(&decoded))
    })?;
    let columns = station::Columns::read(&list).map_err(refused)?;
    let encoded = columns.encode_to_vec(n, &cleared).map_err(refused)?;
    let decoded = columns.decode_to_vec(n, rows, offsets).map_err(refused)?;
    ensure(encoded.bytes == rows && decoded == cleared, || {
        "the bindings differ where the list was read before".to_string()
    })
}

/// The crate's decoders give the valid slots back and leave no byte of a row.
fn hold_crate_decoders(table: &Table, rows: &[u8], offsets: &[u64]) -> Result<(), String> {
    let read = crate_side::decode(&table.columns, rows, offsets);
    ensure(read.left.iter().all(|left| *left == 0), || {
        "the crate leaves bytes of a row".to_string()
    })?;
    for (c, (read, slots)) in read.slots.iter().zip(&table.slots).enumerate() {
        let values = slots.iter().map(|slot| slot.value());
        ensure(read.iter().map(Option::as_deref).eq(values), || {
            format!("the crate decodes column {c} to other values")
        })?;
    }
    Ok(())
}
