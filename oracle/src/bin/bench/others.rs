//! What the table has no line for: the station's join of two passes of 4,096 rows against a merge of them
//! in Rust, and against sorting; small sheets under one list, with the list's bytes in every call and with
//! the list read once; and pairs of rows of two sheets, compared by their values.

use crate::CALLS;
use oracle::columns::Column;
use oracle::crate_side;
use oracle::make::{self, Nulls};
use oracle::options::Options;
use oracle::rng::Rng;
use oracle::table::Table;
use std::hint::black_box;
use std::process::Command;
use std::time::Instant;

const ROWS: usize = 4096;
const NAME_BYTES: usize = 12;

/// The kinds of plate, glyph name, position and exposure.
const CATALOGUE: [u8; 4] = [8, 16, 12, 14];

/// The works on two passes.
const JOINS: [&str; 3] = ["rust merge", "rust sort", "station"];

/// The rows and the columns of small sheets.
const SMALL_ROWS: [usize; 3] = [1, 8, 64];
const SMALL_COLUMNS: [usize; 3] = [4, 16, 64];

/// The works on small sheets: with the list in every call, and with the list read once.
const SMALL: [&str; 6] = [
    "list-measure",
    "read-measure",
    "list-encode",
    "read-encode",
    "list-decode",
    "read-decode",
];

/// Measures what `--table` names.
pub fn measure(options: &Options) {
    match options.word("--table") {
        Some("passes") => measure_join(options),
        Some("sheets") => measure_small(options),
        _ => measure_pairs(options),
    }
}

/// The options of the columns, and where nulls are.
fn columns_said(options: &Options) -> (u8, Nulls) {
    let nulls = match options.has("--nulls") {
        true => Nulls::Random,
        false => Nulls::None,
    };
    (if options.has("--descending") { 3 } else { 2 }, nulls)
}

/// A sheet of the catalogue, with random values.
fn catalogue(order: u8, nulls: Nulls) -> Table {
    let columns = CATALOGUE.iter().map(|kind| Column::new(*kind, order));
    let columns = columns.collect();
    make::table_with(&mut Rng::new(9), ROWS, columns, nulls, &[NAME_BYTES])
}

fn median(mut times: Vec<u64>) -> u64 {
    times.sort_unstable();
    times[times.len() / 2]
}

/// Two sorted passes, and the list.
struct JoinBench {
    passes: [station::Rows; 2],
    order: Vec<u64>,
}

impl JoinBench {
    /// Rows of two sheets of the catalogue, each sorted; half of those of the second are the first's.
    fn new(order: u8, nulls: Nulls) -> JoinBench {
        let table = catalogue(order, nulls);
        let other = make::table_with(
            &mut Rng::new(10),
            ROWS,
            table.columns.clone(),
            nulls,
            &[NAME_BYTES],
        );
        let [(rows, offsets), (others, other_offsets)] = [&table, &other].map(crate_side::encode);
        let mut first = crate_side::cut(&rows, &offsets);
        let second = crate_side::cut(&others, &other_offsets)
            .into_iter()
            .step_by(2);
        let mut second: Vec<&[u8]> = second.chain(first.iter().copied().step_by(2)).collect();
        first.sort_unstable();
        second.sort_unstable();
        JoinBench {
            passes: [rows_of(&first), rows_of(&second)],
            order: vec![0; 2 * ROWS],
        }
    }

    /// The nanoseconds of one work, with the list cleared.
    fn time(&mut self, work: &str) -> u64 {
        self.order.fill(0);
        let start = Instant::now();
        match work {
            "rust merge" => self.rust_merge(),
            "rust sort" => self.rust_sort(),
            _ => self.station_join(),
        }
        start.elapsed().as_nanos() as u64
    }

    /// A merge of passes that are taken to be sorted.
    #[inline(never)]
    fn rust_merge(&mut self) {
        let [first, second] = black_box(&self.passes);
        let (mut i, mut j) = (0, 0);
        for entry in &mut self.order {
            let of_second = i == ROWS || (j < ROWS && second.row(j) < first.row(i));
            (*entry, i, j) = match of_second {
                true => ((4096 + j) as u64, i, j + 1),
                false => (i as u64, i + 1, j),
            };
        }
    }

    /// All entries sorted, as if nothing were known of the passes.
    #[inline(never)]
    fn rust_sort(&mut self) {
        let passes = black_box(&self.passes);
        self.order
            .iter_mut()
            .zip(0..)
            .for_each(|(entry, i)| *entry = i);
        let row = |entry: u64| passes[entry as usize / 4096].row(entry as usize % 4096);
        self.order
            .sort_unstable_by(|a, b| row(*a).cmp(row(*b)).then(a.cmp(b)));
    }

    #[inline(never)]
    fn station_join(&mut self) {
        let ([first, second], n) = (black_box(&self.passes), ROWS as u64);
        let (rows, others) = (&first.bytes, &second.bytes);
        let (offsets, other_offsets) = (&first.offsets, &second.offsets);
        station::join(n, rows, offsets, n, others, other_offsets, &mut self.order)
            .expect("accepted");
    }

    /// All three write the same list.
    fn check(&mut self) {
        let orders = JOINS.map(|work| {
            self.time(work);
            self.order.clone()
        });
        assert!(orders[0] == orders[1] && orders[0] == orders[2]);
    }
}

/// Rows as a batch.
fn rows_of(rows: &[&[u8]]) -> station::Rows {
    let ends = rows.iter().scan(0, |end, row| {
        *end += row.len() as u64;
        Some(*end)
    });
    station::Rows {
        bytes: rows.concat(),
        offsets: [0].into_iter().chain(ends).collect(),
        nulls: 0,
    }
}

/// Times the join, and prints what it is of the merge and of sorting.
fn measure_join(options: &Options) {
    let (order, nulls) = columns_said(options);
    let mut bench = JoinBench::new(order, nulls);
    bench.check();
    let rounds = options.number("--rounds").unwrap_or(2001) as usize;
    let mut times: [Vec<u64>; 3] = Default::default();
    for round in 0..rounds {
        for turn in 0..JOINS.len() {
            let work = (turn + round) % JOINS.len();
            times[work].push(bench.time(JOINS[work]));
        }
    }
    let bytes: usize = bench.passes.iter().map(|pass| pass.bytes.len()).sum();
    println!("passes: {ROWS} rows each, {bytes} row bytes together, medians of {rounds} rounds");
    let [merge, sort, station] = times.map(|times| median(times) as f64 / (2 * ROWS) as f64);
    println!(
        "join    rust merge {merge:.2}  rust sort {sort:.2}  station {station:.2}  ns an entry  \
         ratio to the merge {:.2}, to sorting {:.2}",
        station / merge,
        station / sort
    );
}

/// A small sheet, its list, and what was read from it.
struct SmallBench {
    list: Vec<u8>,
    columns: station::Columns,
    n: u64,
    sheet: Vec<u8>,
    rows: Vec<u8>,
    offsets: Vec<u64>,
    sheet_buffer: Vec<u8>,
}

impl SmallBench {
    /// So many rows of so many columns, of the catalogue's kinds over and over.
    fn new(rows: usize, columns: usize, order: u8, nulls: Nulls) -> SmallBench {
        let kinds = CATALOGUE.iter().cycle().take(columns);
        let columns = kinds.map(|kind| Column::new(*kind, order)).collect();
        let table = make::table_with(&mut Rng::new(9), rows, columns, nulls, &[NAME_BYTES]);
        let encoded = crate_side::encode(&table);
        SmallBench {
            list: table.list(),
            columns: station::Columns::read(&table.list()).expect("accepted"),
            n: rows as u64,
            sheet: table.sheet(),
            sheet_buffer: vec![0; table.cleared().sheet().len()],
            rows: encoded.0,
            offsets: encoded.1,
        }
    }

    fn run(&mut self, work: &str) {
        let (list, columns, n) = (&self.list, &self.columns, self.n);
        let (sheet, rows, offsets) = (black_box(&self.sheet), &mut self.rows, &mut self.offsets);
        let answer = match work {
            "list-measure" => station::measure(list, n, sheet),
            "read-measure" => columns.measure(n, sheet),
            "list-encode" => station::encode(list, n, sheet, rows, offsets),
            "read-encode" => columns.encode(n, sheet, rows, offsets),
            "list-decode" => station::decode(list, n, rows, offsets, &mut self.sheet_buffer),
            _ => columns.decode(n, rows, offsets, &mut self.sheet_buffer),
        };
        answer.expect("accepted");
    }

    /// The nanoseconds of one call.
    fn time(&mut self, work: &str) -> u64 {
        let start = Instant::now();
        (0..CALLS).for_each(|_| self.run(work));
        start.elapsed().as_nanos() as u64 / CALLS as u64
    }
}

/// Small sheets of each size: a line for each, with the list and with what was read from it.
fn measure_small(options: &Options) {
    let (order, nulls) = columns_said(options);
    let rounds = options.number("--rounds").unwrap_or(501) as usize;
    if let Some(work) = options.word("--only") {
        let [rows, columns] = ["--rows", "--columns"].map(|word| options.number(word).unwrap_or(1));
        let mut bench = SmallBench::new(rows as usize, columns as usize, order, nulls);
        return (0..rounds).for_each(|_| bench.run(work));
    }
    println!("sheets: one list, in each call and read once, medians of {rounds} rounds");
    for (rows, columns) in SMALL_ROWS
        .into_iter()
        .flat_map(|rows| SMALL_COLUMNS.map(|columns| (rows, columns)))
    {
        let mut bench = SmallBench::new(rows, columns, order, nulls);
        let mut times: [Vec<u64>; 6] = Default::default();
        for (round, turn) in (0..rounds).flat_map(|round| (0..6).map(move |turn| (round, turn))) {
            let work = turn ^ (round & 1);
            times[work].push(bench.time(SMALL[work]));
        }
        let size = format!("n {rows:2}, {columns:2} columns");
        print_small(&size, "ns a call", times.map(median));
        if options.has("--callgrind") {
            let (rows, columns) = (rows.to_string(), columns.to_string());
            let words = ["--table", "sheets", "--rows", &rows, "--columns", &columns];
            let counts = SMALL.map(|work| instructions(work, &words).unwrap_or(0));
            print_small(&size, "instructions a call", counts);
        }
    }
}

fn print_small(size: &str, unit: &str, figures: [u64; 6]) {
    let pairs = figures.chunks(2).zip(["measure", "encode", "decode"]);
    let pairs = pairs.map(|(pair, name)| format!("{name} list {:7} read {:7}", pair[0], pair[1]));
    let pairs: Vec<String> = pairs.collect();
    println!("{size}  {}  {unit}", pairs.join("  "));
}

/// The median nanoseconds of a work.
fn timed(rounds: usize, mut work: impl FnMut()) -> u64 {
    let times = (0..rounds).map(|_| {
        let start = Instant::now();
        work();
        start.elapsed().as_nanos() as u64
    });
    median(times.collect())
}

/// Pairs of rows of two sheets of the catalogue: the check of both sheets, what a pair costs beside it, one
/// call for one pair, and the same pairs as rows that were encoded before.
fn measure_pairs(options: &Options) {
    let (order, nulls) = columns_said(options);
    let rounds = options.number("--rounds").unwrap_or(501) as usize;
    let table = catalogue(order, nulls);
    let (list, sheet) = (table.list(), table.sheet());
    let (lent, n) = ((ROWS as u64, &sheet[..]), ROWS as u64);
    let mut rng = Rng::new(11);
    let pairs: Vec<[u64; 2]> = (0..ROWS)
        .map(|_| [rng.below(ROWS) as u64, rng.below(ROWS) as u64])
        .collect();
    let mut answers = vec![0; pairs.len()];
    let all = timed(rounds, || {
        station::compare_pairs(&list, lent, lent, black_box(&pairs), &mut answers)
            .expect("accepted");
    });
    let none = timed(rounds, || {
        station::compare_pairs(&list, lent, lent, black_box(&[]), &mut []).expect("accepted");
    });
    let one = timed(rounds, || {
        station::compare_sheets(&list, lent, black_box(7), lent, n - 1).expect("accepted");
    });
    let rows = station::encode_to_vec(&list, n, &sheet).expect("accepted");
    let bytes = timed(rounds, || {
        for [i, j] in black_box(&pairs) {
            black_box(station::compare(
                rows.row(*i as usize),
                rows.row(*j as usize),
            ));
        }
    });
    println!("pairs: {ROWS} rows in each sheet, {ROWS} pairs, medians of {rounds} rounds");
    println!(
        "compare  both sheets checked {none} ns  a pair {:.2} ns  one pair in one call {one} ns  \
         of encoded rows a pair {:.2} ns",
        all.saturating_sub(none) as f64 / ROWS as f64,
        bytes as f64 / ROWS as f64
    );
}

/// The instructions of one work, counted by callgrind: many rounds less one round.
fn instructions(work: &str, words: &[&str]) -> Option<u64> {
    let counted = |rounds: u64| {
        let program = std::env::current_exe().ok()?;
        let output = Command::new("valgrind")
            .args(["--tool=callgrind", "--callgrind-out-file=/dev/null"])
            .arg(program)
            .args(["--only", work, "--rounds", &rounds.to_string()])
            .args(words)
            .output()
            .ok()?;
        let text = String::from_utf8(output.stderr).ok()?;
        let count = text
            .split("Collected :")
            .nth(1)?
            .split_whitespace()
            .next()?;
        count.parse::<u64>().ok()
    };
    Some((counted(11)? - counted(1)?) / 10)
}
