//! The station's speed: every line of docs/SPEED.md's table, each beside the crate's own code, a plain
//! encoder or memcmp, in one run; instructions, and the check that they have not grown. `--table` names
//! a part of the table, or one of the works that it does not have: the join, small sheets under a list that
//! is read once, and pairs of rows of two sheets.

mod count;
mod lines;
mod others;
mod report;
mod sheets;
mod strings;

use lines::{Line, Works};
use oracle::options::Options;
use report::Times;
use std::process::ExitCode;
use std::time::Instant;
use std::{fs, io};

const USAGE: &str = "bench [--rounds N] [--table catalogue|mixed|small|compare|floats|folded|decimals] [--write] ; \
     bench --check ; bench --record ; bench --table passes|sheets|pairs [--rounds N] [--nulls] [--descending] [--callgrind] ; \
     and for callgrind to run: bench --count [--others] ; bench --table sheets \
     --only list-measure|read-measure|list-encode|read-encode|list-decode|read-decode [--rows N] [--columns N]";

/// Calls that are timed together, of sheets of few rows.
pub const CALLS: usize = 64;
const FEW_ROWS: usize = 64;

fn main() -> ExitCode {
    let options = Options::read(USAGE);
    let table = options.word("--table");
    if let Some("passes" | "sheets" | "pairs") = table {
        others::measure(&options);
        return ExitCode::SUCCESS;
    }
    let lines: Vec<Line> = lines::lines()
        .into_iter()
        .filter(|line| table.is_none_or(|table| table == line.table))
        .collect();
    if options.has("--count") {
        count::run(&lines, options.has("--others"));
        return ExitCode::SUCCESS;
    }
    let done = match (options.has("--check"), options.has("--record")) {
        (true, _) => check(&lines),
        (_, true) => record(&lines),
        _ => measure(&options, &lines),
    };
    match done {
        Ok(()) => ExitCode::SUCCESS,
        Err(fault) => {
            eprintln!("{fault}");
            ExitCode::FAILURE
        }
    }
}

/// Holds the instructions of all lines against the record.
fn check(lines: &[Line]) -> Result<(), String> {
    let text = fs::read_to_string(count::FILE).map_err(|e| format!("{}: {e}", count::FILE))?;
    let counts = count::counts(lines, false, &["--count"])?;
    let faults = count::faults(&text, &counts);
    match faults.is_empty() {
        true => {
            let lines = counts.len();
            println!("instructions: none of {lines} lines is more than a tenth above the record");
            Ok(())
        }
        false => Err(faults.join("\n")),
    }
}

/// Writes the record.
fn record(lines: &[Line]) -> Result<(), String> {
    let text = count::record(&count::counts(lines, false, &["--count"])?);
    fs::write(count::FILE, &text).map_err(|e| format!("{}: {e}", count::FILE))?;
    print!("{text}");
    Ok(())
}

/// Measures the lines, and prints the table; with `--write` it goes into docs/SPEED.md too.
fn measure(options: &Options, lines: &[Line]) -> Result<(), String> {
    let rounds = options.number("--rounds").unwrap_or(501) as usize;
    let table = options.word("--table");
    let words: Vec<&str> = ["--count", "--others"]
        .into_iter()
        .chain(table.into_iter().flat_map(|table| ["--table", table]))
        .collect();
    let counts = match count::is_there() {
        true => count::counts(lines, true, &words)?,
        false => Vec::new(),
    };
    let mut text = String::from(report::TABLE_HEAD);
    print!("{text}");
    for (i, line) in lines.iter().enumerate() {
        let row = report::row(line, &times(line, rounds), counts.get(i));
        print!("{row}");
        text += &row;
    }
    let place = report::place(rounds);
    println!("\n{place}");
    if counts.is_empty() {
        println!("no valgrind: instructions are not counted");
    }
    match options.has("--write") {
        true => report::write(&format!("{text}\n{place}")).map_err(|e: io::Error| e.to_string()),
        false => Ok(()),
    }
}

/// Both works of a line in turn, round by round; which one comes first changes from round to round.
fn times(line: &Line, rounds: usize) -> Times {
    let mut works = line.works();
    works.check();
    let rows = line.rows();
    let calls = if rows < FEW_ROWS { CALLS } else { 1 };
    let pairs: Vec<[f64; 2]> = (0..rounds)
        .map(|round| match round % 2 {
            0 => {
                let station = time(&mut *works, calls, |works| works.station());
                [station, time(&mut *works, calls, |works| works.other())]
            }
            _ => {
                let other = time(&mut *works, calls, |works| works.other());
                [time(&mut *works, calls, |works| works.station()), other]
            }
        })
        .collect();
    let of_a_row = |i: usize| {
        let times = pairs.iter().map(|pair| pair[i] / (calls * rows) as f64);
        median(times.collect())
    };
    Times {
        station: of_a_row(0),
        other: of_a_row(1),
        ratio: median(pairs.iter().map(|pair| pair[0] / pair[1]).collect()),
    }
}

/// The nanoseconds of so many calls, after the buffers were cleared.
fn time(works: &mut dyn Works, calls: usize, work: impl Fn(&mut dyn Works)) -> f64 {
    works.clear();
    let start = Instant::now();
    (0..calls).for_each(|_| work(works));
    start.elapsed().as_nanos() as f64
}

fn median(mut times: Vec<f64>) -> f64 {
    times.sort_unstable_by(f64::total_cmp);
    times[times.len() / 2]
}
