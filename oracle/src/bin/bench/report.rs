//! The table of docs/SPEED.md.

use crate::count::Count;
use crate::lines::Line;
use std::process::Command;
use std::thread::available_parallelism;
use std::{fs, io};

/// The page that has the table, between two lines.
const PAGE: &str = concat!(env!("CARGO_MANIFEST_DIR"), "/../docs/SPEED.md");
const FROM: &str = "<!-- bench -->\n";
const TO: &str = "<!-- /bench -->\n";

/// What was measured of a line: medians of nanoseconds a row, and of the ratios of all rounds.
pub struct Times {
    pub station: f64,
    pub other: f64,
    pub ratio: f64,
}

/// The first line that a command prints, or that it is not there.
fn said(command: &str, word: &str) -> String {
    let output = Command::new(command).arg(word).output();
    let text = output.map(|output| String::from_utf8_lossy(&output.stdout).into_owned());
    match text
        .ok()
        .and_then(|text| text.lines().next().map(String::from))
    {
        Some(line) => line,
        None => format!("no {command}"),
    }
}

/// Where this ran: the machine, how busy it is, and the compilers.
pub fn place(rounds: usize) -> String {
    let read = |file| fs::read_to_string(file).unwrap_or_default();
    let cpus = read("/proc/cpuinfo");
    let model = cpus
        .lines()
        .find_map(|line| line.strip_prefix("model name"));
    let model = model.map_or("unknown", |line| line.trim_start_matches([' ', '\t', ':']));
    let cores = available_parallelism().map_or(0, usize::from);
    let load = read("/proc/loadavg");
    let load = load.split(' ').next().unwrap_or("unknown");
    format!(
        "Processor: {model}, {cores} cores; load average {load} at the end (above 1 the times are those of a busy machine).\n\
         Compilers: {} for the crate's code; {} for the station.\n\
         Ratios are medians over {rounds} rounds, in each of which both works run in turn.\n",
        said("rustc", "--version"),
        said("rt", "version"),
    )
}

pub const TABLE_HEAD: &str = "\
| work | ns a row | the other's | ratio | bar | | instructions a row | the other's |
|---|---|---|---|---|---|---|---|
";

/// A line of the table.
pub fn row(line: &Line, times: &Times, count: Option<&Count>) -> String {
    let (bar, verdict) = match line.bar {
        None => (String::new(), ""),
        Some(bar) if times.ratio <= bar => (format!("{bar:.2}"), "met"),
        Some(bar) => (format!("{bar:.2}"), "missed"),
    };
    let number =
        |number: Option<f64>| number.map_or(String::new(), |number| format!("{number:.1}"));
    format!(
        "| {} | {:.2} | {:.2} | {:.2} | {bar} | {verdict} | {} | {} |\n",
        line.name,
        times.station,
        times.other,
        times.ratio,
        number(count.map(|count| count.station)),
        number(count.and_then(|count| count.other)),
    )
}

/// Puts a text between the two lines of the page.
pub fn write(text: &str) -> io::Result<()> {
    let page = fs::read_to_string(PAGE)?;
    let parts = page.split_once(FROM).and_then(|(before, rest)| {
        let (_, after) = rest.split_once(TO)?;
        Some(format!("{before}{FROM}{text}{TO}{after}"))
    });
    let page = parts.ok_or(io::Error::other("docs/SPEED.md has no place for the table"))?;
    fs::write(PAGE, page)
}
