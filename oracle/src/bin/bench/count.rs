//! Instructions, counted by callgrind, and the record of them that `--check` holds.

use crate::lines::Line;
use std::process::Command;
use std::{env, fs, process};

/// Where the record lies.
pub const FILE: &str = concat!(env!("CARGO_MANIFEST_DIR"), "/instructions.txt");

/// How much more than the record is let pass: a tenth.
const MARGIN: f64 = 1.1;

const HEAD: &str = "\
# Instructions a row, counted by callgrind on the inputs of oracle/src/bin/bench/lines.rs; of compare, a pair.
# `oracle/run bench --record` writes this, and `oracle/run bench --check` fails where one is more than a tenth higher.
";

/// What callgrind counts: everything below this function. After each return it starts anew.
#[no_mangle]
#[inline(never)]
fn counted_by_callgrind(work: &mut dyn FnMut()) {
    work()
}

/// The instructions a row of a line.
pub struct Count {
    pub name: String,
    pub station: f64,
    /// Of the work that the station's is held against, where it was counted too.
    pub other: Option<f64>,
}

/// Runs each work of these lines once below the function that callgrind counts. Before that both have run
/// once, so that nothing is counted that only a first call does.
pub fn run(lines: &[Line], others: bool) {
    for line in lines {
        let mut works = line.works();
        works.check();
        counted_by_callgrind(&mut || works.station());
        if others {
            works.clear();
            counted_by_callgrind(&mut || works.other());
        }
    }
}

/// Whether valgrind is there.
pub fn is_there() -> bool {
    Command::new("valgrind").arg("--version").output().is_ok()
}

/// The instructions of these lines, counted in a run of this program with `words`, which runs them.
pub fn counts(lines: &[Line], others: bool, words: &[&str]) -> Result<Vec<Count>, String> {
    let file = env::temp_dir().join(format!("station-bench-{}", process::id()));
    let program = env::current_exe().map_err(|e| e.to_string())?;
    let function = "counted_by_callgrind";
    let output = Command::new("valgrind")
        .args(["--tool=callgrind", "--collect-atstart=no"])
        .arg("--combine-dumps=yes")
        .arg(format!("--toggle-collect={function}"))
        .arg(format!("--dump-after={function}"))
        .arg(format!("--callgrind-out-file={}", file.display()))
        .arg(program)
        .args(words)
        .output()
        .map_err(|e| format!("valgrind: {e}"))?;
    let text = fs::read_to_string(&file).unwrap_or_default();
    let _ = fs::remove_file(&file);
    if !output.status.success() {
        return Err(String::from_utf8_lossy(&output.stderr).into_owned());
    }
    let of_each = if others { 2 } else { 1 };
    let totals = totals(&text);
    if totals.len() < of_each * lines.len() {
        return Err(format!("callgrind gave {} counts", totals.len()));
    }
    let counts = lines.iter().zip(totals.chunks(of_each));
    Ok(counts.map(|(line, counts)| count(line, counts)).collect())
}

/// The totals of the parts of what callgrind wrote, in their order. The last part is the rest of the run.
fn totals(text: &str) -> Vec<u64> {
    let totals = text
        .lines()
        .filter_map(|line| line.strip_prefix("totals: "));
    totals
        .filter_map(|total| total.trim().parse().ok())
        .collect()
}

fn count(line: &Line, counts: &[u64]) -> Count {
    let rows = line.rows() as f64;
    Count {
        name: line.name.to_string(),
        station: counts[0] as f64 / rows,
        other: counts.get(1).map(|count| *count as f64 / rows),
    }
}

/// The record of these counts: a line for each, with its name behind the number.
pub fn record(counts: &[Count]) -> String {
    let lines = counts
        .iter()
        .map(|count| format!("{:10.1}  {}\n", count.station, count.name));
    HEAD.chars()
        .chain(lines.collect::<String>().chars())
        .collect()
}

/// The names and numbers of a record.
fn recorded(text: &str) -> Result<Vec<(&str, f64)>, String> {
    let lines = text.lines().filter(|line| !line.starts_with('#'));
    lines
        .map(|line| {
            let parts = line.trim().split_once("  ");
            let parts = parts.and_then(|(number, name)| Some((name, number.parse().ok()?)));
            parts.ok_or(format!("not a line of a record: {line}"))
        })
        .collect()
}

/// What is wrong with these counts: those that are too high, that are not recorded, or that are recorded
/// and were not counted.
pub fn faults(text: &str, counts: &[Count]) -> Vec<String> {
    let recorded = match recorded(text) {
        Ok(recorded) => recorded,
        Err(fault) => return vec![fault],
    };
    let found = |name: &str| recorded.iter().find(|line| line.0 == name);
    let of_counts = counts.iter().filter_map(|count| match found(&count.name) {
        None => Some(format!("{}: not recorded", count.name)),
        Some((name, number)) => (count.station > MARGIN * number).then(|| {
            let more = 100.0 * (count.station / number - 1.0);
            let station = count.station;
            format!("{name}: {station:.1} instructions a row, {more:.0} % more than {number:.1}")
        }),
    });
    let gone = recorded
        .iter()
        .filter(|line| !counts.iter().any(|count| count.name == line.0))
        .map(|line| format!("{}: recorded, but there is no such line", line.0));
    of_counts.chain(gone).collect()
}

#[cfg(test)]
mod tests {
    use super::*;

    fn counts(numbers: &[(&str, f64)]) -> Vec<Count> {
        let count = |(name, station): &(&str, f64)| Count {
            name: name.to_string(),
            station: *station,
            other: None,
        };
        numbers.iter().map(count).collect()
    }

    #[test]
    fn a_record_passes_until_a_count_is_a_tenth_higher() {
        let text = record(&counts(&[("encode, 4,096 rows", 200.0), ("decode", 35.0)]));
        assert!(text.contains("     200.0  encode, 4,096 rows\n"));
        let of = |encode| {
            faults(
                &text,
                &counts(&[("encode, 4,096 rows", encode), ("decode", 1.0)]),
            )
        };
        assert!(of(100.0).is_empty() && of(220.0).is_empty());
        assert_eq!(
            of(220.5),
            ["encode, 4,096 rows: 220.5 instructions a row, 10 % more than 200.0"]
        );
    }

    #[test]
    fn a_line_that_is_missing_on_either_side_is_a_fault() {
        let text = record(&counts(&[("encode", 200.0)]));
        assert_eq!(
            faults(&text, &counts(&[("decode", 1.0)])),
            [
                "decode: not recorded",
                "encode: recorded, but there is no such line"
            ]
        );
        assert_eq!(faults("x", &[]), ["not a line of a record: x"]);
        assert_eq!(faults("", &counts(&[("a", 1.0)])), ["a: not recorded"]);
    }

    #[test]
    fn the_parts_of_a_run_come_in_order() {
        let text = "part: 1\nfn=x\n7 3\ntotals: 30\n\npart: 2\ntotals: 4\n";
        assert_eq!(totals(text), [30, 4]);
    }

    #[test]
    fn every_line_is_recorded() {
        let text = fs::read_to_string(FILE).expect("oracle/instructions.txt");
        let recorded = recorded(&text).expect("a record");
        let lines = crate::lines::lines();
        assert_eq!(recorded.len(), lines.len());
        for (line, recorded) in lines.iter().zip(recorded) {
            assert!(line.name == recorded.0 && recorded.1 > 0.0);
        }
    }
}
