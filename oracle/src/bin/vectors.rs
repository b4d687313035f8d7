//! The record that the program `vectors` is held to: `crates/vectors/stdin`, the cases that it reads,
//! and `crates/vectors/stdout`, what it must print: document 01's cases to run, then an answer to each
//! case. The answers are the crate's own on accepted sheets and document 01's on the rest; the station
//! is not asked. `--check` writes nothing and compares.

use oracle::columns::{Column, VARIABLE};
use oracle::document::one_slot_each;
use oracle::model;
use oracle::options::Options;
use oracle::record::{decode_words, encode_words, encoded_by_crate, Case};
use oracle::rng::Rng;
use oracle::sample;
use std::fs;
use std::path::Path;
use std::process::ExitCode;

/// Where the program and what it is held to stand.
const FOLDER: &str = concat!(env!("CARGO_MANIFEST_DIR"), "/../crates/vectors");

fn main() -> ExitCode {
    let options = Options::read("vectors [--seed N] [--check]");
    let seed = options.number("--seed").unwrap_or(1);
    let cases = sample::cases(&mut Rng::new(seed));
    let inputs: Vec<String> = cases.iter().map(Case::input).collect();
    let mut answers = document();
    answers.extend(cases.iter().map(Case::answer));
    println!("seed {seed}: {} cases", cases.len());
    let mut right = true;
    for (name, lines) in [("stdin", inputs), ("stdout", answers)] {
        let (path, text) = (Path::new(FOLDER).join(name), lines.join("\n") + "\n");
        if options.has("--check") {
            right &= held(&path, &text);
        } else {
            fs::write(&path, text).unwrap_or_else(|e| panic!("{}: {e}", path.display()));
        }
    }
    match right {
        true => ExitCode::SUCCESS,
        false => ExitCode::FAILURE,
    }
}

/// Whether a file holds this text.
fn held(path: &Path, text: &str) -> bool {
    let held = fs::read(path).is_ok_and(|bytes| bytes == text.as_bytes());
    if !held {
        println!("{} is not the record of this seed", path.display());
    }
    held
}

/// Document 01's cases to run, in one column of variable bytes with nulls first.
fn document() -> Vec<String> {
    let column = Column::new(VARIABLE, 2);
    let list = column.spelled();
    let encode = |name: &str, values: &[Option<&[u8]>]| {
        let encoded = encoded_by_crate(&one_slot_each(column, values));
        encode_words(&format!("encode {name}:"), &Ok(encoded), 20, 4)
    };
    let decode = |name: &str, row: &[u8]| {
        let decoded = model::decode(&list, 1, row, &[0, row.len() as u64], 16);
        decode_words(&format!("decode {name}:"), &decoded, 16)
    };
    let longest = encoded_by_crate(&one_slot_each(column, &[Some(&[b'a'; 65_535])]));
    let (last, total) = (longest.rows.len() - 1, longest.rows.len());
    // One byte more: the last block is full.
    let mut over = longest.rows.clone();
    over[last - 1..].copy_from_slice(b"a\x20");
    let too_long = model::encode(&list, 1, b"\x01\0\0\0\0\0\0\x01\0", 20, 4);
    vec![
        encode("a, null", &[Some(b"a"), None]),
        encode("8 bytes", &[Some(b"abcdefgh")]),
        encode("9 bytes", &[Some(b"abcdefghi")]),
        format!(
            "encode 65535 bytes: 0 {total} 0 0 0 {total} {:02x}",
            longest.rows[last]
        ),
        decode("65535 bytes", &longest.rows),
        decode("65536 bytes", &over),
        encode_words("encode 65536 bytes:", &too_long, 20, 4),
        decode("a", b"\x02a\0\0\0\0\0\0\0\x01"),
        decode("null", b"\0"),
        decode("03", b"\x03"),
        decode("02", b"\x02"),
        decode("end 09", b"\x02a\0\0\0\0\0\0\0\x09"),
        decode("end 00", b"\x02a\0\0\0\0\0\0\0\0"),
        decode("padding", b"\x02a\0\0\0\0\0\0\x01\x01"),
    ]
}
