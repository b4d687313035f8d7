//! The row cutter, by its C entry: nanoseconds a byte of a stream, in pieces of 4 KB and of one byte. The
//! streams are 4,096 rows each: of the catalogue (plate, glyph name of 12 bytes, position, exposure), of
//! floats that fold, of names of 100 bytes, and of the catalogue with nulls.

use oracle::columns::Column;
use oracle::damage::Good;
use oracle::make::{self, Nulls};
use oracle::options::Options;
use oracle::rng::Rng;
use std::hint::black_box;
use std::process::ExitCode;
use std::time::Instant;

const USAGE: &str = "bench-cutter [--rounds N] [--descending]";
const ROWS: usize = 4096;
const PIECES: [usize; 2] = [4096, 1];

/// A name, the kinds of the columns, an option of theirs, their nulls, and the bytes of a variable value.
type Stream = (&'static str, &'static [u8], u8, Nulls, usize);

const STREAMS: [Stream; 4] = [
    ("catalogue", &[8, 16, 12, 14], 0, Nulls::None, 12),
    ("with nulls", &[8, 16, 12, 14], 0, Nulls::Random, 12),
    ("folded", &[10, 11, 12], make::FOLD, Nulls::None, 0),
    ("names", &[16], 0, Nulls::None, 100),
];

/// The time of cutting a stream into pieces of so many bytes, in nanoseconds. All rows must end.
fn timed(good: &Good, size: usize, ends: &mut [u64]) -> f64 {
    let mut cutter = station::Cutter::start(&good.list).expect("a list that is accepted");
    let (mut rows, began) = (0, Instant::now());
    for piece in good.rows.chunks(size) {
        let done = cutter.cut(black_box(piece), ends).expect("a good stream");
        rows += done.total;
    }
    let time = began.elapsed().as_nanos() as f64;
    let finished = cutter.finish().expect("a stream that ends after a row");
    assert_eq!((rows, finished.total), (good.n, good.n));
    time
}

fn median(mut times: Vec<f64>) -> f64 {
    times.sort_by(f64::total_cmp);
    times[times.len() / 2]
}

fn main() -> ExitCode {
    let options = Options::read(USAGE);
    let rounds = options.number("--rounds").unwrap_or(101).max(1);
    let order = 2 | u8::from(options.has("--descending"));
    println!("{ROWS} rows, medians of {rounds} rounds, nanoseconds a byte");
    println!("stream        bytes  pieces of 4,096  pieces of 1");
    for (name, kinds, option, nulls, length) in STREAMS {
        let columns = kinds.iter().map(|kind| Column::new(*kind, order | option));
        let columns = columns.collect();
        let table = make::table_with(&mut Rng::new(1), ROWS, columns, nulls, &[length]);
        let good = Good::of(&table);
        let mut ends = vec![0; PIECES[0]];
        let mut times = PIECES.map(|_| Vec::new());
        for _ in 0..rounds {
            for (times, size) in times.iter_mut().zip(PIECES) {
                times.push(timed(&good, size, &mut ends) / good.rows.len() as f64);
            }
        }
        let [large, single] = times.map(median);
        let bytes = good.rows.len();
        println!("{name:10}  {bytes:>7}  {large:>15.2}  {single:>11.2}");
    }
    ExitCode::SUCCESS
}
