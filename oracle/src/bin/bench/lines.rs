//! The lines of docs/SPEED.md's table: what is done, on what, and the bar.

use crate::sheets::Sheets;
use crate::strings::{Strings, PAIRS};
use oracle::columns::Column;
use oracle::make::{self, Nulls};
use oracle::rng::Rng;
use oracle::table::Table;
use std::ops::RangeInclusive;

/// What a line measures: the station's work, and the one it is held against.
#[derive(Clone, Copy, PartialEq, Eq)]
pub enum Work {
    /// Against the crate's code.
    Encode,
    /// Against the encoder of `oracle::plain`.
    EncodePlain,
    /// Against the crate's code.
    Decode,
    /// Against memcmp.
    Compare,
}

/// A line of the table.
pub struct Line {
    /// What it is called, in the table and where its instructions are recorded.
    pub name: &'static str,
    /// The part of the table that it stands in.
    pub table: &'static str,
    pub work: Work,
    input: Input,
    /// The highest ratio that will do, if one is asked.
    pub bar: Option<f64>,
}

/// What the works are given: a sheet, or so many pairs of equal strings, or of such that differ somewhere.
#[derive(Clone)]
enum Input {
    Sheet(Sheet),
    Strings(RangeInclusive<usize>, bool),
}

/// A sheet of random values.
#[derive(Clone)]
struct Sheet {
    columns: Columns,
    options: u8,
    nulls: Nulls,
    /// The bytes of a name.
    lengths: RangeInclusive<usize>,
    rows: usize,
}

#[derive(Clone, Copy)]
enum Columns {
    /// Columns of these kinds.
    Of(&'static [u8]),
    /// So many, of all kinds over and over.
    Mixed(usize),
}

/// Two works in turn, each on buffers that were cleared.
pub trait Works {
    /// Clears what the works write to, and frees what they made.
    fn clear(&mut self);
    fn station(&mut self);
    /// The work that the station's is held against.
    fn other(&mut self);
    /// Both give the same.
    fn check(&mut self);
}

/// Plate, glyph name, position and exposure.
const CATALOGUE: Sheet = Sheet {
    columns: Columns::Of(&[8, 16, 12, 14]),
    options: 2,
    nulls: Nulls::None,
    lengths: 12..=12,
    rows: 4096,
};

/// The same with random nulls, descending.
const DOWN: Sheet = Sheet {
    options: 3,
    nulls: Nulls::Random,
    ..CATALOGUE
};

const SHORT_NAMES: Sheet = Sheet {
    lengths: 1..=32,
    ..CATALOGUE
};

const MIXED_NAMES: Sheet = Sheet {
    lengths: 0..=64,
    ..CATALOGUE
};

const fn of_rows(rows: usize) -> Sheet {
    Sheet { rows, ..CATALOGUE }
}

const fn of_columns(columns: Columns, options: u8) -> Sheet {
    Sheet {
        columns,
        options: 2 | options,
        ..CATALOGUE
    }
}

const FLOATS: Columns = Columns::Of(&[10, 11, 12]);
const DECIMALS: Columns = Columns::Of(&[17, 18]);

const fn line(
    table: &'static str,
    name: &'static str,
    work: Work,
    sheet: Sheet,
    bar: Option<f64>,
) -> Line {
    Line {
        name,
        table,
        work,
        input: Input::Sheet(sheet),
        bar,
    }
}

const fn compare(name: &'static str, lengths: RangeInclusive<usize>, equal: bool) -> Line {
    Line {
        name,
        table: "compare",
        work: Work::Compare,
        input: Input::Strings(lengths, equal),
        bar: Some(2.0),
    }
}

/// All lines, in the order of the table.
pub fn lines() -> Vec<Line> {
    use Work::{Decode, Encode, EncodePlain};
    let mixed = |columns| of_columns(Columns::Mixed(columns), 0);
    vec![
        line(
            "catalogue",
            "encode, 4,096 rows",
            Encode,
            CATALOGUE,
            Some(0.60),
        ),
        line(
            "catalogue",
            "encode, nulls and descending",
            Encode,
            DOWN,
            Some(0.50),
        ),
        line(
            "catalogue",
            "encode, 512 rows",
            Encode,
            of_rows(512),
            Some(0.80),
        ),
        line(
            "catalogue",
            "encode, names of 1 to 32 bytes",
            Encode,
            SHORT_NAMES,
            Some(0.70),
        ),
        line(
            "catalogue",
            "encode, names of 0 to 64 bytes",
            Encode,
            MIXED_NAMES,
            Some(0.70),
        ),
        line(
            "catalogue",
            "encode, 4,096 rows, plain encoder",
            EncodePlain,
            CATALOGUE,
            Some(2.0),
        ),
        line(
            "catalogue",
            "decode, 4,096 rows",
            Decode,
            CATALOGUE,
            Some(0.60),
        ),
        line(
            "catalogue",
            "decode, nulls and descending",
            Decode,
            DOWN,
            Some(0.60),
        ),
        line(
            "catalogue",
            "decode, names of 0 to 64 bytes",
            Decode,
            MIXED_NAMES,
            Some(0.85),
        ),
        line(
            "mixed",
            "encode, 16 mixed columns",
            Encode,
            mixed(16),
            Some(0.60),
        ),
        line(
            "mixed",
            "encode, 64 mixed columns",
            Encode,
            mixed(64),
            Some(0.60),
        ),
        line(
            "mixed",
            "decode, 16 mixed columns",
            Decode,
            mixed(16),
            Some(0.60),
        ),
        line(
            "mixed",
            "decode, 64 mixed columns",
            Decode,
            mixed(64),
            Some(0.60),
        ),
        line("small", "encode, 1 row", Encode, of_rows(1), Some(2.5)),
        line("small", "encode, 8 rows", Encode, of_rows(8), Some(1.4)),
        line("small", "decode, 1 row", Decode, of_rows(1), Some(0.6)),
        line("small", "decode, 8 rows", Decode, of_rows(8), Some(0.6)),
        compare("compare, 20 equal bytes", 20..=20, true),
        compare("compare, 80 equal bytes", 80..=80, true),
        compare(
            "compare, 20 to 80 bytes that differ somewhere",
            20..=80,
            false,
        ),
        line(
            "floats",
            "encode, f16, f32, f64",
            Encode,
            of_columns(FLOATS, 0),
            None,
        ),
        line(
            "floats",
            "decode, f16, f32, f64",
            Decode,
            of_columns(FLOATS, 0),
            None,
        ),
        line(
            "folded",
            "encode, the same folded",
            Encode,
            of_columns(FLOATS, make::FOLD),
            None,
        ),
        line(
            "folded",
            "decode, the same folded",
            Decode,
            of_columns(FLOATS, make::FOLD),
            None,
        ),
        line(
            "decimals",
            "encode, i128, i256",
            Encode,
            of_columns(DECIMALS, 0),
            None,
        ),
        line(
            "decimals",
            "decode, i128, i256",
            Decode,
            of_columns(DECIMALS, 0),
            None,
        ),
    ]
}

impl Line {
    /// The rows, or pairs, of one call.
    pub fn rows(&self) -> usize {
        match &self.input {
            Input::Sheet(sheet) => sheet.rows,
            Input::Strings(..) => PAIRS,
        }
    }

    /// The input, with both works on it.
    pub fn works(&self) -> Box<dyn Works> {
        match &self.input {
            Input::Sheet(sheet) => Box::new(Sheets::new(&sheet.table(), self.work)),
            Input::Strings(lengths, equal) => Box::new(Strings::new(lengths.clone(), *equal)),
        }
    }
}

impl Sheet {
    /// The same on every run.
    fn table(&self) -> Table {
        let columns = match self.columns {
            Columns::Of(kinds) => kinds
                .iter()
                .map(|kind| Column::new(*kind, self.options))
                .collect(),
            Columns::Mixed(count) => make::columns_from(1, count, self.options),
        };
        let lengths: Vec<usize> = self.lengths.clone().collect();
        make::table_with(&mut Rng::new(9), self.rows, columns, self.nulls, &lengths)
    }
}
