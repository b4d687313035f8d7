//! Refusals and what their four numbers say.

use std::error::Error;
use std::fmt;

/// Why an entry did nothing: the number of the reason, and three numbers that say where.
///
/// Rows, columns and places count from 0. A place is a byte's, and in descriptions a column's.
/// `Display` gives the four numbers and what they mean.
#[derive(Clone, Copy, Debug, PartialEq, Eq, Hash)]
pub struct Refusal {
    /// The reason, 1 to 24, 26 to 29, or 31 to 33.
    pub number: u64,
    /// The first number that goes with it.
    pub second: u64,
    /// The second number that goes with it; 0 where the reason has one only. Of 12, over 16,777,216 bytes
    /// of a stream, the rows that ended.
    pub third: u64,
    /// In a refusal of a row, 16 to 23 and 28: the bad byte, counted from the row's start; where the
    /// row is cut, 16, its length. 0 in all others.
    pub place: u64,
}

impl Refusal {
    /// The row buffer is too small; `second` is the count of bytes needed.
    pub const ROW_ROOM: u64 = 13;
    /// There is room for too few offsets; `second` is the count needed.
    pub const OFFSET_ROOM: u64 = 14;
    /// The sheet buffer is too small; `second` is the count of bytes needed.
    pub const SHEET_ROOM: u64 = 24;
}

impl fmt::Display for Refusal {
    fn fmt(&self, f: &mut fmt::Formatter<'_>) -> fmt::Result {
        let Refusal {
            number,
            second: a,
            third: b,
            place,
        } = *self;
        write!(f, "refused {number} {a} {b} {place}: ")?;
        match number {
            1 => write!(f, "the list is empty or cut in the column at place {a}"),
            2 => write!(f, "unknown kind at place {a} of the list"),
            3 => write!(
                f,
                "option bits unknown, or not for this kind, in the column at place {a} of the list"
            ),
            4 => write!(
                f,
                "a width over 1,024, or outside fixed binary, in the column at place {a} of the list"
            ),
            5 => write!(f, "a 65th column begins at place {a} of the list"),
            6 => write!(f, "{a} rows, over 4,096"),
            7 => write!(f, "column {a} of the sheet is cut"),
            8 => write!(f, "a spare bit is set in column {a}"),
            9 => write!(f, "the ends of column {a} fall at row {b}"),
            10 => write!(f, "a slot over 65,535 bytes in column {a}, row {b}"),
            11 => write!(
                f,
                "bytes after the last column, from byte {a} of the sheet on"
            ),
            12 => write!(f, "{a} row bytes, over 16,777,216"),
            13 => write!(f, "the row buffer is too small for {a} bytes"),
            14 => write!(
                f,
                "the list of offsets, of the order, of answers or of ends is too short for {a}"
            ),
            15 => write!(
                f,
                "offset {a} is not 0 at the start, falls, or passes the row bytes"
            ),
            24 => write!(f, "the sheet buffer is too small for {a} bytes"),
            26 => write!(
                f,
                "pass {a} is out of order: row {b} is below the row before it"
            ),
            27 => write!(f, "column {a} is required, and null in row {b}"),
            29 => write!(f, "the list of descriptions is too short for {a} columns"),
            31 => write!(f, "a key of {a} columns, of none or of more than there are"),
            32 => write!(f, "sheet {a} has no row {b}"),
            33 => write!(f, "the state of the row cutter breaks its rule"),
            _ => write!(
                f,
                "row {a}, column {b}, byte {place}: {}",
                row_reason(number)
            ),
        }
    }
}

/// What is wrong in a row: 16 to 23, and 28.
fn row_reason(number: u64) -> &'static str {
    match number {
        16 => "the field or block is cut",
        17 => "this lead byte is not allowed",
        18 => "a byte after the null byte is not zero",
        19 => "a bool is not 00 or 01",
        20 => "the end byte is neither FF nor 1 to the block size",
        21 => "padding is not zero",
        22 => "bytes follow the last field",
        23 => "the value is over 65,535 bytes",
        28 => "the float is not folded",
        _ => "unknown reason",
    }
}

impl Error for Refusal {}
