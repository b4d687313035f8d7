//! Safe bindings to the row station: sheets of columns to sortable rows, and back.
//!
//! A **column list** says what the columns are, two bytes each (kind, options), four for fixed
//! binary (kind, options, width low byte first). A **sheet** holds the columns one after another:
//! validity bits, then values. A **row** is a byte string; comparing two rows byte by byte orders
//! them as their values are ordered. Every entry checks what it is given and answers either
//! [`Done`] or a [`Refusal`] with four numbers; a refusal leaves every buffer as it was, but for the
//! ends that a [`Cutter`] has found before it.
//!
//! ```
//! // One column of i32, nulls first; two rows: 1 and null.
//! let list = [4, 0b10];
//! let sheet = [0b01, 1, 0, 0, 0, 0, 0, 0, 0];
//!
//! let rows = station::encode_to_vec(&list, 2, &sheet)?;
//! assert_eq!(rows.row(0), [0x01, 0x80, 0x00, 0x00, 0x01]);
//! assert_eq!(rows.row(1), [0x00, 0x00, 0x00, 0x00, 0x00]);
//! assert_eq!(rows.nulls, 1);
//! assert!(station::compare(rows.row(1), rows.row(0)).is_lt());
//!
//! let back = station::decode_to_vec(&list, 2, &rows.bytes, &rows.offsets)?;
//! assert_eq!(back, sheet);
//! # Ok::<(), station::Refusal>(())
//! ```

#[cfg(not(all(target_arch = "x86_64", target_endian = "little")))]
compile_error!("the station's archive is made for x86-64");

mod columns;
mod cutter;
mod refusal;

pub use columns::{Columns, Description};
pub use cutter::{Cutter, CUTTER_BYTES};
pub use refusal::Refusal;
use std::cmp::Ordering;
use std::ops::Range;

/// The C entries as they stand in the archive, for callers that lend bytes themselves.
///
/// A slice is a pointer and a length; one of length 0 may have a null pointer. Offsets and the answer
/// are bytes, eight a number, low byte first. `include/station.h` gives the layout of every argument,
/// what a caller owes, and how much stack each entry takes.
pub mod raw {
    extern "C" {
        /// The edition of the archive.
        pub fn station_version() -> u64;
        /// Checks a column list.
        pub fn station_check_list(
            list: *const u8,
            list_len: usize,
            answer: *mut u8,
            answer_len: usize,
        );
        /// Writes the descriptions of a list's columns.
        pub fn station_read_list(
            list: *const u8,
            list_len: usize,
            descriptions: *mut u8,
            descriptions_len: usize,
            answer: *mut u8,
            answer_len: usize,
        );
        /// Checks list and sheet and counts the bytes of the rows.
        pub fn station_measure(
            list: *const u8,
            list_len: usize,
            n: u64,
            sheet: *const u8,
            sheet_len: usize,
            answer: *mut u8,
            answer_len: usize,
        );
        /// The same under descriptions.
        pub fn station_measure_read(
            descriptions: *const u8,
            descriptions_len: usize,
            n: u64,
            sheet: *const u8,
            sheet_len: usize,
            answer: *mut u8,
            answer_len: usize,
        );
        /// Writes the rows of a sheet and their offsets.
        pub fn station_encode(
            list: *const u8,
            list_len: usize,
            n: u64,
            sheet: *const u8,
            sheet_len: usize,
            rows: *mut u8,
            rows_len: usize,
            offsets: *mut u8,
            offsets_len: usize,
            answer: *mut u8,
            answer_len: usize,
        );
        /// The same under descriptions.
        pub fn station_encode_read(
            descriptions: *const u8,
            descriptions_len: usize,
            n: u64,
            sheet: *const u8,
            sheet_len: usize,
            rows: *mut u8,
            rows_len: usize,
            offsets: *mut u8,
            offsets_len: usize,
            answer: *mut u8,
            answer_len: usize,
        );
        /// Writes the cleared sheet of rows.
        pub fn station_decode(
            list: *const u8,
            list_len: usize,
            n: u64,
            rows: *const u8,
            rows_len: usize,
            offsets: *const u8,
            offsets_len: usize,
            sheet: *mut u8,
            sheet_len: usize,
            answer: *mut u8,
            answer_len: usize,
        );
        /// The same under descriptions.
        pub fn station_decode_read(
            descriptions: *const u8,
            descriptions_len: usize,
            n: u64,
            rows: *const u8,
            rows_len: usize,
            offsets: *const u8,
            offsets_len: usize,
            sheet: *mut u8,
            sheet_len: usize,
            answer: *mut u8,
            answer_len: usize,
        );
        /// Compares a row of one sheet with a row of another.
        pub fn station_compare_sheets(
            list: *const u8,
            list_len: usize,
            n0: u64,
            sheet0: *const u8,
            sheet0_len: usize,
            row0: u64,
            n1: u64,
            sheet1: *const u8,
            sheet1_len: usize,
            row1: u64,
            answer: *mut u8,
            answer_len: usize,
        );
        /// The same under descriptions.
        pub fn station_compare_sheets_read(
            descriptions: *const u8,
            descriptions_len: usize,
            n0: u64,
            sheet0: *const u8,
            sheet0_len: usize,
            row0: u64,
            n1: u64,
            sheet1: *const u8,
            sheet1_len: usize,
            row1: u64,
            answer: *mut u8,
            answer_len: usize,
        );
        /// Compares pairs of rows of two sheets.
        pub fn station_compare_pairs(
            list: *const u8,
            list_len: usize,
            n0: u64,
            sheet0: *const u8,
            sheet0_len: usize,
            n1: u64,
            sheet1: *const u8,
            sheet1_len: usize,
            pairs: *const u8,
            pairs_len: usize,
            answers: *mut u8,
            answers_len: usize,
            answer: *mut u8,
            answer_len: usize,
        );
        /// The same under descriptions.
        pub fn station_compare_pairs_read(
            descriptions: *const u8,
            descriptions_len: usize,
            n0: u64,
            sheet0: *const u8,
            sheet0_len: usize,
            n1: u64,
            sheet1: *const u8,
            sheet1_len: usize,
            pairs: *const u8,
            pairs_len: usize,
            answers: *mut u8,
            answers_len: usize,
            answer: *mut u8,
            answer_len: usize,
        );
        /// Looks a key up in a sorted batch.
        pub fn station_look_up(
            list: *const u8,
            list_len: usize,
            k: u64,
            key: *const u8,
            key_len: usize,
            n: u64,
            rows: *const u8,
            rows_len: usize,
            offsets: *const u8,
            offsets_len: usize,
            answer: *mut u8,
            answer_len: usize,
        );
        /// The same under descriptions.
        pub fn station_look_up_read(
            descriptions: *const u8,
            descriptions_len: usize,
            k: u64,
            key: *const u8,
            key_len: usize,
            n: u64,
            rows: *const u8,
            rows_len: usize,
            offsets: *const u8,
            offsets_len: usize,
            answer: *mut u8,
            answer_len: usize,
        );
        /// Starts a row cutter from a list.
        pub fn station_cutter_start(
            list: *const u8,
            list_len: usize,
            state: *mut u8,
            state_len: usize,
            answer: *mut u8,
            answer_len: usize,
        );
        /// The same from descriptions.
        pub fn station_cutter_start_read(
            descriptions: *const u8,
            descriptions_len: usize,
            state: *mut u8,
            state_len: usize,
            answer: *mut u8,
            answer_len: usize,
        );
        /// Writes the ends of the rows that a piece of a stream completes.
        pub fn station_cut(
            state: *mut u8,
            state_len: usize,
            piece: *const u8,
            piece_len: usize,
            ends: *mut u8,
            ends_len: usize,
            answer: *mut u8,
            answer_len: usize,
        );
        /// Says whether a stream may end.
        pub fn station_cutter_finish(
            state: *const u8,
            state_len: usize,
            answer: *mut u8,
            answer_len: usize,
        );
        /// Writes the joined order of two sorted passes.
        pub fn station_join(
            n0: u64,
            rows0: *const u8,
            rows0_len: usize,
            offsets0: *const u8,
            offsets0_len: usize,
            n1: u64,
            rows1: *const u8,
            rows1_len: usize,
            offsets1: *const u8,
            offsets1_len: usize,
            order: *mut u8,
            order_len: usize,
            answer: *mut u8,
            answer_len: usize,
        );
        /// Compares two rows: -1, 0 or 1.
        pub fn station_compare(a: *const u8, a_len: usize, b: *const u8, b_len: usize) -> i32;
    }
}

/// The kinds of columns by name: the first byte of a column in a list.
///
/// ```
/// use station::kind;
/// // A plate number and two ledger decimals, ascending with nulls first.
/// let list = [kind::U32, 2, kind::I128, 2, kind::I256, 2];
/// assert_eq!(station::check_list(&list)?.total, 3);
/// # Ok::<(), station::Refusal>(())
/// ```
pub mod kind {
    macro_rules! kinds {
        ($($name:ident $number:literal $words:literal,)*) => {
            $(#[doc = $words] pub const $name: u8 = $number;)*
        };
    }

    kinds! {
        BOOL 1 "True or false.",
        I8 2 "A signed number of one byte.",
        I16 3 "A signed number of two bytes.",
        I32 4 "A signed number of four bytes.",
        I64 5 "A signed number of eight bytes.",
        U8 6 "An unsigned number of one byte.",
        U16 7 "An unsigned number of two bytes.",
        U32 8 "An unsigned number of four bytes.",
        U64 9 "An unsigned number of eight bytes.",
        F16 10 "A float of two bytes.",
        F32 11 "A float of four bytes.",
        F64 12 "A float of eight bytes.",
        DAY_TIME 13 "Days and milliseconds.",
        MONTH_DAY_NANO 14 "Months, days and nanoseconds.",
        FIXED_BINARY 15 "Bytes, as many as the width says that follows the options.",
        VARIABLE 16 "Bytes, 0 to 65,535.",
        I128 17 "A signed number of 16 bytes.",
        I256 18 "A signed number of 32 bytes.",
    }
}

/// The options of columns by name: bits of the second byte of a column in a list.
///
/// ```
/// use station::{kind, option};
/// // Plate numbers that are never missing.
/// let list = [kind::U32, option::REQUIRED];
/// let refusal = station::measure(&list, 1, &[0, 0, 0, 0, 0]).unwrap_err();
/// assert_eq!(refusal.to_string(), "refused 27 0 0 0: column 0 is required, and null in row 0");
/// ```
pub mod option {
    /// Large values first.
    pub const DESCENDING: u8 = 1;
    /// Nulls before all values, and not after them.
    pub const NULLS_FIRST: u8 = 2;
    /// No slot is null.
    pub const REQUIRED: u8 = 4;
    /// Floats only: every NaN is encoded as one, and -0 as +0.
    pub const FOLD: u8 = 8;
}

/// The bytes of an answer: four numbers of eight bytes.
pub const ANSWER_BYTES: usize = 32;

/// What an entry counted when it did what was asked.
#[derive(Clone, Copy, Debug, PartialEq, Eq)]
pub struct Done {
    /// Columns ([`check_list`], [`read_list`]), row bytes ([`measure`], [`encode`]), sheet bytes
    /// ([`decode`]), entries ([`join`]), pairs ([`compare_pairs`]), ends ([`Cutter::cut`]) or rows
    /// ([`Cutter::finish`]).
    pub total: u64,
    /// The null slots of all rows and columns; 0 where the total is anything but bytes.
    pub nulls: u64,
}

/// Done, or refused.
pub type Answer = Result<Done, Refusal>;

/// Rows with their offsets, as [`encode_to_vec`] makes them.
#[derive(Clone, Debug, PartialEq, Eq)]
pub struct Rows {
    /// The rows, joined.
    pub bytes: Vec<u8>,
    /// 0, then each row's end in `bytes`.
    pub offsets: Vec<u64>,
    /// The null slots of all rows and columns.
    pub nulls: u64,
}

impl Rows {
    /// The bytes of row `i`.
    ///
    /// # Panics
    /// Panics if there is no row `i`.
    pub fn row(&self, i: usize) -> &[u8] {
        &self.bytes[self.offsets[i] as usize..self.offsets[i + 1] as usize]
    }

    /// The count of rows.
    pub fn len(&self) -> usize {
        self.offsets.len().saturating_sub(1)
    }

    /// Whether there is no row.
    pub fn is_empty(&self) -> bool {
        self.len() == 0
    }

    /// The rows, first to last.
    pub fn iter(&self) -> impl ExactSizeIterator<Item = &[u8]> {
        (0..self.len()).map(|i| self.row(i))
    }
}

/// Checks a column list; `total` is the column count.
///
/// ```
/// // u32 ascending with nulls first, then variable bytes descending.
/// assert_eq!(station::check_list(&[8, 2, 16, 1])?.total, 2);
///
/// let refusal = station::check_list(&[8, 2, 99, 0]).unwrap_err();
/// assert_eq!((refusal.number, refusal.second), (2, 2));
/// assert_eq!(refusal.to_string(), "refused 2 2 0 0: unknown kind at place 2 of the list");
/// # Ok::<(), station::Refusal>(())
/// ```
pub fn check_list(list: &[u8]) -> Answer {
    // SAFETY: each pointer comes with the length of its slice, and the answer is borrowed alone.
    answered(|a| unsafe {
        raw::station_check_list(list.as_ptr(), list.len(), a.as_mut_ptr(), a.len())
    })
}

/// Checks a column list and writes a description of each column to the front of `descriptions`;
/// `total` is the column count, and what is past so many stays. [`Columns`] is the same in one step.
///
/// ```
/// use station::Description;
/// // u32, then fixed binary of three bytes.
/// let mut read = [Description::default(); 3];
/// assert_eq!(station::read_list(&[8, 2, 15, 2, 3, 0], &mut read)?.total, 2);
/// assert_eq!((read[1].kind, read[1].options, read[1].width()), (15, 2, 3));
///
/// let refusal = station::read_list(&[8, 2, 16, 2], &mut read[..1]).unwrap_err();
/// assert_eq!((refusal.number, refusal.second), (29, 2));
/// # Ok::<(), station::Refusal>(())
/// ```
pub fn read_list(list: &[u8], descriptions: &mut [Description]) -> Answer {
    // SAFETY: as in `check_list`; a description is its four bytes, and any four make one.
    answered(|a| unsafe {
        raw::station_read_list(
            list.as_ptr(),
            list.len(),
            descriptions.as_mut_ptr().cast(),
            size_of_val(descriptions),
            a.as_mut_ptr(),
            a.len(),
        )
    })
}

/// Checks list and sheet; `total` is the count of row bytes that [`encode`] needs room for.
///
/// ```
/// // Three bools, the last one null.
/// assert_eq!(station::measure(&[1, 0], 3, &[0b011, 0b001])?.total, 6);
/// // A validity bit past the last row is refused.
/// assert_eq!(station::measure(&[1, 0], 3, &[0b1011, 0]).unwrap_err().number, 8);
/// # Ok::<(), station::Refusal>(())
/// ```
pub fn measure(list: &[u8], n: u64, sheet: &[u8]) -> Answer {
    // SAFETY: as in `check_list`.
    answered(|a| unsafe {
        raw::station_measure(
            list.as_ptr(),
            list.len(),
            n,
            sheet.as_ptr(),
            sheet.len(),
            a.as_mut_ptr(),
            a.len(),
        )
    })
}

/// Writes the rows of a sheet to the front of `rows`, and 0 and each row's end to the front of
/// `offsets`; what is past the written part stays.
///
/// ```
/// let (mut rows, mut offsets) = ([0xAA; 12], [7; 4]);
/// // Variable bytes, nulls first: "a" and null.
/// let sheet = [0b01, 0, 0, 0, 0, 1, 0, 0, 0, 1, 0, 0, 0, b'a'];
/// let done = station::encode(&[16, 2], 2, &sheet, &mut rows, &mut offsets)?;
/// assert_eq!((done.total, done.nulls), (11, 1));
/// assert_eq!(rows, [2, b'a', 0, 0, 0, 0, 0, 0, 0, 1, 0, 0xAA]);
/// assert_eq!(offsets, [0, 10, 11, 7]);
/// # Ok::<(), station::Refusal>(())
/// ```
///
/// Variable bytes may be a slice of a longer column: what stands before the first end means nothing.
///
/// ```
/// // Ends 3 and 4: "a" after three bytes of another value.
/// let slice = [0b1, 3, 0, 0, 0, 4, 0, 0, 0, b'x', b'y', b'z', b'a'];
/// let rows = station::encode_to_vec(&[16, 2], 1, &slice)?;
/// assert_eq!(rows.row(0), [2, b'a', 0, 0, 0, 0, 0, 0, 0, 1]);
///
/// let back = station::decode_to_vec(&[16, 2], 1, &rows.bytes, &rows.offsets)?;
/// assert_eq!(back, [0b1, 0, 0, 0, 0, 1, 0, 0, 0, b'a']);
/// # Ok::<(), station::Refusal>(())
/// ```
pub fn encode(list: &[u8], n: u64, sheet: &[u8], rows: &mut [u8], offsets: &mut [u64]) -> Answer {
    // SAFETY: as in `check_list`; the offsets are lent as the eight bytes of each, which on this
    // machine lie low byte first, and any bytes make a u64.
    answered(|a| unsafe {
        raw::station_encode(
            list.as_ptr(),
            list.len(),
            n,
            sheet.as_ptr(),
            sheet.len(),
            rows.as_mut_ptr(),
            rows.len(),
            offsets.as_mut_ptr().cast(),
            size_of_val(offsets),
            a.as_mut_ptr(),
            a.len(),
        )
    })
}

/// Writes the cleared sheet of rows to the front of `sheet`: zeros, and length 0, in null slots, and
/// first ends of 0. Floats are folded where their column folds.
///
/// ```
/// let mut sheet = [0; 3];
/// // Two u8 values descending, nulls last: null, then 5.
/// let rows = [0xFF, 0x00, 0x01, 0xFA];
/// let done = station::decode(&[6, 1], 2, &rows, &[0, 2, 4], &mut sheet)?;
/// assert_eq!((done.total, done.nulls), (3, 1));
/// assert_eq!(sheet, [0b10, 0, 5]);
///
/// // A damaged row is refused with row, column and byte.
/// let refusal = station::decode(&[6, 1], 2, &[0xFF, 0, 3, 0xFA], &[0, 2, 4], &mut sheet).unwrap_err();
/// assert_eq!(refusal.to_string(), "refused 17 1 0 0: row 1, column 0, byte 0: this lead byte is not allowed");
/// # Ok::<(), station::Refusal>(())
/// ```
pub fn decode(list: &[u8], n: u64, rows: &[u8], offsets: &[u64], sheet: &mut [u8]) -> Answer {
    // SAFETY: as in `encode`.
    answered(|a| unsafe {
        raw::station_decode(
            list.as_ptr(),
            list.len(),
            n,
            rows.as_ptr(),
            rows.len(),
            offsets.as_ptr().cast(),
            size_of_val(offsets),
            sheet.as_mut_ptr(),
            sheet.len(),
            a.as_mut_ptr(),
            a.len(),
        )
    })
}

/// A sheet of so many rows.
pub type Sheet<'a> = (u64, &'a [u8]);

/// Compares a row of one sheet with a row of another under one list, by their values: as their rows
/// compare, and no row is made.
///
/// ```
/// use std::cmp::Ordering;
/// // i8 descending, nulls first: -1, null and 1 against 1.
/// let (list, first, second) = ([2, 3], (3, &[0b101, 0xFF, 0, 1][..]), (1, &[1, 1][..]));
/// let compared = |row| station::compare_sheets(&list, first, row, second, 0);
/// assert_eq!([0, 1, 2].map(|row| compared(row).unwrap()), [Ordering::Greater, Ordering::Less, Ordering::Equal]);
/// assert_eq!(compared(3).unwrap_err().to_string(), "refused 32 0 3 0: sheet 0 has no row 3");
/// ```
pub fn compare_sheets(
    list: &[u8],
    (n0, sheet0): Sheet,
    row0: u64,
    (n1, sheet1): Sheet,
    row1: u64,
) -> Result<Ordering, Refusal> {
    // SAFETY: as in `check_list`.
    let done = answered(|a| unsafe {
        raw::station_compare_sheets(
            list.as_ptr(),
            list.len(),
            n0,
            sheet0.as_ptr(),
            sheet0.len(),
            row0,
            n1,
            sheet1.as_ptr(),
            sheet1.len(),
            row1,
            a.as_mut_ptr(),
            a.len(),
        )
    });
    Ok(done?.total.cmp(&1))
}

/// [`compare_sheets`] of many pairs of rows, one of each sheet, with one check of the two sheets:
/// writes 0, 1 or 2 for below, equal or above to the front of `answers`, a byte a pair; `total` is the
/// count of pairs.
///
/// ```
/// // Bools: true, false against false.
/// let (list, first, second) = ([1, 0], (2, &[0b11, 0b01][..]), (1, &[1, 0][..]));
/// let mut answers = [9; 3];
/// let done = station::compare_pairs(&list, first, second, &[[0, 0], [1, 0]], &mut answers)?;
/// assert_eq!((done.total, answers), (2, [2, 1, 9]));
/// # Ok::<(), station::Refusal>(())
/// ```
pub fn compare_pairs(
    list: &[u8],
    (n0, sheet0): Sheet,
    (n1, sheet1): Sheet,
    pairs: &[[u64; 2]],
    answers: &mut [u8],
) -> Answer {
    // SAFETY: as in `encode`; the pairs are lent as the offsets are.
    answered(|a| unsafe {
        raw::station_compare_pairs(
            list.as_ptr(),
            list.len(),
            n0,
            sheet0.as_ptr(),
            sheet0.len(),
            n1,
            sheet1.as_ptr(),
            sheet1.len(),
            pairs.as_ptr().cast(),
            size_of_val(pairs),
            answers.as_mut_ptr(),
            answers.len(),
            a.as_mut_ptr(),
            a.len(),
        )
    })
}

/// Looks a key up, the fields of the first `k` columns as bytes, in a batch whose rows are sorted: the
/// rows that begin with it, or where none does an empty range that stands where such rows would.
///
/// ```
/// // Contour (u8) and glyph name (variable bytes): 5 null, 5 "", 7 "".
/// let (list, rows) = ([6, 2, 16, 2], [1, 5, 0, 1, 5, 1, 1, 7, 1]);
/// let found = |k, key: &[u8]| station::look_up(&list, k, key, 3, &rows, &[0, 3, 6, 9]);
/// assert_eq!(found(1, &[1, 5])?, 0..2);
/// assert_eq!(found(2, &[1, 5, 1])?, 1..2);
/// assert_eq!(found(1, &[1, 6])?, 2..2);
/// assert_eq!(found(3, &[1, 6]).unwrap_err().number, 31);
/// # Ok::<(), station::Refusal>(())
/// ```
pub fn look_up(
    list: &[u8],
    k: u64,
    key: &[u8],
    n: u64,
    rows: &[u8],
    offsets: &[u64],
) -> Result<Range<usize>, Refusal> {
    // SAFETY: as in `encode`.
    found(answered(|a| unsafe {
        raw::station_look_up(
            list.as_ptr(),
            list.len(),
            k,
            key.as_ptr(),
            key.len(),
            n,
            rows.as_ptr(),
            rows.len(),
            offsets.as_ptr().cast(),
            size_of_val(offsets),
            a.as_mut_ptr(),
            a.len(),
        )
    }))
}

/// The rows of an answer to a look-up: the first, and one past the last, both at most 4,096.
fn found(answer: Answer) -> Result<Range<usize>, Refusal> {
    let Done { total, nulls } = answer?;
    Ok(total as usize..nulls as usize)
}

/// Writes the joined order of two sorted passes to the front of `order`, an entry a row: 4,096 times
/// the pass plus the row. It is sorted by row bytes; equal rows keep their order, pass 0 first. Rows
/// are not read as fields: any bytes between offsets may be joined.
///
/// ```
/// let mut order = [9; 5];
/// // Rows "b", "d" of pass 0 and "a", "b" of pass 1.
/// let done = station::join(2, b"bd", &[0, 1, 2], 2, b"ab", &[0, 1, 2], &mut order)?;
/// assert_eq!((done.total, done.nulls), (4, 0));
/// assert_eq!(order, [4096, 0, 4097, 1, 9]);
///
/// // Row 1 of pass 1 is below the row before it.
/// let refusal = station::join(0, b"", &[0], 2, b"ba", &[0, 1, 2], &mut order).unwrap_err();
/// assert_eq!((refusal.number, refusal.second, refusal.third), (26, 1, 1));
/// # Ok::<(), station::Refusal>(())
/// ```
pub fn join(
    n0: u64,
    rows0: &[u8],
    offsets0: &[u64],
    n1: u64,
    rows1: &[u8],
    offsets1: &[u64],
    order: &mut [u64],
) -> Answer {
    // SAFETY: as in `encode`; the order is lent as the offsets are.
    answered(|a| unsafe {
        raw::station_join(
            n0,
            rows0.as_ptr(),
            rows0.len(),
            offsets0.as_ptr().cast(),
            size_of_val(offsets0),
            n1,
            rows1.as_ptr(),
            rows1.len(),
            offsets1.as_ptr().cast(),
            size_of_val(offsets1),
            order.as_mut_ptr().cast(),
            size_of_val(order),
            a.as_mut_ptr(),
            a.len(),
        )
    })
}

/// Compares two rows, or any bytes: unsigned, a proper beginning first.
///
/// ```
/// use std::cmp::Ordering;
/// assert_eq!(station::compare(&[1, 2], &[1, 0x80]), Ordering::Less);
/// assert_eq!(station::compare(&[1, 2], &[1]), Ordering::Greater);
/// ```
pub fn compare(a: &[u8], b: &[u8]) -> Ordering {
    // SAFETY: each pointer comes with the length of its slice.
    unsafe { raw::station_compare(a.as_ptr(), a.len(), b.as_ptr(), b.len()) }.cmp(&0)
}

/// The edition of the archive: 1,000,000 times the major, 1,000 times the minor, and the patch.
pub fn version() -> u64 {
    // SAFETY: it takes nothing.
    unsafe { raw::station_version() }
}

/// [`encode`] into buffers of exactly the right size.
pub fn encode_to_vec(list: &[u8], n: u64, sheet: &[u8]) -> Result<Rows, Refusal> {
    let need = measure(list, n, sheet)?;
    encoded(need, n, |rows, offsets| {
        encode(list, n, sheet, rows, offsets)
    })
}

/// The rows that `encode` writes into buffers of the size that was measured for n rows.
fn encoded(
    need: Done,
    n: u64,
    encode: impl FnOnce(&mut [u8], &mut [u64]) -> Answer,
) -> Result<Rows, Refusal> {
    // Measured, so n is at most 4,096 and the total at most 16,777,216.
    let mut bytes = vec![0; need.total as usize];
    let mut offsets = vec![0; n as usize + 1];
    let nulls = encode(&mut bytes, &mut offsets)?.nulls;
    Ok(Rows {
        bytes,
        offsets,
        nulls,
    })
}

/// [`decode`] into a sheet of exactly the right size.
pub fn decode_to_vec(
    list: &[u8],
    n: u64,
    rows: &[u8],
    offsets: &[u64],
) -> Result<Vec<u8>, Refusal> {
    decoded(|sheet| decode(list, n, rows, offsets, sheet))
}

/// The sheet that `decode` writes into a buffer of exactly the right size.
fn decoded(decode: impl Fn(&mut [u8]) -> Answer) -> Result<Vec<u8>, Refusal> {
    // With no room at all the station answers how many bytes it needs, or that none are needed.
    let mut sheet = match decode(&mut []) {
        Err(refusal) if refusal.number == Refusal::SHEET_ROOM => vec![0; refusal.second as usize],
        Err(refusal) => return Err(refusal),
        Ok(_) => return Ok(Vec::new()),
    };
    decode(&mut sheet)?;
    Ok(sheet)
}

/// [`join`] into a list of exactly the right size.
pub fn join_to_vec(first: &Rows, second: &Rows) -> Result<Vec<u64>, Refusal> {
    let mut order = vec![0; first.len() + second.len()];
    join(
        first.len() as u64,
        &first.bytes,
        &first.offsets,
        second.len() as u64,
        &second.bytes,
        &second.offsets,
        &mut order,
    )?;
    Ok(order)
}

/// Lends an answer to `call` and reads the four numbers out of it.
fn answered(call: impl FnOnce(&mut [u8; ANSWER_BYTES])) -> Answer {
    let mut bytes = [0; ANSWER_BYTES];
    call(&mut bytes);
    let number =
        |i: usize| u64::from_le_bytes(bytes[8 * i..8 * i + 8].try_into().expect("eight bytes"));
    match number(0) {
        0 => Ok(Done {
            total: number(1),
            nulls: number(2),
        }),
        refused => Err(Refusal {
            number: refused,
            second: number(1),
            third: number(2),
            place: number(3),
        }),
    }
}

#[cfg(test)]
mod tests;
