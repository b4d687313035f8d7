//! Column lists that are read once, for many sheets under one list.

use crate::{answered, decoded, encoded, found, raw, read_list, Answer, Refusal, Rows, Sheet};
use std::cmp::Ordering;
use std::ops::Range;

/// The most columns of a list.
const MOST: usize = 64;

/// One column as [`read_list`] writes it: four bytes.
///
/// Every byte may be anything: what no reading could have made is refused by the entries that take
/// descriptions, with the column's index as place.
#[derive(Clone, Copy, Debug, Default, PartialEq, Eq, Hash)]
#[repr(C)]
pub struct Description {
    /// One of [`kind`](crate::kind).
    pub kind: u8,
    /// Bits of [`option`](crate::option).
    pub options: u8,
    width: [u8; 2],
}

impl Description {
    /// A column of a kind with options; the width is of fixed binary, and 0 in all others.
    pub fn new(kind: u8, options: u8, width: u16) -> Description {
        Description {
            kind,
            options,
            width: width.to_le_bytes(),
        }
    }

    /// The bytes of a value of fixed binary.
    pub fn width(&self) -> u16 {
        u16::from_le_bytes(self.width)
    }
}

/// The columns of a list that was read once. Its entries answer and write what those on the list's
/// bytes do, and do not read the list again.
///
/// ```
/// use station::Columns;
/// // Plate (u32) and glyph name (variable bytes), ascending with nulls first.
/// let columns = Columns::read(&[8, 2, 16, 2])?;
/// assert_eq!(columns.len(), 2);
/// for plate in 0..1000u32 {
///     let mut sheet = vec![1];
///     sheet.extend(plate.to_le_bytes());
///     sheet.extend([1, 0, 0, 0, 0, 1, 0, 0, 0, b'a']);
///     let rows = columns.encode_to_vec(1, &sheet)?;
///     assert_eq!(columns.decode_to_vec(1, &rows.bytes, &rows.offsets)?, sheet);
/// }
/// # Ok::<(), station::Refusal>(())
/// ```
#[derive(Clone, Debug, PartialEq, Eq)]
pub struct Columns(Vec<Description>);

impl Columns {
    /// Reads a column list.
    pub fn read(list: &[u8]) -> Result<Columns, Refusal> {
        let mut read = [Description::default(); MOST];
        let count = read_list(list, &mut read)?.total as usize;
        Ok(Columns(read[..count].to_vec()))
    }

    /// Descriptions from elsewhere. They are not looked at: the entries say what is wrong with them.
    ///
    /// ```
    /// use station::{Columns, Description};
    /// let columns = Columns::of(vec![Description::new(8, 2, 0), Description::new(8, 2, 4)]);
    /// let refusal = columns.measure(0, &[]).unwrap_err();
    /// assert_eq!((refusal.number, refusal.second), (4, 1));
    /// ```
    pub fn of(descriptions: Vec<Description>) -> Columns {
        Columns(descriptions)
    }

    /// The descriptions, first to last.
    pub fn descriptions(&self) -> &[Description] {
        &self.0
    }

    /// The count of columns.
    pub fn len(&self) -> usize {
        self.0.len()
    }

    /// Whether there is no column.
    pub fn is_empty(&self) -> bool {
        self.0.is_empty()
    }

    /// The bytes that are lent, and their count.
    pub(crate) fn lent(&self) -> (*const u8, usize) {
        (self.0.as_ptr().cast(), size_of_val(&self.0[..]))
    }

    /// As [`measure`](crate::measure).
    pub fn measure(&self, n: u64, sheet: &[u8]) -> Answer {
        let (at, len) = self.lent();
        // SAFETY: each pointer comes with the length of its slice, and the answer is borrowed alone.
        answered(|a| unsafe {
            raw::station_measure_read(
                at,
                len,
                n,
                sheet.as_ptr(),
                sheet.len(),
                a.as_mut_ptr(),
                a.len(),
            )
        })
    }

    /// As [`encode`](crate::encode).
    pub fn encode(&self, n: u64, sheet: &[u8], rows: &mut [u8], offsets: &mut [u64]) -> Answer {
        let (at, len) = self.lent();
        // SAFETY: as in `measure`; the offsets are lent as in `encode` of the crate.
        answered(|a| unsafe {
            raw::station_encode_read(
                at,
                len,
                n,
                sheet.as_ptr(),
                sheet.len(),
                rows.as_mut_ptr(),
                rows.len(),
                offsets.as_mut_ptr().cast(),
                size_of_val(offsets),
                a.as_mut_ptr(),
                a.len(),
            )
        })
    }

    /// As [`decode`](crate::decode).
    pub fn decode(&self, n: u64, rows: &[u8], offsets: &[u64], sheet: &mut [u8]) -> Answer {
        let (at, len) = self.lent();
        // SAFETY: as in `encode`.
        answered(|a| unsafe {
            raw::station_decode_read(
                at,
                len,
                n,
                rows.as_ptr(),
                rows.len(),
                offsets.as_ptr().cast(),
                size_of_val(offsets),
                sheet.as_mut_ptr(),
                sheet.len(),
                a.as_mut_ptr(),
                a.len(),
            )
        })
    }

    /// As [`compare_sheets`](crate::compare_sheets).
    pub fn compare_sheets(
        &self,
        (n0, sheet0): Sheet,
        row0: u64,
        (n1, sheet1): Sheet,
        row1: u64,
    ) -> Result<Ordering, Refusal> {
        let (at, len) = self.lent();
        // SAFETY: as in `measure`.
        let done = answered(|a| unsafe {
            raw::station_compare_sheets_read(
                at,
                len,
                n0,
                sheet0.as_ptr(),
                sheet0.len(),
                row0,
                n1,
                sheet1.as_ptr(),
                sheet1.len(),
                row1,
                a.as_mut_ptr(),
                a.len(),
            )
        });
        Ok(done?.total.cmp(&1))
    }

    /// As [`compare_pairs`](crate::compare_pairs).
    pub fn compare_pairs(
        &self,
        (n0, sheet0): Sheet,
        (n1, sheet1): Sheet,
        pairs: &[[u64; 2]],
        answers: &mut [u8],
    ) -> Answer {
        let (at, len) = self.lent();
        // SAFETY: as in `encode`.
        answered(|a| unsafe {
            raw::station_compare_pairs_read(
                at,
                len,
                n0,
                sheet0.as_ptr(),
                sheet0.len(),
                n1,
                sheet1.as_ptr(),
                sheet1.len(),
                pairs.as_ptr().cast(),
                size_of_val(pairs),
                answers.as_mut_ptr(),
                answers.len(),
                a.as_mut_ptr(),
                a.len(),
            )
        })
    }

    /// As [`look_up`](crate::look_up).
    pub fn look_up(
        &self,
        k: u64,
        key: &[u8],
        n: u64,
        rows: &[u8],
        offsets: &[u64],
    ) -> Result<Range<usize>, Refusal> {
        let (at, len) = self.lent();
        // SAFETY: as in `encode`.
        found(answered(|a| unsafe {
            raw::station_look_up_read(
                at,
                len,
                k,
                key.as_ptr(),
                key.len(),
                n,
                rows.as_ptr(),
                rows.len(),
                offsets.as_ptr().cast(),
                size_of_val(offsets),
                a.as_mut_ptr(),
                a.len(),
            )
        }))
    }

    /// As [`encode_to_vec`](crate::encode_to_vec).
    pub fn encode_to_vec(&self, n: u64, sheet: &[u8]) -> Result<Rows, Refusal> {
        let need = self.measure(n, sheet)?;
        encoded(need, n, |rows, offsets| {
            self.encode(n, sheet, rows, offsets)
        })
    }

    /// As [`decode_to_vec`](crate::decode_to_vec).
    pub fn decode_to_vec(&self, n: u64, rows: &[u8], offsets: &[u64]) -> Result<Vec<u8>, Refusal> {
        decoded(|sheet| self.decode(n, rows, offsets, sheet))
    }
}
