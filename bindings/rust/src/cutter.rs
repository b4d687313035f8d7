//! Rows from a stream with no offsets: where each of them ends.

use crate::{answered, raw, Answer, Columns, Done, Refusal};

/// The bytes of a cutter's state.
pub const CUTTER_BYTES: usize = 360;

/// A row cutter: it takes rows joined, with no offsets, in pieces that are cut anywhere, and says where
/// each row ends, counted from the start of the stream.
///
/// However a stream is cut, it has the same ends, and the first row that [`decode`](crate::decode) would
/// refuse is refused as there. A refusal stands: every later call answers it.
///
/// ```
/// use station::Cutter;
/// // Contour (u8) and glyph name (variable bytes), nulls first: 5 and null, then 7 and "".
/// let (mut cutter, mut ends) = (Cutter::start(&[6, 2, 16, 2])?, vec![]);
/// for piece in [&[1, 5][..], &[0, 1, 7], &[], &[1]] {
///     cutter.cut_onto(piece, &mut ends)?;
/// }
/// assert_eq!((ends, cutter.finish()?.total), (vec![3, 6], 2));
///
/// // Within a row the stream may not end, but it may go on.
/// cutter.cut_onto(&[1, 8], &mut vec![])?;
/// let refusal = cutter.finish().unwrap_err();
/// assert_eq!(refusal.to_string(), "refused 16 2 1 2: row 2, column 1, byte 2: the field or block is cut");
/// # Ok::<(), station::Refusal>(())
/// ```
///
/// The state is plain bytes, which may be kept and handed on: [`Cutter::state`] and [`Cutter::of`].
#[derive(Clone, Debug, PartialEq, Eq)]
pub struct Cutter {
    state: [u8; CUTTER_BYTES],
}

impl Cutter {
    /// A cutter that stands before the first byte of a stream of rows under a column list.
    ///
    /// ```
    /// let refusal = station::Cutter::start(&[99]).unwrap_err();
    /// assert_eq!((refusal.number, refusal.second), (2, 0));
    /// ```
    pub fn start(list: &[u8]) -> Result<Cutter, Refusal> {
        // SAFETY: each pointer comes with the length of its slice, and state and answer are borrowed alone.
        started(|state, a| unsafe {
            raw::station_cutter_start(
                list.as_ptr(),
                list.len(),
                state.as_mut_ptr(),
                state.len(),
                a.as_mut_ptr(),
                a.len(),
            )
        })
    }

    /// A cutter whose state was kept, or comes from elsewhere. It is not looked at: every call refuses a
    /// state that breaks its rule, 33, and takes one that keeps it at its word.
    ///
    /// ```
    /// use station::{Cutter, CUTTER_BYTES};
    /// let refusal = Cutter::of([0; CUTTER_BYTES]).finish().unwrap_err();
    /// assert_eq!(refusal.to_string(), "refused 33 0 0 0: the state of the row cutter breaks its rule");
    /// ```
    pub fn of(state: [u8; CUTTER_BYTES]) -> Cutter {
        Cutter { state }
    }

    /// The state as bytes; `docs/CUTTER.md` of the repository has their meaning.
    pub fn state(&self) -> &[u8; CUTTER_BYTES] {
        &self.state
    }

    /// Cuts the next piece: writes the ends of the rows that it completes to the front of `ends`; `total`
    /// is their count, and what is past so many stays.
    ///
    /// There must be room for as many ends as the piece has bytes. Refused are a state that breaks its
    /// rule, the refusal that stands, and too little room, and then nothing is written. The 16,777,217th
    /// byte of the stream, and the first row fault, are refused too; the ends before it are written then,
    /// and the refusal stands from then on.
    ///
    /// ```
    /// let (mut cutter, mut ends) = (station::Cutter::start(&[6, 2])?, [9; 5]);
    /// // 5, null, and a lead byte that is not allowed.
    /// let refusal = cutter.cut(&[1, 5, 0, 0, 7], &mut ends).unwrap_err();
    /// assert_eq!(refusal.to_string(), "refused 17 2 0 0: row 2, column 0, byte 0: this lead byte is not allowed");
    /// assert_eq!(ends, [2, 4, 9, 9, 9]);
    /// assert_eq!(cutter.finish(), Err(refusal));
    /// # Ok::<(), station::Refusal>(())
    /// ```
    pub fn cut(&mut self, piece: &[u8], ends: &mut [u64]) -> Answer {
        // SAFETY: as in `start`; the ends are lent as the eight bytes of each, which on this machine lie
        // low byte first, and any bytes make a u64.
        answered(|a| unsafe {
            raw::station_cut(
                self.state.as_mut_ptr(),
                self.state.len(),
                piece.as_ptr(),
                piece.len(),
                ends.as_mut_ptr().cast(),
                size_of_val(ends),
                a.as_mut_ptr(),
                a.len(),
            )
        })
    }

    /// [`Cutter::cut`] with room enough: puts the ends of the rows that the piece completes after those
    /// that are there, also those before a refusal.
    pub fn cut_onto(&mut self, piece: &[u8], ends: &mut Vec<u64>) -> Answer {
        let before = ends.len();
        ends.resize(before + piece.len(), 0);
        let answer = self.cut(piece, &mut ends[before..]);
        // No row is empty, so no end is 0.
        let written = ends[before..].iter().take_while(|end| **end > 0).count();
        ends.truncate(before + written);
        answer
    }

    /// Says whether the stream may end here; `total` is the count of its rows. Within a row it is refused,
    /// 16. The cutter stays as it is: more pieces may follow.
    pub fn finish(&self) -> Result<Done, Refusal> {
        // SAFETY: as in `start`.
        answered(|a| unsafe {
            raw::station_cutter_finish(
                self.state.as_ptr(),
                self.state.len(),
                a.as_mut_ptr(),
                a.len(),
            )
        })
    }
}

impl Columns {
    /// As [`Cutter::start`].
    pub fn cutter(&self) -> Result<Cutter, Refusal> {
        let (at, len) = self.lent();
        // SAFETY: as in `Cutter::start`.
        started(|state, a| unsafe {
            raw::station_cutter_start_read(
                at,
                len,
                state.as_mut_ptr(),
                state.len(),
                a.as_mut_ptr(),
                a.len(),
            )
        })
    }
}

/// Lends a state and an answer to a start.
fn started(
    start: impl FnOnce(&mut [u8; CUTTER_BYTES], &mut [u8; crate::ANSWER_BYTES]),
) -> Result<Cutter, Refusal> {
    let mut state = [0; CUTTER_BYTES];
    answered(|a| start(&mut state, a))?;
    Ok(Cutter { state })
}
