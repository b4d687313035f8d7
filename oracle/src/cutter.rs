//! The row cutter (document 02, request 8) as a plain program, written from that document and from
//! `docs/CUTTER.md`: the state and its bytes, the rule, what a byte does, and the answers.
//!
//! What a field's bytes mean is [`model`]'s: the cutter keeps of a field only what its fault needs, and
//! this model likewise, so that it can go on from any state that keeps the rule.

use crate::columns::{Column, BOOL, FLOATS, VARIABLE};
use crate::model::{self, Checked, Numbers, MAX_COLUMNS, MAX_SLOT, MAX_TOTAL, MAX_WIDTH};

/// The bytes of a state: thirteen numbers of eight bytes, and four bytes for each column there may be.
pub const STATE_BYTES: usize = 8 * NUMBERS + 4 * MAX_COLUMNS;
const NUMBERS: usize = 13;

/// The most bytes of a variable field: the lead byte, and 65,535 bytes in blocks.
const MOST_VARIABLE: u64 = 67_588;

/// What a refusal of a state, or of lent bytes that are none, answers.
const BROKEN: Numbers = [33, 0, 0, 0];

/// Where in the field of its column a state stands.
#[derive(Clone, Copy, Debug, PartialEq, Eq)]
pub enum Spot {
    /// Before the lead byte.
    Start,
    /// After a fixed null's lead byte: bytes seen of the rest; the place in the row of the first that
    /// is not zero, or 0.
    Nulls { seen: u64, bad: u64 },
    /// After a fixed value's 01: value bytes seen; where the column folds, the number that they spell.
    Value { seen: u64, spelt: u64 },
    /// In a block of variable bytes: its number; its bytes seen; bit i if byte i of it is not zero.
    Block { number: u64, seen: u64, marks: u64 },
}

/// A cutter's state: the refusal that stands, or where a stream stands.
#[derive(Clone, Debug, PartialEq, Eq)]
pub enum State {
    Refused(Numbers),
    At(Place),
}

/// Where a stream stands.
#[derive(Clone, Debug, PartialEq, Eq)]
pub struct Place {
    pub columns: Vec<Column>,
    /// Rows ended.
    pub rows: u64,
    /// Bytes of the stream, and of the row that is being read.
    pub bytes: u64,
    pub row: u64,
    /// The column that is being read, and where in its field.
    pub column: usize,
    pub spot: Spot,
}

/// What a byte does to its field: the field goes on, it is whole, or a fault shows, with its place.
enum Move {
    On(Spot),
    Whole,
    Bad(u64, u64),
}

// ---- the bytes of a state

/// The bytes of a state.
pub fn state_bytes(state: &State) -> Vec<u8> {
    let mut numbers = [0; NUMBERS];
    let mut columns: &[Column] = &[];
    match state {
        State::Refused(refusal) => numbers[..4].copy_from_slice(refusal),
        State::At(place) => {
            let counts = [place.rows, place.bytes, place.row, place.column as u64];
            numbers[4..8].copy_from_slice(&counts);
            numbers[8..12].copy_from_slice(&match place.spot {
                Spot::Start => [0; 4],
                Spot::Nulls { seen, bad } => [1, seen, bad, 0],
                Spot::Value { seen, spelt } => [2, seen, spelt, 0],
                Spot::Block {
                    number,
                    seen,
                    marks,
                } => [3, number, seen, marks],
            });
            columns = &place.columns;
            numbers[12] = columns.len() as u64;
        }
    }
    let mut bytes: Vec<u8> = numbers.iter().flat_map(|x| x.to_le_bytes()).collect();
    columns.iter().for_each(|c| bytes.extend(c.description()));
    bytes.resize(STATE_BYTES, 0);
    bytes
}

/// The state of lent bytes, if they are exactly those that a state is written as, and it keeps the
/// rule; bytes after them mean nothing.
pub fn read_state(lent: &[u8]) -> Option<State> {
    let bytes = lent.get(..STATE_BYTES)?;
    let (numbers, columns) = bytes.split_at(8 * NUMBERS);
    let numbers: Vec<u64> = numbers
        .chunks_exact(8)
        .map(|b| u64::from_le_bytes(b.try_into().expect("eight bytes")))
        .collect();
    let state = match numbers[0] {
        0 => State::At(read_place(&numbers, columns)?),
        _ => State::Refused(numbers[..4].try_into().expect("four numbers")),
    };
    (state_bytes(&state) == bytes && keeps(&state)).then_some(state)
}

/// Where the numbers and the columns after them say that a stream stands.
fn read_place(numbers: &[u64], columns: &[u8]) -> Option<Place> {
    let count = usize::try_from(numbers[12]).ok()?;
    let columns = model::read_descriptions(columns.get(..count.checked_mul(4)?)?).ok()?;
    Some(Place {
        columns,
        rows: numbers[4],
        bytes: numbers[5],
        row: numbers[6],
        column: usize::try_from(numbers[7]).ok()?,
        spot: match numbers[8] {
            1 => Spot::Nulls {
                seen: numbers[9],
                bad: numbers[10],
            },
            2 => Spot::Value {
                seen: numbers[9],
                spelt: numbers[10],
            },
            3 => Spot::Block {
                number: numbers[9],
                seen: numbers[10],
                marks: numbers[11],
            },
            _ => Spot::Start,
        },
    })
}

// ---- the rule

/// Whether a state keeps the rule.
pub fn keeps(state: &State) -> bool {
    match state {
        State::Refused(refusal) => refusal_kept(*refusal),
        State::At(place) => place_kept(place),
    }
}

/// Such as a start or a call can leave: 1 to 5; 12; 17 to 21, 23 or 28.
fn refusal_kept([number, second, third, fourth]: Numbers) -> bool {
    match number {
        1..=5 => second <= 4 * MAX_COLUMNS as u64 && third == 0 && fourth == 0,
        12 => second == MAX_TOTAL + 1 && third <= MAX_TOTAL && fourth == 0,
        17..=21 | 23 | 28 => {
            let before = u128::from(second) + u128::from(fourth);
            third < MAX_COLUMNS as u64 && before < u128::from(MAX_TOTAL)
        }
        _ => false,
    }
}

/// The four points of the rule, where no refusal stands.
fn place_kept(place: &Place) -> bool {
    let Some(column) = place.columns.get(place.column) else {
        return false;
    };
    columns_kept(&place.columns)
        && spot_kept(*column, place.row, place.spot)
        && row_kept(place)
        && stream_kept(place)
}

/// Columns such as a list may have.
fn columns_kept(columns: &[Column]) -> bool {
    let kept = |c: &Column| c.width <= MAX_WIDTH && (!c.fold || FLOATS.contains(&c.kind));
    columns.len() <= MAX_COLUMNS && columns.iter().all(kept)
}

/// A spot of that column's kind, in a row of so many bytes.
fn spot_kept(column: Column, row: u64, spot: Spot) -> bool {
    let (variable, width) = (column.kind == VARIABLE, column.width as u64);
    match spot {
        Spot::Start => true,
        Spot::Nulls { seen, bad } => {
            let among = |bad: u64| bad < row && bad >= row.saturating_sub(seen);
            !variable && seen < width && (bad == 0 || among(bad))
        }
        Spot::Value { seen, spelt } => {
            let most = if column.fold {
                1u128 << (8 * seen.min(8))
            } else {
                1
            };
            !variable && seen < width && u128::from(spelt) < most
        }
        Spot::Block {
            number,
            seen,
            marks,
        } => {
            let many = data_before(number) > MAX_SLOT as u128;
            variable && !many && seen <= block_size(number) && marks >> seen == 0
        }
    }
}

/// The row has the bytes seen of this field, and for each earlier column as many as its field can have.
fn row_kept(place: &Place) -> bool {
    let seen = match place.spot {
        Spot::Start => 0,
        Spot::Nulls { seen, .. } | Spot::Value { seen, .. } => 1 + u128::from(seen),
        // Each whole block has its data and its end byte.
        Spot::Block { number, seen, .. } => {
            1 + data_before(number) + u128::from(number) + u128::from(seen)
        }
    };
    let [fewest, most] = row_bytes(&place.columns[..place.column]);
    (fewest + seen..=most + seen).contains(&u128::from(place.row))
}

/// The row is no longer than the stream, that no longer than it may be, and what came before the row as
/// long as so many rows can be.
fn stream_kept(place: &Place) -> bool {
    let [fewest, most] = row_bytes(&place.columns);
    let rows = u128::from(place.rows);
    let Some(before) = place.bytes.checked_sub(place.row) else {
        return false;
    };
    let lengths = rows * fewest..=rows * most;
    place.bytes <= MAX_TOTAL && lengths.contains(&u128::from(before))
}

/// The fewest and the most bytes that a row of columns can have.
fn row_bytes(columns: &[Column]) -> [u128; 2] {
    columns.iter().fold([0, 0], |[fewest, most], column| {
        let (low, high) = match column.kind {
            VARIABLE => (1, MOST_VARIABLE),
            _ => (1 + column.width as u64, 1 + column.width as u64),
        };
        [fewest + u128::from(low), most + u128::from(high)]
    })
}

/// The bytes of a value that come before a block.
fn data_before(number: u64) -> u128 {
    let number = u128::from(number);
    8 * number.min(4) + 32 * number.saturating_sub(4)
}

/// The first four blocks hold 8 bytes, all later ones 32.
fn block_size(number: u64) -> u64 {
    if number < 4 {
        8
    } else {
        32
    }
}

// ---- what a byte does

impl Place {
    /// The state after one more byte: 12 before it is looked at; then its field's fault.
    fn taken(mut self, byte: u8) -> State {
        if self.bytes == MAX_TOTAL {
            return State::Refused([12, MAX_TOTAL + 1, self.rows, 0]);
        }
        let column = self.columns[self.column];
        match moved(column, self.spot, self.row, byte) {
            Move::Bad(number, place) => {
                return State::Refused([number, self.rows, self.column as u64, place])
            }
            Move::On(spot) => self.spot = spot,
            Move::Whole => {
                self.spot = Spot::Start;
                self.column += 1;
            }
        }
        self.bytes += 1;
        self.row += 1;
        if self.column == self.columns.len() {
            (self.rows, self.row, self.column) = (self.rows + 1, 0, 0);
        }
        State::At(self)
    }
}

/// What a byte does that stands at a place of the row.
fn moved(column: Column, spot: Spot, at: u64, byte: u8) -> Move {
    let turned = if column.descending { !byte } else { byte };
    match spot {
        Spot::Start => lead(column, at, byte, turned),
        Spot::Nulls { seen, bad } => {
            let bad = if bad == 0 && byte != 0 { at } else { bad };
            match (seen + 1 < column.width as u64, bad) {
                (true, _) => Move::On(Spot::Nulls {
                    seen: seen + 1,
                    bad,
                }),
                (false, 0) => Move::Whole,
                (false, place) => Move::Bad(18, place),
            }
        }
        Spot::Value { seen, spelt } => {
            let spelt = if column.fold {
                spelt << 8 | u64::from(turned)
            } else {
                0
            };
            match seen + 1 < column.width as u64 {
                true => Move::On(Spot::Value {
                    seen: seen + 1,
                    spelt,
                }),
                false => value_ended(column, at - seen, turned, spelt),
            }
        }
        Spot::Block {
            number,
            seen,
            marks,
        } if seen < block_size(number) => Move::On(Spot::Block {
            number,
            seen: seen + 1,
            marks: marks | u64::from(turned != 0) << seen,
        }),
        Spot::Block { number, marks, .. } => block_ended(number, marks, at, turned),
    }
}

/// The lead byte: 17. A null of variable bytes is whole, and so is the empty value, and a fixed field of
/// no width.
fn lead(column: Column, at: u64, byte: u8, turned: u8) -> Move {
    let null = model::null_lead(column, byte);
    let begun = match (column.kind, null) {
        (VARIABLE, true) => return Move::Whole,
        (VARIABLE, false) => match turned {
            1 => return Move::Whole,
            2 => Spot::Block {
                number: 0,
                seen: 0,
                marks: 0,
            },
            _ => return Move::Bad(17, at),
        },
        (_, true) => Spot::Nulls { seen: 0, bad: 0 },
        (_, false) if byte == 1 => Spot::Value { seen: 0, spelt: 0 },
        _ => return Move::Bad(17, at),
    };
    match column.kind != VARIABLE && column.width == 0 {
        true => Move::Whole,
        false => Move::On(begun),
    }
}

/// The last byte of a value: 19 of a bool, 28 of a float at its first value byte.
fn value_ended(column: Column, first: u64, last: u8, spelt: u64) -> Move {
    if column.kind == BOOL && last > 1 {
        return Move::Bad(19, first);
    }
    let high_first = &spelt.to_be_bytes()[8 - column.width.min(8)..];
    match column.fold && !model::is_folded(column, high_first) {
        true => Move::Bad(28, first),
        false => Move::Whole,
    }
}

/// The end byte of a block: 20, 21, 23, the last counting this block's data.
fn block_ended(number: u64, marks: u64, at: u64, end: u8) -> Move {
    let (size, end) = (block_size(number), u64::from(end));
    let count = if end == 0xFF { size } else { end };
    if count < 1 || count > size {
        return Move::Bad(20, at);
    }
    let padding = marks >> count;
    if padding != 0 {
        let first = at - size;
        return Move::Bad(21, first + count + u64::from(padding.trailing_zeros()));
    }
    if data_before(number) + u128::from(count) > MAX_SLOT as u128 {
        return Move::Bad(23, at);
    }
    match end {
        0xFF => Move::On(Spot::Block {
            number: number + 1,
            seen: 0,
            marks: 0,
        }),
        _ => Move::Whole,
    }
}

// ---- the entries

/// The state of a start, from the columns of a list or from what is wrong with it.
pub fn start(columns: Checked<Vec<Column>>) -> State {
    match columns {
        Err(refusal) => State::Refused(refusal),
        Ok(columns) => State::At(Place {
            columns,
            rows: 0,
            bytes: 0,
            row: 0,
            column: 0,
            spot: Spot::Start,
        }),
    }
}

/// What a call of cut leaves: the answer, the state, and the ends that it writes.
pub struct Cut {
    pub answer: Numbers,
    pub state: State,
    pub ends: Vec<u64>,
}

/// A piece, with room for so many ends. An error where state and list stay: 33 of no state, the refusal
/// that stands, 14 (piece length, 0).
pub fn cut(state: Option<State>, piece: &[u8], room: usize) -> Checked<Cut> {
    let mut place = match state {
        None => return Err(BROKEN),
        Some(State::Refused(refusal)) => return Err(refusal),
        Some(State::At(place)) => place,
    };
    if room < piece.len() {
        return Err([14, piece.len() as u64, 0, 0]);
    }
    let mut ends = Vec::new();
    for byte in piece {
        let rows = place.rows;
        place = match place.taken(*byte) {
            State::At(place) => place,
            State::Refused(refusal) => {
                return Ok(Cut {
                    answer: refusal,
                    state: State::Refused(refusal),
                    ends,
                })
            }
        };
        if place.rows > rows {
            ends.push(place.bytes);
        }
    }
    Ok(Cut {
        answer: [0, ends.len() as u64, 0, 0],
        state: State::At(place),
        ends,
    })
}

/// 33, the refusal that stands, 16 within a row; else the rows in all.
pub fn finish(state: Option<State>) -> Checked<Numbers> {
    match state {
        None => Err(BROKEN),
        Some(State::Refused(refusal)) => Err(refusal),
        Some(State::At(place)) if place.row > 0 => {
            Err([16, place.rows, place.column as u64, place.row])
        }
        Some(State::At(place)) => Ok([0, place.rows, 0, 0]),
    }
}

#[cfg(test)]
mod tests {
    use super::*;
    use crate::model::read_list;

    /// The ends of a stream, cut into pieces of so many bytes, and what refuses it, the finish included.
    fn cut_by(list: &[u8], stream: &[u8], size: usize) -> (Vec<u64>, Checked<Numbers>) {
        let (mut state, mut ends) = (start(read_list(list)), Vec::new());
        for piece in stream.chunks(size) {
            match cut(Some(state), piece, piece.len()) {
                Err(refusal) => return (ends, Err(refusal)),
                Ok(done) => {
                    ends.extend(done.ends);
                    state = done.state;
                }
            }
            assert_eq!(read_state(&state_bytes(&state)), Some(state.clone()));
        }
        (ends, finish(Some(state)))
    }

    #[test]
    fn rows_end_however_they_are_cut() {
        // u8, nulls first; variable bytes, descending, nulls last.
        let list = [6, 2, 16, 1];
        let name = [0xFD, 0x9E, 0xFF, 0xFF, 0xFF, 0xFF, 0xFF, 0xFF, 0xFF, 0xFE];
        let stream = [&[1, 5, 0xFE][..], &[0, 0, 0xFF], &[1, 7], &name].concat();
        for size in 1..=stream.len() {
            let cut = cut_by(&list, &stream, size);
            assert_eq!(cut, (vec![3, 6, 18], Ok([0, 3, 0, 0])));
            let within = cut_by(&list, &stream[..10], size);
            assert_eq!(within, (vec![3, 6], Err([16, 2, 1, 4])));
        }
    }

    #[test]
    fn faults_show_with_their_field_or_block() {
        let fault = |list: &[u8], stream: &[u8]| cut_by(list, stream, 1);
        assert_eq!(fault(&[6, 2], &[1, 5, 3]), (vec![2], Err([17, 1, 0, 0])));
        assert_eq!(fault(&[4, 2], &[0, 0, 7, 7]), (vec![], Err([16, 0, 0, 4])));
        assert_eq!(
            fault(&[4, 2], &[0, 0, 7, 7, 0]),
            (vec![], Err([18, 0, 0, 2]))
        );
        assert_eq!(fault(&[1, 2], &[1, 2]), (vec![], Err([19, 0, 0, 1])));
        assert_eq!(fault(&[10, 10], &[1, 0x7F]), (vec![], Err([16, 0, 0, 2])));
        assert_eq!(
            fault(&[10, 10], &[1, 0x7F, 0xFF]),
            (vec![], Err([28, 0, 0, 1]))
        );
        let block = |bad: u8, end: u8| [2, b'a', 0, 0, bad, 0, 0, bad, 0, end];
        assert_eq!(fault(&[16, 2], &block(0, 9)), (vec![], Err([20, 0, 0, 9])));
        assert_eq!(fault(&[16, 2], &block(7, 1)), (vec![], Err([21, 0, 0, 4])));
        assert_eq!(fault(&[16, 2], &block(7, 5)), (vec![], Err([21, 0, 0, 7])));
        let long = [&[2][..], &[&[1; 8][..], &[0xFF]].concat().repeat(4)].concat();
        let long = [&long[..], &[&[1; 32][..], &[0xFF]].concat().repeat(2047)].concat();
        assert_eq!(fault(&[16, 2], &long), (vec![], Err([23, 0, 0, 67_587])));
    }

    #[test]
    fn refusals_stand_in_their_order() {
        let broken = cut(None, &[1], 0).map(|cut| cut.answer);
        assert_eq!((broken, finish(None)), (Err(BROKEN), Err(BROKEN)));
        let refused = start(read_list(&[99]));
        let standing = cut(Some(refused.clone()), &[1], 0).map(|cut| cut.answer);
        assert_eq!(
            (standing, finish(Some(refused))),
            (Err([2, 0, 0, 0]), Err([2, 0, 0, 0]))
        );
        let begun = start(read_list(&[6, 2]));
        let short = cut(Some(begun.clone()), &[3, 3], 1).map(|cut| cut.answer);
        assert_eq!(short, Err([14, 2, 0, 0]));
        assert_eq!(finish(Some(begun)), Ok([0, 0, 0, 0]));
    }

    #[test]
    fn the_stream_has_a_ceiling() {
        let State::At(mut place) = start(read_list(&[6, 2])) else {
            panic!("a list that is refused")
        };
        (place.rows, place.bytes) = (8_388_607, 16_777_214);
        let done = cut(Some(State::At(place)), &[1, 5, 99], 3).unwrap();
        assert_eq!(done.answer, [12, 16_777_217, 8_388_608, 0]);
        assert_eq!(done.ends, [16_777_216]);
        assert_eq!(read_state(&state_bytes(&done.state)), Some(done.state));
    }

    #[test]
    fn the_rule_is_on_every_part() {
        let State::At(good) = start(read_list(&[6, 2, 12, 10, 16, 2])) else {
            panic!("a list that is refused")
        };
        let kept = |change: fn(&mut Place)| {
            let mut place = good.clone();
            change(&mut place);
            let lent = state_bytes(&State::At(place));
            read_state(&lent).is_some()
        };
        assert!(kept(|_| {}));
        assert!(!kept(|p| p.columns.clear()));
        assert!(!kept(|p| p.column = 3));
        assert!(!kept(|p| p.row = 1));
        assert!(!kept(|p| p.rows = 1));
        assert!(kept(|p| (p.rows, p.bytes) = (1, 12)));
        assert!(!kept(|p| (p.rows, p.bytes) = (1, 11)));
        assert!(!kept(|p| (p.rows, p.bytes) = (1_398_102, 16_777_224)));
        let in_float = |spelt| {
            let mut place = good.clone();
            (place.column, place.row, place.bytes) = (1, 4, 4);
            place.spot = Spot::Value { seen: 1, spelt };
            read_state(&state_bytes(&State::At(place))).is_some()
        };
        assert!(in_float(255) && !in_float(256));
    }
}
