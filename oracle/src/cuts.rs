//! The runs of the oracle on the row cutter (document 02, request 8): streams in pieces of every sort,
//! against the model and against what decode says of the same rows; damage to every byte of a stream and
//! to every part of a state; every refusal.

use crate::call::{eights, numbers, Call};
use crate::columns::{list_of, Column, FIXED_BINARY, FLOATS, VARIABLE};
use crate::cutter::{self, state_bytes, State, STATE_BYTES};
use crate::damage::{self, Good};
use crate::document::one_slot_each;
use crate::hex::hex_start;
use crate::judge::Judge;
use crate::make::{self, Nulls};
use crate::model::{self, Numbers, MAX_COLUMNS, MAX_ROWS, MAX_TOTAL};
use crate::rng::Rng;
use crate::table::Table;
use station::{Cutter, Refusal};

/// Streams of so many bytes are cut at every place.
const SHORT: usize = 150;
/// The bytes of a large piece: there is room for eight times as many, for its ends.
const LARGE: usize = 1 << 20;
/// Calls that are made after one that refused the stream.
const AFTER: usize = 2;
/// Bytes that are put in place of others.
const TELLING: [u8; 14] = [
    0x00, 0x01, 0x02, 0x03, 0x08, 0x09, 0x1F, 0x20, 0x21, 0x7F, 0x80, 0xFD, 0xFE, 0xFF,
];
/// Numbers that are put in place of others.
const EDGES: [u64; 22] = [
    0,
    1,
    2,
    3,
    7,
    8,
    9,
    31,
    32,
    33,
    63,
    64,
    65,
    255,
    256,
    65_536,
    16_777_215,
    16_777_216,
    16_777_217,
    1 << 32,
    1 << 63,
    u64::MAX,
];

/// What came of a stream: its ends, the state after it, and what the finish answers.
#[derive(PartialEq)]
struct Out {
    ends: Vec<u64>,
    state: Vec<u8>,
    answer: Numbers,
}

/// The state before the first byte.
fn begun(list: &[u8]) -> Vec<u8> {
    state_bytes(&cutter::start(model::read_list(list)))
}

/// A call of cut with exact room.
fn cut(state: &[u8], piece: &[u8]) -> Call {
    Call::cut(state, piece, 8 * piece.len())
}

/// A stream in these pieces, each a call between fences, with the state that the model has: the station
/// leaves the same. After a refusal a few more pieces are handed over, which it must refuse alike.
fn fenced<'a>(judge: &mut Judge, list: &[u8], pieces: impl IntoIterator<Item = &'a [u8]>) -> Out {
    let (mut state, mut ends, mut refused) = (begun(list), Vec::new(), 0);
    for piece in pieces {
        let done = cutter::cut(cutter::read_state(&state), piece, piece.len());
        judge.call(cut(&state, piece));
        match done {
            Ok(done) => {
                state = state_bytes(&done.state);
                ends.extend(done.ends);
            }
            Err(_) if refused == AFTER => break,
            Err(_) => refused += 1,
        }
    }
    judge.call(Call::cutter_finish(&state));
    let answer = cutter::finish(cutter::read_state(&state));
    Out {
        ends,
        state,
        answer: answer.unwrap_or_else(|refusal| refusal),
    }
}

/// The same by the bindings, with the states that the station leaves.
fn bound<'a>(list: &[u8], pieces: impl IntoIterator<Item = &'a [u8]>) -> Result<Out, Refusal> {
    let (mut cutter, mut ends) = (Cutter::start(list)?, Vec::new());
    // A refusal stands, so that the finish answers it.
    let _ = pieces
        .into_iter()
        .try_for_each(|piece| cutter.cut_onto(piece, &mut ends).map(drop));
    Ok(Out {
        ends,
        state: cutter.state().to_vec(),
        answer: numbers_of(cutter.finish()),
    })
}

/// The four numbers of an answer.
fn numbers_of(answer: station::Answer) -> Numbers {
    match answer {
        Ok(done) => [0, done.total, done.nulls, 0],
        Err(refusal) => [refusal.number, refusal.second, refusal.third, refusal.place],
    }
}

/// Random pieces of a stream, of up to so many bytes, none among them.
fn random_pieces<'a>(rng: &mut Rng, stream: &'a [u8], most: usize) -> Vec<&'a [u8]> {
    let (mut rest, mut pieces) = (stream, Vec::new());
    while !rest.is_empty() {
        let (piece, more) = rest.split_at(rng.below(most + 1).min(rest.len()));
        pieces.push(piece);
        rest = more;
    }
    pieces
}

/// A stream in large pieces, in random ones, and, if it is short, cut at every place and into single
/// bytes: always the same comes of it, and that is what decode says of the same rows.
fn hold(judge: &mut Judge, rng: &mut Rng, list: &[u8], stream: &[u8]) -> Out {
    let whole = fenced(judge, list, stream.chunks(LARGE));
    let same = |judge: &mut Judge, other: Option<Out>, pieces: &str| {
        judge.ensure(other.as_ref() == Some(&whole), || {
            let (list, stream) = (hex_start(list), hex_start(stream));
            format!("list {list}, stream {stream}: {pieces} give another result than one piece")
        });
    };
    let most = rng.pick(&[1, 3, 9, 40, 5000]).max(stream.len() / 5000);
    let pieces = random_pieces(rng, stream, most);
    same(
        judge,
        bound(list, pieces.iter().copied()).ok(),
        "random pieces",
    );
    if stream.len() <= SHORT {
        let out = fenced(judge, list, stream.chunks(1));
        same(judge, Some(out), "single bytes");
        let out = fenced(judge, list, pieces);
        same(judge, Some(out), "random pieces");
    }
    for at in (0..=stream.len()).filter(|_| stream.len() <= SHORT) {
        let (first, second) = stream.split_at(at);
        let out = bound(list, [first, second]);
        same(judge, out.ok(), "two pieces");
    }
    hold_decode(judge, list, stream, &whole);
    whole
}

/// Decode, of the rows between the ends and of what is left after them as one more: accepted if nothing
/// is left, and else refused as the stream is. Of more rows than a batch has, the last.
fn hold_decode(judge: &mut Judge, list: &[u8], stream: &[u8], out: &Out) {
    let first = out.ends.len().saturating_sub(MAX_ROWS as usize - 1);
    let ends = &out.ends[first..];
    let base = if first == 0 { 0 } else { out.ends[first - 1] };
    let mut offsets = vec![0];
    offsets.extend(ends.iter().map(|end| end - base));
    let last = offsets[offsets.len() - 1];
    let rest = &stream[base as usize..];
    if rest.len() as u64 > last {
        offsets.push(rest.len() as u64);
    }
    let n = offsets.len() as u64 - 1;
    let mut decoded = match station::decode_to_vec(list, n, rest, &offsets) {
        Ok(_) => [0, n, 0, 0],
        Err(refusal) => numbers_of(Err(refusal)),
    };
    decoded[1] += first as u64;
    judge.ensure(decoded == out.answer, || {
        let (list, stream) = (hex_start(list), hex_start(stream));
        let answer = out.answer;
        format!("list {list}, stream {stream}: decode {decoded:?}, the cutter {answer:?}")
    });
}

/// A table whose rows make a stream.
fn some_table(rng: &mut Rng) -> Table {
    match rng.once_in(8) {
        true => make::any_table(rng),
        false => {
            let (columns, rows) = (make::small_table(rng).columns, rng.below(6) + 1);
            make::table_of(rng, rows, columns)
        }
    }
}

/// Rows that were encoded, joined: the ends are the offsets. Random tables; every kind and option; 4,096
/// rows of few columns and of many; more rows than a batch has; values of 65,535 bytes.
pub fn streams(judge: &mut Judge, rng: &mut Rng, count: usize) {
    for i in 0..count {
        judge.progress("streams", i, count);
        let good = Good::of(&some_table(rng));
        rows(judge, rng, &good);
        // Within a row.
        let at = rng.below(good.rows.len() + 1);
        hold(judge, rng, &good.list, &good.rows[..at]);
    }
    for options in make::OPTIONS {
        judge.progress("streams of every kind", options as usize, 16);
        for column in make::every_column(options) {
            let columns = vec![column, Column::new(VARIABLE, options & 7)];
            let good = Good::of(&make::table_of(rng, 3, columns));
            rows(judge, rng, &good);
        }
    }
    full(judge, rng);
}

/// The rows of something good.
fn rows(judge: &mut Judge, rng: &mut Rng, good: &Good) {
    let out = hold(judge, rng, &good.list, &good.rows);
    let (ends, rows) = (&good.offsets[1..], good.n);
    judge.ensure(out.ends == ends && out.answer == [0, rows, 0, 0], || {
        let stream = hex_start(&good.rows);
        format!("the stream {stream} is not cut at its offsets {ends:?}")
    });
}

/// Long streams, and rows of as many bytes and columns as there may be.
fn full(judge: &mut Judge, rng: &mut Rng) {
    let tall = MAX_ROWS as usize;
    for (rows, columns) in [
        (tall, make::columns_from(1, 16, 2)),
        (tall, make::columns_from(3, MAX_COLUMNS, 7)),
        (64, vec![Column::fixed_binary(1024, 3); MAX_COLUMNS]),
    ] {
        judge.progress("long streams", columns.len(), MAX_COLUMNS);
        let good = Good::of(&make::table_of(rng, rows, columns));
        self::rows(judge, rng, &good);
    }
    // 40,960 rows of a bool.
    let good = Good::of(&make::table_of(rng, tall, vec![Column::new(1, 2)]));
    hold(judge, rng, &good.list, &good.rows.repeat(10));
    for options in make::ORDERS {
        let columns = vec![Column::new(VARIABLE, options); 2];
        let good = Good::of(&make::table_with(rng, 3, columns, Nulls::None, &[65_535]));
        self::rows(judge, rng, &good);
    }
}

/// Streams with faults: two rows of each kind and option, null and not, with each byte damaged; long
/// values with each end of their last block; random damage. Of required columns, which differ in the
/// lead byte only, the narrow ones. With `every`, each byte is set to every value.
pub fn faults(judge: &mut Judge, rng: &mut Rng, count: usize, every: bool) {
    for options in make::OPTIONS {
        for column in make::every_column(options) {
            judge.progress("damaged streams", options as usize, 16);
            let lengths: &[usize] = match column.kind {
                VARIABLE if column.required => &[1, 9],
                VARIABLE => &[1, 8, 33],
                _ => &[0],
            };
            let most = if column.required { 2 } else { 32 };
            for length in lengths.iter().filter(|_| column.width <= most) {
                for nulls in [Nulls::None, Nulls::Alternating] {
                    let table = make::one_column(rng, column, 2, nulls, &[*length]);
                    every_byte(judge, rng, &Good::of(&table), every);
                }
            }
        }
    }
    long_values(judge, rng);
    for i in 0..count {
        judge.progress("random damage to streams", i, count);
        let good = Good::of(&some_table(rng));
        let mut stream = good.rows;
        for _ in 0..rng.pick(&[1, 1, 2]) {
            damage::change(rng, &mut stream);
        }
        hold(judge, rng, &good.list, &stream);
    }
}

/// Each byte damaged, in one piece and in random ones; now and then in all ways.
fn every_byte(judge: &mut Judge, rng: &mut Rng, good: &Good, every: bool) {
    let values = (0..=255u8).filter(|value| every || TELLING.contains(value));
    let values: Vec<u8> = values.collect();
    for at in 0..good.rows.len() {
        for value in &values {
            let mut stream = good.rows.clone();
            stream[at] = *value;
            if rng.once_in(50) {
                hold(judge, rng, &good.list, &stream);
                continue;
            }
            let whole = fenced(judge, &good.list, [&stream[..]]);
            let pieces = random_pieces(rng, &stream, 5);
            let pieces = bound(&good.list, pieces).ok();
            judge.ensure(pieces.as_ref() == Some(&whole), || {
                let (list, stream) = (hex_start(&good.list), hex_start(&stream));
                format!("list {list}, stream {stream}: another result in pieces")
            });
            hold_decode(judge, &good.list, &stream, &whole);
        }
    }
}

/// The last block of a value of 65,535 bytes, with other end bytes and other last bytes.
fn long_values(judge: &mut Judge, rng: &mut Rng) {
    for options in make::ORDERS {
        let column = Column::new(VARIABLE, options);
        let good = Good::of(&one_slot_each(column, &[Some(&[b'a'; 65_535])]));
        for end in [0, 30, 31, 32, 33, 0xFE, 0xFF] {
            for last in [0, b'a'] {
                let mut stream = good.rows.clone();
                let at = stream.len() - 2;
                stream[at..].copy_from_slice(&[last, end]);
                if column.descending {
                    stream[at..].iter_mut().for_each(|b| *b = !*b);
                }
                stream.extend(&good.rows);
                hold(judge, rng, &good.list, &stream);
            }
        }
    }
}

/// The states that a stream leads to, one before each of its bytes and one after the last.
fn states_of(good: &Good) -> Vec<Vec<u8>> {
    let mut state = begun(&good.list);
    let mut states = vec![state.clone()];
    for byte in &good.rows {
        let done = cutter::cut(cutter::read_state(&state), &[*byte], 1);
        let done = done.unwrap_or_else(|refusal| panic!("a good stream is refused {refusal:?}"));
        state = state_bytes(&done.state);
        states.push(state.clone());
    }
    states
}

/// States of every sort: in each part of a field, of every kind; of rows and streams as long as they may
/// be; with each refusal that can stand.
fn every_state(rng: &mut Rng) -> Vec<Vec<u8>> {
    let kinds = [(1, 16, 2), (10, 9, 15), (3, 5, 1)];
    let mut states = Vec::new();
    for (first, count, options) in kinds {
        let columns = make::columns_from(first, count, options);
        let table = make::table_with(rng, 2, columns, Nulls::Random, &[0, 9, 40]);
        states.extend(states_of(&Good::of(&table)).into_iter().step_by(23));
    }
    let many = make::columns_from(1, MAX_COLUMNS, 2);
    let many = states_of(&Good::of(&make::table_of(rng, 1, many)));
    states.push(many[many.len() - 2].clone());
    for refusal in [
        [1, 0, 0, 0],
        [2, 256, 0, 0],
        [3, 4, 0, 0],
        [4, 0, 0, 0],
        [5, 128, 0, 0],
        [12, MAX_TOTAL + 1, 0, 0],
        [12, MAX_TOTAL + 1, MAX_TOTAL, 0],
        [17, 3, 1, 5],
        [18, 0, 63, 1],
        [19, 0, 0, 1],
        [20, MAX_TOTAL - 1, 0, 0],
        [21, 0, 0, MAX_TOTAL - 1],
        [23, 7, 2, 67_587],
        [28, 1, 1, 1],
    ] {
        states.push(state_bytes(&State::Refused(refusal)));
    }
    states
}

/// Calls on a state: cut, with a piece of a few bytes and with none, and the finish.
fn on_state(judge: &mut Judge, state: &[u8]) {
    judge.call(cut(state, &[1, 0, 2, 0xFE]));
    judge.call(cut(state, &[]));
    judge.call(Call::cutter_finish(state));
}

/// States that are broken: each byte set to some values; each number set to others, alone and with
/// another; each length; the columns of other counts.
pub fn states(judge: &mut Judge, rng: &mut Rng) {
    let states = every_state(rng);
    for (i, state) in states.iter().enumerate() {
        judge.progress("broken states", i, states.len());
        on_state(judge, state);
        on_state(judge, &[&state[..], &[7; 9]].concat());
        for at in 0..STATE_BYTES {
            let was = state[at];
            for value in [0, 16, 0xFF, was ^ 1, was.wrapping_add(1)] {
                let mut broken = state.clone();
                broken[at] = value;
                if value != was {
                    judge.call(cut(&broken, &[1, 0]));
                    judge.call(Call::cutter_finish(&broken));
                }
            }
        }
        every_number(judge, rng, state);
    }
    for len in 0..STATE_BYTES {
        let state = &states[len % states.len()];
        on_state(judge, &state[..len]);
    }
}

/// Each of the numbers of a state set to others around it and to telling ones, alone and with a change
/// to another number.
fn every_number(judge: &mut Judge, rng: &mut Rng, state: &[u8]) {
    for i in 0..13 {
        let was = numbers(state)[i];
        let near = [was.wrapping_sub(1), was.wrapping_add(1), was ^ 1 << 40];
        for value in EDGES.into_iter().chain(near) {
            let mut changed = numbers(state);
            changed[i] = value;
            judge.call(cut(&eights(&changed), &[1, 0, 2, 0xFE]));
            judge.call(Call::cutter_finish(&eights(&changed)));
            let (other, value) = (rng.below(13), rng.pick(&EDGES));
            changed[other] = match rng.once_in(2) {
                true => value,
                false => changed[other].wrapping_add(value),
            };
            judge.call(cut(&eights(&changed), &[1, 0, 2, 0xFE]));
        }
    }
}

/// Starts: lists of up to two bytes; every fault at every column, of lists and of descriptions; rooms for
/// the state, and answers.
pub fn starts(judge: &mut Judge) {
    for a in 0..24 {
        judge.call(Call::cutter_start(&[a], STATE_BYTES));
        for b in 0..=255 {
            judge.call(Call::cutter_start(&[a, b], STATE_BYTES));
        }
    }
    let faults: [&[u8]; 6] = [
        &[19, 0],
        &[1, 8],
        &[1],
        &[FIXED_BINARY, 0, 0],
        &[FIXED_BINARY, 3, 1, 4],
        &[*FLOATS.end(), 15],
    ];
    for before in 0..=MAX_COLUMNS + 1 {
        for fault in faults {
            let wide = [FIXED_BINARY, 3, 9, 0].repeat(before);
            let start = Call::cutter_start(&[&wide, fault].concat(), STATE_BYTES);
            let fault = [&[0; 4][..], fault].concat();
            let read = start.under(&[&wide[..], &fault[fault.len() - 4..]].concat());
            read.into_iter().for_each(|read| judge.call(read));
            judge.call(start);
        }
    }
    for list in [&[6, 2, 15, 2, 7, 0][..], &[99], &[]] {
        for room in (0..=16).chain(STATE_BYTES - 9..STATE_BYTES + 9) {
            let start = Call::cutter_start(list, room);
            start.read().into_iter().for_each(|read| judge.call(read));
            judge.call(start);
        }
        for answer in [0, 1, 8, 24, 31, 32, 33, 40] {
            judge.call(Call::cutter_start(list, STATE_BYTES).answer(answer));
        }
    }
}

/// Room for ends around the bytes of the piece, whether or not a row ends in it; answers around 32 bytes;
/// both with a state that is broken, with a refusal that stands, and with a fault in the piece.
pub fn rooms(judge: &mut Judge) {
    let begun = begun(&[6, 2]);
    let stands = state_bytes(&State::Refused([17, 3, 1, 5]));
    let mut broken = begun.clone();
    broken[40] = 1;
    for state in [&begun, &stands, &broken] {
        for piece in [&[][..], &[1], &[1, 5], &[0, 0, 1, 5, 1], &[9], &[1, 5, 9]] {
            for room in 0..8 * piece.len() + 9 {
                judge.call(Call::cut(state, piece, room));
            }
            for answer in [0, 1, 8, 24, 31, 32, 33, 40] {
                judge.call(cut(state, piece).answer(answer));
                judge.call(Call::cutter_finish(state).answer(answer));
            }
        }
    }
}

/// 12 at the 16,777,217th byte: of streams that are as long, and of states that stand near it; before a
/// fault at that byte, with the ends before it.
pub fn ceilings(judge: &mut Judge, rng: &mut Rng) {
    let wide = Good::of(&make::table_of(
        rng,
        64,
        vec![Column::fixed_binary(1023, 2); 4],
    ));
    for (list, unit) in [(&[6, 2][..], &[1, 5][..]), (&wide.list, &wide.rows)] {
        judge.progress("streams at the ceiling", 0, 2);
        let full = unit.repeat(MAX_TOTAL as usize / unit.len());
        let out = hold(judge, rng, list, &full);
        let rows = out.ends.len() as u64;
        judge.ensure(out.answer == [0, rows, 0, 0], || {
            format!("a stream at the ceiling is refused {:?}", out.answer)
        });
        for (more, size) in [(&[99][..], LARGE), (&[1, 5], LARGE - 1)] {
            let stream = [&full[..], more].concat();
            let over = fenced(judge, list, stream.chunks(size));
            let right = over.ends == out.ends && over.answer == [12, MAX_TOTAL + 1, rows, 0];
            judge.ensure(right, || format!("over the ceiling {:?}", over.answer));
        }
    }
    let good = Good::of(&make::table_of(rng, 5, make::columns_from(10, 9, 2)));
    for state in states_of(&good) {
        near_ceiling(judge, &state, &good.rows);
    }
}

/// A state moved on to so many bytes before the ceiling, with as many rows more: the rows of the stream
/// follow, in one piece and in two.
fn near_ceiling(judge: &mut Judge, state: &[u8], stream: &[u8]) {
    let Some(State::At(place)) = cutter::read_state(state) else {
        return;
    };
    let row = stream.len() as u64 / 5;
    for left in [0, 1, 2, 9, 40, 200] {
        let mut place = place.clone();
        let more = MAX_TOTAL - left - place.bytes;
        (place.bytes, place.rows) = (place.bytes + more, place.rows + more / row);
        let state = state_bytes(&State::At(place.clone()));
        judge.call(Call::cutter_finish(&state));
        let rest = &stream[(MAX_TOTAL - left - more) as usize..];
        judge.call(cut(&state, rest));
        judge.call(cut(&state, &rest[..rest.len().min(left as usize)]));
        judge.call(cut(&state, &[99; 3]));
    }
}

/// A small call of the cutter: a start, a piece somewhere in a stream, or a finish there.
pub fn some_cut(rng: &mut Rng) -> Call {
    let (columns, rows) = (make::small_table(rng).columns, rng.below(4) + 1);
    let good = Good::of(&make::table_of(rng, rows, columns));
    let at = rng.below(good.rows.len() + 1);
    let done = cutter::cut(cutter::read_state(&begun(&good.list)), &good.rows[..at], at);
    let state = done.map_or_else(State::Refused, |done| done.state);
    let (state, len) = (state_bytes(&state), rng.below(good.rows.len() - at + 1));
    cut(&state, &good.rows[at..at + len])
}

/// Random damage to calls of the cutter.
pub fn damaged(judge: &mut Judge, rng: &mut Rng, count: usize) {
    for i in 0..count {
        judge.progress("random damage to the cutter", i, count);
        let good = some_cut(rng);
        for _ in 0..4 {
            let call = damage::cut(rng, good.clone());
            judge.call(Call::cutter_finish(&call.given[0]));
            judge.call(call);
        }
        let columns = make::small_table(rng).columns;
        let start = Call::cutter_start(&list_of(&columns), STATE_BYTES);
        let start = damage::cut(rng, start);
        start.read().into_iter().for_each(|read| judge.call(read));
        judge.call(start);
    }
}
