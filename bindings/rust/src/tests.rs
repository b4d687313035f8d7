//! The bindings against the archive: what each entry answers and writes, and that nothing else
//! changes. The bytes are document 01's own examples.

use crate::*;

/// Variable bytes, nulls first.
const NAMES: [u8; 2] = [16, 2];
/// "a" and null under `NAMES`.
const A_AND_NULL: [u8; 14] = [0b01, 0, 0, 0, 0, 1, 0, 0, 0, 1, 0, 0, 0, b'a'];

fn refused(number: u64, second: u64, third: u64) -> Answer {
    refused_at(number, second, third, 0)
}

/// A refusal of a row, with its place.
fn refused_at(number: u64, second: u64, third: u64, place: u64) -> Answer {
    Err(Refusal {
        number,
        second,
        third,
        place,
    })
}

#[test]
fn a_list_is_counted_or_refused() {
    let two = Done { total: 2, nulls: 0 };
    assert_eq!(check_list(&[1, 0, 15, 3, 0, 4]), Ok(two));
    assert_eq!(check_list(&[]), refused(1, 0, 0));
    assert_eq!(check_list(&[1, 0, 15, 3, 1, 4]), refused(4, 2, 0));
    assert_eq!(check_list(&[1, 0].repeat(64)).unwrap().total, 64);
    assert_eq!(check_list(&[1, 0].repeat(65)), refused(5, 128, 0));
}

#[test]
fn rows_and_offsets_are_written_and_no_more() {
    let (mut rows, mut offsets) = ([0xAA; 13], [9; 5]);
    let done = encode(&NAMES, 2, &A_AND_NULL, &mut rows, &mut offsets);
    let expected = Done {
        total: 11,
        nulls: 1,
    };
    assert_eq!(done, Ok(expected));
    assert_eq!(measure(&NAMES, 2, &A_AND_NULL), Ok(expected));
    assert_eq!(rows[..11], [2, b'a', 0, 0, 0, 0, 0, 0, 0, 1, 0]);
    assert_eq!(rows[11..], [0xAA; 2]);
    assert_eq!(offsets, [0, 10, 11, 9, 9]);
}

#[test]
fn wide_numbers_keep_their_order() {
    let list = [kind::I128, 2];
    let values = [i128::MIN, -1, 0, 1 << 64, i128::MAX];
    let mut sheet = vec![0b11111];
    values
        .iter()
        .for_each(|value| sheet.extend(value.to_le_bytes()));
    let rows = encode_to_vec(&list, 5, &sheet).unwrap();
    let all: Vec<&[u8]> = rows.iter().collect();
    assert!(all.windows(2).all(|pair| compare(pair[0], pair[1]).is_lt()));
    assert_eq!(all[1], [&[1, 0x7F][..], &[0xFF; 15]].concat());
    assert_eq!(
        decode_to_vec(&list, 5, &rows.bytes, &rows.offsets),
        Ok(sheet)
    );
}

#[test]
fn a_refusal_changes_nothing() {
    let (mut rows, mut offsets) = ([0xAA; 11], [9; 2]);
    let refusal = encode(&NAMES, 2, &A_AND_NULL, &mut rows, &mut offsets);
    assert_eq!(refusal, refused(Refusal::OFFSET_ROOM, 3, 0));
    let refusal = encode(&NAMES, 2, &A_AND_NULL, &mut rows[..10], &mut offsets);
    assert_eq!(refusal, refused(Refusal::ROW_ROOM, 11, 0));
    assert_eq!((rows, offsets), ([0xAA; 11], [9; 2]));

    let mut sheet = [0x55; 13];
    let row = [2, b'a', 0, 0, 0, 0, 0, 0, 0, 1, 0];
    let refusal = decode(&NAMES, 2, &row, &[0, 10, 11], &mut sheet);
    assert_eq!(refusal, refused(Refusal::SHEET_ROOM, 14, 0));
    assert_eq!(sheet, [0x55; 13]);
}

#[test]
fn vectors_have_the_right_size() {
    let rows = encode_to_vec(&NAMES, 2, &A_AND_NULL).unwrap();
    assert_eq!(rows.offsets, [0, 10, 11]);
    assert_eq!(rows.iter().map(<[u8]>::len).collect::<Vec<_>>(), [10, 1]);
    assert_eq!((rows.len(), rows.is_empty()), (2, false));
    let sheet = decode_to_vec(&NAMES, 2, &rows.bytes, &rows.offsets);
    assert_eq!(sheet.unwrap(), A_AND_NULL);
    assert_eq!(decode_to_vec(&[4, 0], 0, &[], &[0]), Ok(vec![]));
    assert!(encode_to_vec(&NAMES, u64::MAX, &[]).is_err());
    assert!(decode_to_vec(&NAMES, 1, &[3], &[0, 1]).is_err());
}

#[test]
fn damaged_rows_are_named() {
    let decoded = |row: &[u8]| decode(&NAMES, 1, row, &[0, row.len() as u64], &mut [0; 64]);
    assert_eq!(decoded(&[3]), refused(17, 0, 0));
    assert_eq!(decoded(&[2]), refused_at(16, 0, 0, 1));
    assert_eq!(
        decoded(&[2, 97, 0, 0, 0, 0, 0, 0, 0, 9]),
        refused_at(20, 0, 0, 9)
    );
    assert_eq!(
        decoded(&[2, 97, 0, 0, 0, 0, 0, 0, 1, 1]),
        refused_at(21, 0, 0, 8)
    );
    assert_eq!(
        decoded(&[2, 97, 0, 0, 5, 0, 0, 0, 1, 1]),
        refused_at(21, 0, 0, 4)
    );
    assert_eq!(decoded(&[1, 1]), refused_at(22, 0, 1, 1));
    // The place counts from the start of its row.
    let second = decode(&NAMES, 2, &[1, 2, 97], &[0, 1, 3], &mut [0; 64]);
    assert_eq!(second, refused_at(16, 1, 0, 2));
}

#[test]
fn a_required_column_has_no_null() {
    let list = [kind::U8, option::NULLS_FIRST | option::REQUIRED];
    let sheet = [0b101, 1, 2, 3];
    assert_eq!(measure(&list, 3, &sheet), refused(27, 0, 1));
    let read = decode(&list, 1, &[0, 0], &[0, 2], &mut [0; 2]);
    assert_eq!(read, refused(17, 0, 0));
}

#[test]
fn floats_are_folded() {
    let list = [kind::F32, option::NULLS_FIRST | option::FOLD];
    let sheet = |values: [f32; 3]| [&[0b111][..], &values.map(f32::to_le_bytes).concat()].concat();
    let folded = sheet([0.0, f32::from_bits(0x7FC0_0000), -1.0]);
    let rows = encode_to_vec(&list, 3, &sheet([-0.0, f32::from_bits(0xFF80_0001), -1.0])).unwrap();
    assert_eq!(rows, encode_to_vec(&list, 3, &folded).unwrap());
    assert_eq!(
        decode_to_vec(&list, 3, &rows.bytes, &rows.offsets),
        Ok(folded)
    );
    let read = decode(&list, 1, &[1, 0x7F, 0xFF, 0xFF, 0xFF], &[0, 5], &mut [0; 5]);
    assert_eq!(read, refused_at(28, 0, 0, 1));
    assert_eq!(check_list(&[kind::U32, option::FOLD]), refused(3, 0, 0));
}

#[test]
fn a_list_is_read_once() {
    let list = [1, 2, 15, 3, 9, 0, 12, 15];
    let mut read = [Description::new(99, 99, 99); 4];
    assert_eq!(read_list(&list, &mut read[..2]), refused(29, 3, 0));
    assert_eq!(read_list(&[1, 2, 19], &mut read[..0]), refused(2, 2, 0));
    assert_eq!(read, [Description::new(99, 99, 99); 4]);
    assert_eq!(read_list(&list, &mut read), Ok(Done { total: 3, nulls: 0 }));
    let columns = [(1, 2, 0), (15, 3, 9), (12, 15, 0), (99, 99, 99)];
    assert_eq!(read, columns.map(|(k, o, w)| Description::new(k, o, w)));
    assert_eq!(Columns::read(&list).unwrap().descriptions(), &read[..3]);
}

#[test]
fn both_ways_answer_and_write_alike() {
    let columns = Columns::read(&NAMES).unwrap();
    let rows = encode_to_vec(&NAMES, 2, &A_AND_NULL).unwrap();
    assert_eq!(columns.encode_to_vec(2, &A_AND_NULL), Ok(rows.clone()));
    let back = columns.decode_to_vec(2, &rows.bytes, &rows.offsets);
    assert_eq!(back, Ok(A_AND_NULL.to_vec()));
    assert_eq!(columns.measure(2, &[]), measure(&NAMES, 2, &[]));
    let widest = [1, 0].repeat(64);
    let columns = Columns::read(&widest).unwrap();
    assert_eq!((columns.len(), columns.is_empty()), (64, false));
    let sheet = [1; 128];
    assert_eq!(
        columns.encode_to_vec(1, &sheet),
        encode_to_vec(&widest, 1, &sheet)
    );
}

#[test]
fn what_no_reading_makes_is_refused_by_its_index() {
    let under = |columns: &[(u8, u8, u16)]| {
        let columns = columns.iter().map(|&(k, o, w)| Description::new(k, o, w));
        Columns::of(columns.collect()).measure(4097, &[])
    };
    let good = (6, 0, 0);
    assert_eq!(under(&[]), refused(1, 0, 0));
    assert_eq!(under(&[good, (0, 99, 99)]), refused(2, 1, 0));
    assert_eq!(under(&[good, (19, 0, 0)]), refused(2, 1, 0));
    assert_eq!(under(&[good, good, (6, 8, 1)]), refused(3, 2, 0));
    assert_eq!(under(&[(12, 16, 0)]), refused(3, 0, 0));
    assert_eq!(under(&[good, (15, 0, 1025)]), refused(4, 1, 0));
    assert_eq!(under(&[good, (16, 0, 1)]), refused(4, 1, 0));
    assert_eq!(under(&[good, (15, 0, 1024)]), refused(6, 4097, 0));
    assert_eq!(under(&[good; 64]), refused(6, 4097, 0));
    assert_eq!(under(&[good; 65]), refused(5, 64, 0));
}

#[test]
fn a_key_is_looked_up_as_a_scan_finds_it() {
    // Plates 0 to 9, some of them more often than others, and a bool; the keys of plates 0 to 10.
    let list = [kind::U8, 2, kind::BOOL, 2];
    let plates: Vec<u8> = (0..60u32).map(|i| (i * i % 10) as u8).collect();
    let validity = [&[0xFF; 7][..], &[0x0F]].concat();
    let sheet = [&validity[..], &plates, &validity, &[0; 8]].concat();
    let rows = encode_to_vec(&list, 60, &sheet).unwrap();
    let rows = sorted(rows.iter().map(<[u8]>::to_vec).collect());
    let columns = Columns::read(&list).unwrap();
    for plate in 0..=10 {
        let key = [1, plate];
        let of = |row: &&[u8]| row.starts_with(&key);
        let below = rows.iter().filter(|row| *row < &key[..]).count();
        let scanned = below..below + rows.iter().filter(of).count();
        let (bytes, offsets) = (&rows.bytes, &rows.offsets);
        assert_eq!(
            look_up(&list, 1, &key, 60, bytes, offsets),
            Ok(scanned.clone())
        );
        assert_eq!(columns.look_up(1, &key, 60, bytes, offsets), Ok(scanned));
    }
}

#[test]
fn a_look_up_refuses_in_its_order() {
    let list = [kind::U8, 2, kind::U8, 2];
    let check = |list: &[u8], k, key: &[u8], n, rows: &[u8], offsets: &[u64]| {
        look_up(list, k, key, n, rows, offsets).map(|_| Done { total: 0, nulls: 0 })
    };
    assert_eq!(check(&[6], 0, &[], 4097, &[], &[]), refused(1, 0, 0));
    assert_eq!(check(&list, 0, &[], 4097, &[], &[]), refused(31, 0, 0));
    assert_eq!(check(&list, 3, &[], 4097, &[], &[]), refused(31, 3, 0));
    assert_eq!(
        check(&list, 1, &[1], 4097, &[], &[]),
        refused_at(16, 0, 0, 1)
    );
    let long = check(&list, 1, &[1, 5, 1], 4097, &[], &[]);
    assert_eq!(long, refused_at(22, 0, 1, 2));
    assert_eq!(
        check(&list, 1, &[1, 5], 4097, &[], &[]),
        refused(6, 4097, 0)
    );
    assert_eq!(check(&list, 1, &[1, 5], 1, &[], &[0]), refused(14, 2, 0));
    assert_eq!(check(&list, 1, &[1, 5], 1, &[], &[0, 4]), refused(15, 1, 0));
    let cut = check(&list, 1, &[1, 5], 1, &[1, 5], &[0, 2]);
    assert_eq!(cut, refused_at(16, 0, 1, 2));
    let fallen = check(&list, 1, &[1, 5], 2, &[1, 5, 1, 6, 1, 5, 1, 5], &[0, 4, 8]);
    assert_eq!(fallen, refused(26, 0, 1));
}

#[test]
fn sheets_compare_as_their_rows_do() {
    // i16, and f32 that folds, both descending with nulls last.
    let list = [kind::I16, 1, kind::F32, 1 | option::FOLD];
    let numbers: [i16; 4] = [-1, 0, i16::MIN, 7];
    let floats: [f32; 4] = [-0.0, 0.0, f32::NAN, -1.5];
    let mut sheet = vec![0b1101];
    numbers.iter().for_each(|x| sheet.extend(x.to_le_bytes()));
    sheet.push(0b0111);
    floats.iter().for_each(|x| sheet.extend(x.to_le_bytes()));
    let (rows, columns) = (
        encode_to_vec(&list, 4, &sheet).unwrap(),
        Columns::read(&list).unwrap(),
    );
    let pairs: Vec<[u64; 2]> = (0..16).map(|i| [i / 4, i % 4]).collect();
    let (mut by_list, mut by_columns) = ([9; 16], [9; 16]);
    let done = compare_pairs(&list, (4, &sheet), (4, &sheet), &pairs, &mut by_list);
    assert_eq!(
        done,
        Ok(Done {
            total: 16,
            nulls: 0
        })
    );
    let again = columns.compare_pairs((4, &sheet), (4, &sheet), &pairs, &mut by_columns);
    assert_eq!((again, by_columns), (done, by_list));
    for (&[i, j], answer) in pairs.iter().zip(by_list) {
        let order = compare(rows.row(i as usize), rows.row(j as usize));
        assert_eq!(answer.cmp(&1), order);
        assert_eq!(
            compare_sheets(&list, (4, &sheet), i, (4, &sheet), j),
            Ok(order)
        );
        assert_eq!(
            columns.compare_sheets((4, &sheet), i, (4, &sheet), j),
            Ok(order)
        );
    }
}

#[test]
fn a_comparison_refuses_in_its_order() {
    let list = [kind::U8, 2];
    let (good, over): (Sheet, Sheet) = ((1, &[1, 5]), (4097, &[]));
    let of = |list: &[u8], first, row0, second, row1| {
        let compared = compare_sheets(list, first, row0, second, row1);
        compared.map(|_| Done { total: 0, nulls: 0 })
    };
    assert_eq!(of(&[6], over, 9, over, 9), refused(1, 0, 0));
    assert_eq!(of(&list, over, 9, (4098, &[]), 9), refused(6, 4097, 0));
    assert_eq!(of(&list, (1, &[1]), 9, over, 9), refused(7, 0, 0));
    assert_eq!(of(&list, good, 9, over, 9), refused(6, 4097, 0));
    assert_eq!(of(&list, good, 9, (1, &[3, 5]), 9), refused(8, 0, 0));
    assert_eq!(of(&list, good, 1, good, 9), refused(32, 0, 1));
    assert_eq!(of(&list, good, 0, good, 9), refused(32, 1, 9));
    let mut answers = [7; 2];
    let short = compare_pairs(&list, good, good, &[[0, 0]; 3], &mut answers);
    assert_eq!(short, refused(14, 3, 0));
    let none = compare_pairs(&list, good, good, &[[0, 0], [0, 4], [3, 0]], &mut answers);
    assert_eq!((none, answers), (refused(32, 1, 4), [7; 2]));
}

/// The ends of a stream in these pieces, the last cutter, and what refused it, the finish included.
fn cut<'a>(
    mut cutter: Cutter,
    pieces: impl IntoIterator<Item = &'a [u8]>,
) -> (Vec<u64>, Cutter, Answer) {
    let mut ends = vec![];
    for piece in pieces {
        let refused = cutter.cut_onto(piece, &mut ends);
        if refused.is_err() {
            return (ends, cutter, refused);
        }
    }
    let finished = cutter.finish();
    (ends, cutter, finished)
}

#[test]
fn a_stream_is_cut_into_the_rows_that_were_joined() {
    // Plates, names of 0 to 59 bytes, and bools, some of them null.
    let list = [kind::U32, 2, kind::VARIABLE, 1, kind::BOOL, 4];
    let (mut sheet, mut end) = (vec![0xFF; 7], 0u32);
    sheet.push(0x0F);
    (0..60u32).for_each(|i| sheet.extend(i.to_le_bytes()));
    sheet.extend([0xEF; 7]);
    sheet.push(0x0F);
    sheet.extend(end.to_le_bytes());
    for length in 0..60 {
        end += length;
        sheet.extend(end.to_le_bytes());
    }
    sheet.extend(vec![b'a'; end as usize]);
    sheet.extend([&[0xFF; 7][..], &[0x0F], &[0x55; 7], &[0x05]].concat());
    let rows = encode_to_vec(&list, 60, &sheet).unwrap();
    let (cutter, columns) = (Cutter::start(&list).unwrap(), Columns::read(&list).unwrap());
    assert_eq!(columns.cutter(), Ok(cutter.clone()));
    let whole = cut(cutter.clone(), [&rows.bytes[..]]);
    let all = Done {
        total: 60,
        nulls: 0,
    };
    assert_eq!((&whole.0[..], whole.2), (&rows.offsets[1..], Ok(all)));
    for size in [1, 2, 7, 64, 1000] {
        assert_eq!(cut(cutter.clone(), rows.bytes.chunks(size)), whole);
    }
    for at in 0..rows.bytes.len() {
        let (first, second) = rows.bytes.split_at(at);
        assert_eq!(cut(cutter.clone(), [first, second]), whole);
    }
    // Every beginning ends within a row, or after one.
    for at in 0..rows.bytes.len() as u64 {
        let (ends, _, finished) = cut(cutter.clone(), [&rows.bytes[..at as usize]]);
        let ended = rows.offsets[1..].iter().filter(|end| **end <= at).count();
        assert_eq!(ends, rows.offsets[1..=ended]);
        let within = at - rows.offsets[ended];
        match finished {
            Ok(done) => assert_eq!((done.total, within), (ended as u64, 0)),
            Err(r) => assert_eq!((r.number, r.second, r.place), (16, ended as u64, within)),
        }
    }
}

#[test]
fn a_fault_is_the_one_that_decode_has() {
    let list = [
        kind::VARIABLE,
        2,
        kind::F16,
        option::NULLS_FIRST | option::FOLD,
    ];
    let good = [2, b'a', 0, 0, 0, 0, 0, 0, 0, 1, 1, 0xBE, 0];
    for at in 0..good.len() {
        for byte in 0..=255 {
            let mut row = good;
            row[at] = byte;
            let decoded = decode(&list, 2, &[good, row].concat(), &[0, 13, 26], &mut [0; 64]);
            let stream = [good, row].concat();
            let (ends, cutter, answer) = cut(Cutter::start(&list).unwrap(), stream.chunks(1));
            assert_eq!(ends[0], 13);
            // A row that decode finds too long or cut goes on as the next row of the stream.
            let Err(refusal) = decoded else {
                assert_eq!((ends, answer.map(|done| done.total)), (vec![13, 26], Ok(2)));
                continue;
            };
            if ![16, 22].contains(&refusal.number) {
                assert_eq!((ends, answer), (vec![13], Err(refusal)));
                let again = cut(cutter.clone(), [&good[..]]);
                assert_eq!(again, (vec![], cutter, Err(refusal)));
            }
        }
    }
}

#[test]
fn a_cutter_refuses_in_its_order_and_writes_nothing() {
    let mut ends = [9; 4];
    let mut cutter = Cutter::start(&[kind::U8, 2]).unwrap();
    let begun = cutter.clone();
    assert_eq!(cutter.cut(&[1; 5], &mut ends), refused(14, 5, 0));
    assert_eq!(cutter.cut(&[], &mut []), Ok(Done { total: 0, nulls: 0 }));
    assert_eq!((&cutter, ends), (&begun, [9; 4]));
    let mut broken = *begun.state();
    broken[40] = 1;
    let mut broken = Cutter::of(broken);
    let before = broken.clone();
    assert_eq!(broken.cut(&[1; 5], &mut ends), refused(33, 0, 0));
    assert_eq!(broken.finish(), refused(33, 0, 0));
    assert_eq!((broken, ends), (before, [9; 4]));
    // A fault stands, ahead of 14.
    assert_eq!(cutter.cut(&[1, 5, 9], &mut ends), refused_at(17, 1, 0, 0));
    assert_eq!(ends, [2, 9, 9, 9]);
    let stands = cutter.clone();
    assert_eq!(cutter.cut(&[1, 5], &mut []), refused(17, 1, 0));
    assert_eq!((cutter.finish(), cutter), (refused(17, 1, 0), stands));
}

#[test]
fn a_stream_has_a_ceiling() {
    let (mut cutter, mut ends) = (Cutter::start(&[kind::U8, 2]).unwrap(), vec![]);
    let piece = [1, 5].repeat(1 << 19);
    for _ in 0..16 {
        ends.clear();
        assert_eq!(cutter.cut_onto(&piece, &mut ends).unwrap().total, 1 << 19);
    }
    assert_eq!(ends.last(), Some(&16_777_216));
    let over = refused(12, 16_777_217, 8_388_608);
    // The byte is refused before it is looked at, and the refusal stands.
    assert_eq!(cutter.clone().cut_onto(&[99], &mut ends), over);
    assert_eq!(cutter.cut_onto(&[1, 5], &mut ends), over);
    assert_eq!((cutter.finish(), ends.len()), (over, 1 << 19));
}

#[test]
fn every_reason_reads_well() {
    for number in (1..=24).chain(26..=29).chain(31..=33) {
        let text = refused_at(number, 5, 6, 7).unwrap_err().to_string();
        assert!(text.starts_with(&format!("refused {number} 5 6 7: ")));
        assert!(!text.contains("unknown reason"), "{text}");
    }
    let text = refused_at(17, 3, 1, 9).unwrap_err().to_string();
    assert_eq!(
        text,
        "refused 17 3 1 9: row 3, column 1, byte 9: this lead byte is not allowed"
    );
}

#[test]
fn null_pointers_are_empty_slices() {
    use std::ptr::{null, null_mut};
    let (none, nowhere) = (null(), null_mut());
    let empty_list = refused(1, 0, 0);
    // SAFETY: each slice has no bytes, or is the answer, which is borrowed alone.
    unsafe {
        let checked = answered(|a| raw::station_check_list(none, 0, a.as_mut_ptr(), a.len()));
        assert_eq!(checked, empty_list);
        let measured =
            answered(|a| raw::station_measure(none, 0, 0, none, 0, a.as_mut_ptr(), a.len()));
        assert_eq!(measured, empty_list);
        let encoded = answered(|a| {
            let (answer, len) = (a.as_mut_ptr(), a.len());
            raw::station_encode(none, 0, 0, none, 0, nowhere, 0, nowhere, 0, answer, len)
        });
        assert_eq!(encoded, empty_list);
        let decoded = answered(|a| {
            let (answer, len) = (a.as_mut_ptr(), a.len());
            raw::station_decode(none, 0, 0, none, 0, none, 0, nowhere, 0, answer, len)
        });
        assert_eq!(decoded, empty_list);
        let read =
            answered(|a| raw::station_read_list(none, 0, nowhere, 0, a.as_mut_ptr(), a.len()));
        assert_eq!(read, empty_list);
        let measured =
            answered(|a| raw::station_measure_read(none, 0, 0, none, 0, a.as_mut_ptr(), a.len()));
        assert_eq!(measured, empty_list);
        let no_state = refused(33, 0, 0);
        let started =
            answered(|a| raw::station_cutter_start(none, 0, nowhere, 0, a.as_mut_ptr(), a.len()));
        assert_eq!(started, no_state);
        let cut = answered(|a| {
            let (answer, len) = (a.as_mut_ptr(), a.len());
            raw::station_cut(nowhere, 0, none, 0, nowhere, 0, answer, len)
        });
        assert_eq!(cut, no_state);
        let finished = answered(|a| raw::station_cutter_finish(none, 0, a.as_mut_ptr(), a.len()));
        assert_eq!(finished, no_state);
        assert_eq!(raw::station_compare(none, 0, none, 0), 0);
    }
}

#[test]
fn rows_compare_as_bytes() {
    let samples: [&[u8]; 6] = [&[], &[0], &[0, 0], &[1], &[0x7F, 9], &[0x80]];
    for a in samples {
        for b in samples {
            assert_eq!(compare(a, b), a.cmp(b));
        }
    }
}

#[test]
fn the_archive_is_of_this_edition() {
    let number = version();
    let spelled = format!(
        "{}.{}.{}",
        number / 1_000_000,
        number / 1000 % 1000,
        number % 1000
    );
    assert_eq!(spelled, env!("CARGO_PKG_VERSION"));
}

/// Rows with their offsets, sorted.
fn sorted(mut rows: Vec<Vec<u8>>) -> Rows {
    rows.sort();
    let mut offsets = vec![0];
    for row in &rows {
        offsets.push(offsets[offsets.len() - 1] + row.len() as u64);
    }
    Rows {
        bytes: rows.concat(),
        offsets,
        nulls: 0,
    }
}

/// The joined order by Rust's stable sort.
fn order_of(first: &Rows, second: &Rows) -> Vec<u64> {
    let entries = |pass: u64, rows: &Rows| (0..rows.len() as u64).map(move |i| 4096 * pass + i);
    let row = |entry: &u64| {
        let rows = if *entry < 4096 { first } else { second };
        rows.row((entry % 4096) as usize).to_vec()
    };
    let mut order: Vec<u64> = entries(0, first).chain(entries(1, second)).collect();
    order.sort_by_key(row);
    order
}

#[test]
fn a_join_is_the_stable_sort_of_both_passes() {
    let mut state: u64 = 1;
    let mut next = move |below: u64| {
        state = state
            .wrapping_mul(6364136223846793005)
            .wrapping_add(1442695040888963407);
        (state >> 33) % below
    };
    for count in (0..60).chain([4096]) {
        let mut pass = |most: u64| {
            let n = if count == 4096 { most } else { next(count + 1) };
            sorted(
                (0..n)
                    .map(|_| (0..next(20)).map(|_| next(2) as u8).collect())
                    .collect(),
            )
        };
        let (first, second) = (pass(4096), pass(4096));
        assert_eq!(join_to_vec(&first, &second), Ok(order_of(&first, &second)));
    }
}

#[test]
fn a_join_refuses_in_its_order_and_writes_nothing() {
    let mut order = [9; 4];
    let ends: &[u64] = &[0, 1, 2];
    let mut check = |n0, rows0: &[u8], ends0: &[u64], n1, rows1: &[u8], ends1: &[u64], room| {
        let answer = join(n0, rows0, ends0, n1, rows1, ends1, &mut order[..room]);
        assert!(answer.is_ok() || order == [9; 4]);
        answer
    };
    // Pass 0 before pass 1, and in each 6, 14, 15, 26.
    assert_eq!(
        check(4097, b"", &[], 4097, b"", &[], 0),
        refused(6, 4097, 0)
    );
    assert_eq!(
        check(2, b"ba", &[0, 1], 4097, b"", &[], 0),
        refused(14, 3, 0)
    );
    assert_eq!(
        check(2, b"ba", &[1, 1, 2], 4097, b"", &[], 0),
        refused(15, 0, 0)
    );
    assert_eq!(
        check(2, b"ba", &[0, 2, 1], 4097, b"", &[], 0),
        refused(15, 2, 0)
    );
    assert_eq!(check(2, b"b", ends, 4097, b"", &[], 0), refused(15, 2, 0));
    assert_eq!(check(2, b"ba", ends, 4097, b"", &[], 0), refused(26, 0, 1));
    assert_eq!(
        check(2, b"aa", ends, 4097, b"", &[], 0),
        refused(6, 4097, 0)
    );
    assert_eq!(check(2, b"ab", ends, 2, b"ba", ends, 0), refused(26, 1, 1));
    // 12 before 26, and then the list.
    let many = vec![1; 16_777_217];
    assert_eq!(
        check(2, &many, &[0, 16_777_217, 16_777_217], 0, b"", &[0], 0),
        refused(12, 16_777_217, 0)
    );
    assert_eq!(check(2, b"ab", ends, 2, b"ab", ends, 3), refused(14, 4, 0));
    assert_eq!(
        check(2, b"ab", ends, 2, b"ab", ends, 4),
        Ok(Done { total: 4, nulls: 0 })
    );
    assert_eq!(order, [0, 4096, 1, 4097]);
}
