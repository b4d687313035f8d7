//! Calls of the C entries with any bytes, and what document 01 says that they leave behind; of lists
//! that are read once, of the join, of the look-up, of sheets that are compared and of the row cutter,
//! document 02.

use crate::columns::{descriptions_of, Column};
use crate::cutter::{self, state_bytes};
use crate::hex::hex_start;
use crate::model::{self, Checked, Numbers};
use crate::stack::{self, Rows, Stacks, FEW_ROWS, WORDS};
use crate::trap;
use crate::yard::{Lend, Yard};
use station::raw;
use std::fmt;

/// An argument of an entry, by name: a number, a slice that is read, one that is read and written to, one
/// that is written to.
#[derive(Clone, Copy, PartialEq)]
enum Argument {
    Number(&'static str),
    Read(&'static str),
    Changed(&'static str),
    Written(&'static str),
}

use Argument::{Changed, Number, Read, Written};

const N: Argument = Number("n");
const LIST: Argument = Read("list");
const DESCRIPTIONS: Argument = Read("descriptions");

/// The C entries.
#[derive(Clone, Copy, Debug, PartialEq, Eq)]
pub enum Entry {
    CheckList,
    ReadList,
    Measure,
    MeasureRead,
    Encode,
    EncodeRead,
    Decode,
    DecodeRead,
    LookUp,
    LookUpRead,
    CompareSheets,
    CompareSheetsRead,
    ComparePairs,
    ComparePairsRead,
    CutterStart,
    CutterStartRead,
    Cut,
    CutterFinish,
    Join,
    Compare,
}

pub const ENTRIES: [Entry; 20] = [
    Entry::CheckList,
    Entry::ReadList,
    Entry::Measure,
    Entry::MeasureRead,
    Entry::Encode,
    Entry::EncodeRead,
    Entry::Decode,
    Entry::DecodeRead,
    Entry::LookUp,
    Entry::LookUpRead,
    Entry::CompareSheets,
    Entry::CompareSheetsRead,
    Entry::ComparePairs,
    Entry::ComparePairsRead,
    Entry::CutterStart,
    Entry::CutterStartRead,
    Entry::Cut,
    Entry::CutterFinish,
    Entry::Join,
    Entry::Compare,
];

impl Entry {
    pub fn name(self) -> &'static str {
        match self {
            Entry::CheckList => "check_list",
            Entry::ReadList => "read_list",
            Entry::Measure => "measure",
            Entry::MeasureRead => "measure_read",
            Entry::Encode => "encode",
            Entry::EncodeRead => "encode_read",
            Entry::Decode => "decode",
            Entry::DecodeRead => "decode_read",
            Entry::LookUp => "look_up",
            Entry::LookUpRead => "look_up_read",
            Entry::CompareSheets => "compare_sheets",
            Entry::CompareSheetsRead => "compare_sheets_read",
            Entry::ComparePairs => "compare_pairs",
            Entry::ComparePairsRead => "compare_pairs_read",
            Entry::CutterStart => "cutter_start",
            Entry::CutterStartRead => "cutter_start_read",
            Entry::Cut => "cut",
            Entry::CutterFinish => "cutter_finish",
            Entry::Join => "join",
            Entry::Compare => "compare",
        }
    }

    /// The C entry itself.
    fn function(self) -> *const () {
        match self {
            Entry::CheckList => raw::station_check_list as *const (),
            Entry::ReadList => raw::station_read_list as *const (),
            Entry::Measure => raw::station_measure as *const (),
            Entry::MeasureRead => raw::station_measure_read as *const (),
            Entry::Encode => raw::station_encode as *const (),
            Entry::EncodeRead => raw::station_encode_read as *const (),
            Entry::Decode => raw::station_decode as *const (),
            Entry::DecodeRead => raw::station_decode_read as *const (),
            Entry::LookUp => raw::station_look_up as *const (),
            Entry::LookUpRead => raw::station_look_up_read as *const (),
            Entry::CompareSheets => raw::station_compare_sheets as *const (),
            Entry::CompareSheetsRead => raw::station_compare_sheets_read as *const (),
            Entry::ComparePairs => raw::station_compare_pairs as *const (),
            Entry::ComparePairsRead => raw::station_compare_pairs_read as *const (),
            Entry::CutterStart => raw::station_cutter_start as *const (),
            Entry::CutterStartRead => raw::station_cutter_start_read as *const (),
            Entry::Cut => raw::station_cut as *const (),
            Entry::CutterFinish => raw::station_cutter_finish as *const (),
            Entry::Join => raw::station_join as *const (),
            Entry::Compare => raw::station_compare as *const (),
        }
    }

    /// What the entry is given, in its order; all but compare then take an answer.
    fn arguments(self) -> Vec<Argument> {
        let columns = match self.listed() == self {
            true => LIST,
            false => DESCRIPTIONS,
        };
        match self.listed() {
            Entry::CheckList => vec![LIST],
            Entry::ReadList => vec![LIST, Written("descriptions")],
            Entry::Measure => vec![columns, N, Read("sheet")],
            Entry::Encode => {
                let lent = [Written("rows"), Written("offsets")];
                [columns, N, Read("sheet")]
                    .into_iter()
                    .chain(lent)
                    .collect()
            }
            Entry::Decode => {
                let rows = [Read("rows"), Read("offsets"), Written("sheet")];
                [columns, N].into_iter().chain(rows).collect()
            }
            Entry::LookUp => {
                let rows = [N, Read("rows"), Read("offsets")];
                [columns, Number("k"), Read("key")]
                    .into_iter()
                    .chain(rows)
                    .collect()
            }
            Entry::CompareSheets => vec![
                columns,
                Number("n0"),
                Read("sheet0"),
                Number("row0"),
                Number("n1"),
                Read("sheet1"),
                Number("row1"),
            ],
            Entry::ComparePairs => vec![
                columns,
                Number("n0"),
                Read("sheet0"),
                Number("n1"),
                Read("sheet1"),
                Read("pairs"),
                Written("answers"),
            ],
            Entry::CutterStart => vec![columns, Written("state")],
            Entry::Cut => vec![Changed("state"), Read("piece"), Written("ends")],
            Entry::CutterFinish => vec![Read("state")],
            Entry::Join => vec![
                Number("n0"),
                Read("rows0"),
                Read("offsets0"),
                Number("n1"),
                Read("rows1"),
                Read("offsets1"),
                Written("order"),
            ],
            _ => vec![Read("a"), Read("b")],
        }
    }

    /// The entry that takes descriptions in place of the list, of one that takes a list.
    pub fn read(self) -> Option<Entry> {
        match self {
            Entry::Measure => Some(Entry::MeasureRead),
            Entry::Encode => Some(Entry::EncodeRead),
            Entry::Decode => Some(Entry::DecodeRead),
            Entry::LookUp => Some(Entry::LookUpRead),
            Entry::CompareSheets => Some(Entry::CompareSheetsRead),
            Entry::ComparePairs => Some(Entry::ComparePairsRead),
            Entry::CutterStart => Some(Entry::CutterStartRead),
            _ => None,
        }
    }

    /// The entry that takes a list in place of the descriptions, of one that takes these.
    pub fn listed(self) -> Entry {
        let with_list = ENTRIES.into_iter().find(|entry| entry.read() == Some(self));
        with_list.unwrap_or(self)
    }

    /// The columns that the first slice says, of an entry that takes a list or descriptions.
    fn columns(self, first: &[u8]) -> Checked<Vec<Column>> {
        match self.listed() == self {
            true => model::read_list(first),
            false => model::read_descriptions(first),
        }
    }
}

/// One call: the numbers, the slices that are read, and the lengths of those that are only written to,
/// each in the order of the entry. What is only written to holds [`junk`] at first.
#[derive(Clone, Debug, PartialEq, Eq)]
pub struct Call {
    pub entry: Entry,
    /// Counts of rows, and of columns.
    pub numbers: Vec<u64>,
    pub given: Vec<Vec<u8>>,
    pub lent: Vec<usize>,
    pub answer: usize,
}

/// What a call leaves behind: the slices lent for writing, those that are read as well first, the answer,
/// and what compare returned.
#[derive(Debug, PartialEq, Eq)]
pub struct Exit {
    pub lent: Vec<Vec<u8>>,
    pub answer: Vec<u8>,
    pub sign: i32,
}

/// How the slices of a call are lent. Those that are only read are always shut.
#[derive(Clone, Copy)]
pub struct Lending {
    /// Slices of no bytes are null pointers.
    pub nulls: bool,
    /// Slices lent for writing are shut too: the call must leave them as they are.
    pub shut: bool,
}

/// What a lent slice holds at first: bytes that differ from their neighbours, and from zeros.
pub fn junk(len: usize) -> Vec<u8> {
    (0..len).map(|i| (i * 151 + 165) as u8).collect()
}

/// Numbers as eight bytes each, low byte first.
pub fn eights(numbers: &[u64]) -> Vec<u8> {
    numbers.iter().flat_map(|x| x.to_le_bytes()).collect()
}

/// The numbers of bytes, eight each; a shorter tail does not count.
pub fn numbers(bytes: &[u8]) -> Vec<u64> {
    let eight = bytes.chunks_exact(8);
    eight
        .map(|b| u64::from_le_bytes(b.try_into().expect("eight bytes")))
        .collect()
}

impl Call {
    fn new(entry: Entry, numbers: &[u64], given: &[&[u8]], lent: &[usize]) -> Call {
        Call {
            entry,
            numbers: numbers.to_vec(),
            given: given.iter().map(|bytes| bytes.to_vec()).collect(),
            lent: lent.to_vec(),
            answer: station::ANSWER_BYTES,
        }
    }

    pub fn check_list(list: &[u8]) -> Call {
        Call::new(Entry::CheckList, &[], &[list], &[])
    }

    /// The room is bytes.
    pub fn read_list(list: &[u8], descriptions: usize) -> Call {
        Call::new(Entry::ReadList, &[], &[list], &[descriptions])
    }

    pub fn measure(list: &[u8], n: u64, sheet: &[u8]) -> Call {
        Call::new(Entry::Measure, &[n], &[list, sheet], &[])
    }

    /// The rooms are bytes, for offsets too.
    pub fn encode(list: &[u8], n: u64, sheet: &[u8], rows: usize, offsets: usize) -> Call {
        Call::new(Entry::Encode, &[n], &[list, sheet], &[rows, offsets])
    }

    /// The offsets are bytes.
    pub fn decode(list: &[u8], n: u64, rows: &[u8], offsets: &[u8], sheet: usize) -> Call {
        Call::new(Entry::Decode, &[n], &[list, rows, offsets], &[sheet])
    }

    /// The batch is its rows and their offsets in bytes.
    pub fn look_up(list: &[u8], k: u64, key: &[u8], n: u64, batch: [&[u8]; 2]) -> Call {
        let [rows, offsets] = batch;
        Call::new(Entry::LookUp, &[k, n], &[list, key, rows, offsets], &[])
    }

    /// Each sheet with its count of rows, and a row of each.
    pub fn compare_sheets(list: &[u8], sheets: [(u64, &[u8]); 2], rows: [u64; 2]) -> Call {
        let [(n0, sheet0), (n1, sheet1)] = sheets;
        let numbers = [n0, rows[0], n1, rows[1]];
        Call::new(Entry::CompareSheets, &numbers, &[list, sheet0, sheet1], &[])
    }

    /// Each sheet with its count of rows; the pairs and the room are bytes.
    pub fn compare_pairs(
        list: &[u8],
        sheets: [(u64, &[u8]); 2],
        pairs: &[u8],
        answers: usize,
    ) -> Call {
        let [(n0, sheet0), (n1, sheet1)] = sheets;
        let given = [list, sheet0, sheet1, pairs];
        Call::new(Entry::ComparePairs, &[n0, n1], &given, &[answers])
    }

    /// The room is bytes.
    pub fn cutter_start(list: &[u8], state: usize) -> Call {
        Call::new(Entry::CutterStart, &[], &[list], &[state])
    }

    /// The room is bytes.
    pub fn cut(state: &[u8], piece: &[u8], ends: usize) -> Call {
        Call::new(Entry::Cut, &[], &[state, piece], &[ends])
    }

    pub fn cutter_finish(state: &[u8]) -> Call {
        Call::new(Entry::CutterFinish, &[], &[state], &[])
    }

    /// The passes in order, each its rows and their offsets; offsets and room are bytes.
    pub fn join(counts: [u64; 2], passes: [[&[u8]; 2]; 2], order: usize) -> Call {
        Call::new(Entry::Join, &counts, &passes.concat(), &[order])
    }

    pub fn compare(a: &[u8], b: &[u8]) -> Call {
        Call::new(Entry::Compare, &[], &[a, b], &[])
    }

    /// The same call with another number at a place.
    pub fn with_number(mut self, i: usize, number: u64) -> Call {
        self.numbers[i] = number;
        self
    }

    /// The same call with these descriptions in place of its list, if the entry takes a list.
    pub fn under(&self, descriptions: &[u8]) -> Option<Call> {
        let mut call = self.clone();
        call.entry = self.entry.read()?;
        call.given[0] = descriptions.to_vec();
        Some(call)
    }

    /// The same call with the descriptions of its list, if the entry takes a list and it can be read.
    pub fn read(&self) -> Option<Call> {
        let columns = self
            .entry
            .read()
            .and_then(|_| model::read_list(&self.given[0]).ok())?;
        self.under(&descriptions_of(&columns))
    }

    pub fn answer(mut self, len: usize) -> Call {
        self.answer = len;
        self
    }

    /// Whether a slice has no bytes.
    pub fn has_empty(&self) -> bool {
        let given = self.given.iter().map(Vec::len);
        let mut all = given.chain(self.lent.iter().copied()).chain([self.answer]);
        all.any(|len| len == 0)
    }

    /// The bytes that are read, to tell small inputs from large ones.
    pub fn size(&self) -> usize {
        self.given.iter().map(Vec::len).sum()
    }

    /// What document 01 says: the numbers, and what is written in front of each slice lent for writing. An
    /// error where none of them is written to.
    fn said(&self) -> Checked<(Numbers, Vec<Vec<u8>>)> {
        let given = |i: usize| self.given[i].as_slice();
        let number = |i: usize| self.numbers[i];
        Ok(match self.entry {
            Entry::Compare => ([0; 4], vec![]),
            Entry::CheckList => {
                let columns = model::read_list(given(0))?;
                ([0, columns.len() as u64, 0, 0], vec![])
            }
            Entry::ReadList => {
                let columns = model::read_once(given(0), self.lent[0] / 4)?;
                let written = vec![descriptions_of(&columns)];
                ([0, columns.len() as u64, 0, 0], written)
            }
            Entry::Measure | Entry::MeasureRead => {
                let columns = self.entry.columns(given(0))?;
                let measured = model::measure_under(columns, number(0), given(1))?;
                ([0, measured.total, measured.nulls, 0], vec![])
            }
            Entry::Encode | Entry::EncodeRead => {
                let (columns, sheet) = (self.entry.columns(given(0))?, given(1));
                let rooms = (self.lent[0], self.lent[1] / 8);
                let encoded = model::encode_under(columns, number(0), sheet, rooms.0, rooms.1)?;
                let total = encoded.rows.len() as u64;
                let written = vec![encoded.rows, eights(&encoded.offsets)];
                ([0, total, encoded.nulls, 0], written)
            }
            Entry::Decode | Entry::DecodeRead => {
                let (columns, offsets) = (self.entry.columns(given(0))?, numbers(given(2)));
                let (rows, room) = (given(1), self.lent[0]);
                let decoded = model::decode_under(columns, number(0), rows, &offsets, room)?;
                let total = decoded.sheet.len() as u64;
                ([0, total, decoded.nulls, 0], vec![decoded.sheet])
            }
            Entry::LookUp | Entry::LookUpRead => {
                let (columns, offsets) = (self.entry.columns(given(0))?, numbers(given(3)));
                let batch = (number(1), given(2), &offsets[..]);
                let found = model::look_up(&columns, number(0), given(1), batch)?;
                ([0, found.start as u64, found.end as u64, 0], vec![])
            }
            Entry::CompareSheets | Entry::CompareSheetsRead => {
                let columns = self.entry.columns(given(0))?;
                let sheets = [(number(0), given(1)), (number(2), given(2))];
                let pairs = [number(1), number(3)];
                let ranks = model::compare_pairs(&columns, sheets, &pairs, 1)?;
                ([0, ranks[0] as u64, 0, 0], vec![])
            }
            Entry::ComparePairs | Entry::ComparePairsRead => {
                let columns = self.entry.columns(given(0))?;
                let sheets = [(number(0), given(1)), (number(1), given(2))];
                let pairs = numbers(given(3));
                let ranks = model::compare_pairs(&columns, sheets, &pairs, self.lent[0])?;
                ([0, ranks.len() as u64, 0, 0], vec![ranks])
            }
            Entry::CutterStart | Entry::CutterStartRead => {
                if self.lent[0] < cutter::STATE_BYTES {
                    return Err([33, 0, 0, 0]);
                }
                let columns = self.entry.columns(given(0));
                let answer = columns
                    .as_ref()
                    .map(|columns| [0, columns.len() as u64, 0, 0]);
                let answer = answer.unwrap_or_else(|refusal| *refusal);
                (answer, vec![state_bytes(&cutter::start(columns))])
            }
            Entry::Cut => {
                let (state, room) = (cutter::read_state(given(0)), self.lent[0] / 8);
                let cut = cutter::cut(state, given(1), room)?;
                (cut.answer, vec![state_bytes(&cut.state), eights(&cut.ends)])
            }
            Entry::CutterFinish => {
                let state = cutter::read_state(given(0));
                (cutter::finish(state)?, vec![])
            }
            Entry::Join => {
                let offsets = [numbers(given(1)), numbers(given(3))];
                let first = (number(0), given(0), &offsets[0][..]);
                let second = (number(1), given(2), &offsets[1][..]);
                let order = model::join(first, second, self.lent[0] / 8)?;
                ([0, order.len() as u64, 0, 0], vec![eights(&order)])
            }
        })
    }

    /// The places of the slices that are read and written to, among those that are read.
    fn changed(&self) -> Vec<usize> {
        let arguments = self.entry.arguments().into_iter();
        let read = arguments.filter(|argument| matches!(argument, Read(_) | Changed(_)));
        let places = read.enumerate();
        let changed = places.filter(|(_, argument)| matches!(argument, Changed(_)));
        changed.map(|(place, _)| place).collect()
    }

    /// What the call must leave behind.
    pub fn expected(&self) -> Exit {
        self.expected_or_stays().0
    }

    /// What the call must leave behind, and whether nothing but the answer may be written.
    pub fn expected_or_stays(&self) -> (Exit, bool) {
        let changed = self.changed().into_iter().map(|i| self.given[i].clone());
        let written = self.lent.iter().map(|len| junk(*len));
        let mut lent: Vec<Vec<u8>> = changed.chain(written).collect();
        let mut answer = junk(self.answer);
        let (mut sign, mut stays) = (0, self.entry != Entry::Compare);
        if self.entry == Entry::Compare {
            sign = self.given[0].cmp(&self.given[1]) as i32;
        } else if answer.len() >= station::ANSWER_BYTES {
            let said = self.said();
            stays = said.is_err();
            let (numbers, written) = said.unwrap_or_else(|numbers| (numbers, vec![]));
            answer[..station::ANSWER_BYTES].copy_from_slice(&eights(&numbers));
            for (buffer, new) in lent.iter_mut().zip(written) {
                buffer[..new.len()].copy_from_slice(&new);
            }
        }
        (Exit { lent, answer, sign }, stays)
    }

    /// Whether every batch of the call has few rows: of the numbers, `n`, `n0` and `n1` count rows.
    fn rows(&self) -> Rows {
        let arguments = self.entry.arguments().into_iter();
        let names = arguments.filter_map(|argument| match argument {
            Number(name) => Some(name),
            _ => None,
        });
        let mut counts = names.zip(&self.numbers);
        match counts.all(|(name, number)| !name.starts_with('n') || *number <= FEW_ROWS) {
            true => Rows::Few,
            false => Rows::Any,
        }
    }

    /// What the station leaves behind; a fault if it touched anything else. The call runs on a stack of
    /// the entry's own, if there are such.
    pub fn performed(
        &self,
        yard: &mut Yard,
        stacks: Option<&mut Stacks>,
        lending: Lending,
    ) -> Result<Exit, String> {
        let mut lend = |bytes: &[u8], shut: bool| {
            if lending.nulls && bytes.is_empty() {
                return Lend::NULL;
            }
            let lend = yard.lend(bytes);
            if shut {
                yard.shut(lend);
            }
            lend
        };
        let changed = self.changed();
        let given = self.given.iter().enumerate();
        let given = given.map(|(i, bytes)| lend(bytes, lending.shut || !changed.contains(&i)));
        let given: Vec<Lend> = given.collect();
        let lent = self.lent.iter().map(|len| lend(&junk(*len), lending.shut));
        let lent: Vec<Lend> = lent.collect();
        let answer = lend(&junk(self.answer), self.answer < station::ANSWER_BYTES);
        let (function, words) = (self.entry.function(), self.words(&given, &lent, answer));
        // SAFETY: each pointer comes with the length of its own slice, and no two overlap.
        let returned = trap::during(self, || unsafe {
            match stacks {
                Some(stacks) => stacks.call(self.entry, self.rows(), function, words),
                None => stack::call_here(function, words),
            }
        });
        let left = changed.iter().map(|i| &given[*i]).chain(&lent);
        let exit = Exit {
            lent: left.map(|l| yard.bytes(*l).to_vec()).collect(),
            answer: yard.bytes(answer).to_vec(),
            sign: match self.entry {
                Entry::Compare => returned as i32,
                _ => 0,
            },
        };
        let kept = given.iter().zip(&self.given).enumerate();
        let mut kept = kept.filter(|(i, _)| !changed.contains(i));
        let differs = kept.any(|(_, (lend, before))| yard.bytes(*lend) != before);
        yard.take_back()?;
        match differs {
            true => Err("a slice that is only read has changed".to_string()),
            false => Ok(exit),
        }
    }

    /// What the C entry is given: numbers as they are, each slice as a pointer and a length, the answer
    /// last. Words past its own it does not see.
    fn words(&self, given: &[Lend], lent: &[Lend], answer: Lend) -> [u64; WORDS] {
        let (mut numbers, mut given, mut lent) = (self.numbers.iter(), given.iter(), lent.iter());
        let two = |slice: Lend| vec![slice.at as u64, slice.len as u64];
        let arguments = self.entry.arguments().into_iter();
        let words = arguments.map(|argument| match argument {
            Number(_) => vec![*numbers.next().expect("a number")],
            Read(_) | Changed(_) => two(*given.next().expect("a slice to read")),
            Written(_) => two(*lent.next().expect("a slice to write to")),
        });
        let mut words: Vec<u64> = words.flatten().collect();
        if self.entry != Entry::Compare {
            words.extend(two(answer));
        }
        words.resize(WORDS, 0);
        words.try_into().expect("as many")
    }
}

impl fmt::Display for Call {
    fn fmt(&self, f: &mut fmt::Formatter<'_>) -> fmt::Result {
        let mut numbers = self.numbers.iter();
        let (mut given, mut lent) = (self.given.iter(), self.lent.iter());
        write!(f, "{}", self.entry.name())?;
        for argument in self.entry.arguments() {
            match argument {
                Number(name) => write!(f, " {name} {}", numbers.next().expect("a number"))?,
                Read(name) | Changed(name) => {
                    let bytes = given.next().expect("a slice to read");
                    write!(f, " {name} {}", hex_start(bytes))?
                }
                Written(name) => {
                    let room = lent.next().expect("a slice to write to");
                    write!(f, " room for {name} {room}")?
                }
            }
        }
        write!(f, " room for the answer {}", self.answer)
    }
}

impl fmt::Display for Exit {
    fn fmt(&self, f: &mut fmt::Formatter<'_>) -> fmt::Result {
        write!(
            f,
            "numbers {:?} returned {}",
            numbers(&self.answer),
            self.sign
        )?;
        for bytes in &self.lent {
            write!(f, " lent {}", hex_start(bytes))?;
        }
        Ok(())
    }
}
