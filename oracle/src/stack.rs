//! How deep each entry goes into its stack.
//!
//! Every fenced call of an entry runs on a stack that only this entry uses, and calls on batches of few
//! rows on another one. It was painted once, and what is no longer paint has been written by one call or
//! another: so the deepest of all calls is known without a look at each. `include/station.h` says what
//! each entry takes.

use crate::call::{Entry, ENTRIES};
use crate::yard::Pen;
use std::arch::asm;
use std::mem::transmute;

/// The words that a C entry takes: pointers and numbers, the first six in registers.
pub const WORDS: usize = 14;
const IN_REGISTERS: usize = 6;

/// The room of a stack, below the words that the caller puts there. Below it lies a page that traps.
const ROOM: usize = 1 << 18;
const PAINT: u8 = 0xB7;

/// What a caller is told.
const HEADER: &str = include_str!("../../include/station.h");
const README: &str = include_str!("../../README.md");

/// How many rows the batches of a call have.
#[derive(Clone, Copy, Debug, PartialEq, Eq)]
pub enum Rows {
    /// Up to [`FEW_ROWS`] in each.
    Few,
    Any,
}

pub const FEW_ROWS: u64 = 512;
pub const ROWS: [Rows; 2] = [Rows::Few, Rows::Any];

/// Two stacks for each entry: for calls on few rows, and for the others.
pub struct Stacks {
    stacks: [[Pen; ROWS.len()]; ENTRIES.len()],
}

impl Stacks {
    pub fn painted() -> Stacks {
        Stacks {
            stacks: ENTRIES.map(|_| {
                ROWS.map(|_| {
                    let mut stack = Pen::new();
                    stack.part_mut(0, ROOM).fill(PAINT);
                    stack
                })
            }),
        }
    }

    /// Calls a C function with these words on a stack of an entry.
    ///
    /// # Safety
    /// As of the function.
    pub unsafe fn call(
        &mut self,
        entry: Entry,
        rows: Rows,
        function: *const (),
        words: [u64; WORDS],
    ) -> u64 {
        let stack = &mut self.stacks[entry as usize][rows as usize];
        let (first, others) = words.split_at(IN_REGISTERS);
        for (i, word) in others.iter().enumerate() {
            let bytes = stack.part_mut(ROOM + 8 * i, 8);
            bytes.copy_from_slice(&word.to_le_bytes());
        }
        let top = stack.part_mut(ROOM, 8 * others.len()).as_mut_ptr();
        let result;
        // SAFETY: the stack is this pen's alone and not in use; its top is a multiple of 16, as a
        // call wants it, and has the words there that come after the sixth. The old stack pointer
        // waits in a register that the function keeps, as it keeps all that are not named as lost.
        unsafe {
            asm!(
                "mov r12, rsp",
                "mov rsp, r13",
                "call r14",
                "mov rsp, r12",
                in("rdi") first[0],
                in("rsi") first[1],
                in("rdx") first[2],
                in("rcx") first[3],
                in("r8") first[4],
                in("r9") first[5],
                in("r13") top,
                in("r14") function,
                out("r12") _,
                lateout("rax") result,
                clobber_abi("C"),
            )
        }
        result
    }

    /// The most bytes that a call took of an entry's stack, from its return address down.
    pub fn deepest(&self, entry: Entry, rows: Rows) -> usize {
        let bytes = self.stacks[entry as usize][rows as usize].part(0, ROOM);
        let paint = bytes.iter().take_while(|b| **b == PAINT).count();
        ROOM - paint
    }
}

/// Calls a C function with these words on the stack at hand.
///
/// # Safety
/// As of the function.
pub unsafe fn call_here(function: *const (), words: [u64; WORDS]) -> u64 {
    type Word = u64;
    type Entry = extern "C" fn(
        Word,
        Word,
        Word,
        Word,
        Word,
        Word,
        Word,
        Word,
        Word,
        Word,
        Word,
        Word,
        Word,
        Word,
    ) -> Word;
    // SAFETY: a C function on this machine does not see that it was given words past its own.
    let entry = unsafe { transmute::<*const (), Entry>(function) };
    let [a, b, c, d, e, f, g, h, i, j, k, l, m, n] = words;
    entry(a, b, c, d, e, f, g, h, i, j, k, l, m, n)
}

/// What the header says that an entry takes: `STATION_NAME_STACK = 1024`, and where few rows take less,
/// `STATION_NAME_STACK_512 = 512`.
pub fn promised(entry: Entry, rows: Rows) -> usize {
    let name = format!("STATION_{}_STACK", entry.name().to_uppercase());
    let any = figure(&name).unwrap_or_else(|| panic!("{name} has no number in station.h"));
    match rows {
        Rows::Few => figure(&format!("{name}_{FEW_ROWS}")).unwrap_or(any),
        Rows::Any => any,
    }
}

/// The number of an enumerator of the header.
fn figure(name: &str) -> Option<usize> {
    let (_, rest) = HEADER.split_once(&format!(" {name} = "))?;
    let digits = rest.split(|c: char| !c.is_ascii_digit()).next();
    digits?.parse().ok()
}

/// Whether the README says the same: a row of a table, `| `name` | 512 | 1,024 |`.
pub fn is_in_readme(entry: Entry) -> bool {
    let [few, any] = ROWS.map(|rows| match promised(entry, rows) {
        bytes @ 0..1000 => bytes.to_string(),
        bytes => format!("{},{:03}", bytes / 1000, bytes % 1000),
    });
    README.contains(&format!("| `{}` | {few} | {any} |", entry.name()))
}

#[cfg(test)]
mod tests {
    use super::*;
    use std::hint::black_box;

    /// Takes 5,000 or 50,000 bytes, and returns the sum of its words, each with its place as weight.
    #[inline(never)]
    #[allow(clippy::too_many_arguments)]
    extern "C" fn deep(
        much: u64,
        b: u64,
        c: u64,
        d: u64,
        e: u64,
        f: u64,
        g: u64,
        h: u64,
        i: u64,
        j: u64,
        k: u64,
        l: u64,
        m: u64,
        n: u64,
    ) -> u64 {
        #[inline(never)]
        fn take<const N: usize>() {
            black_box(&mut [1u8; N]);
        }
        match much {
            0 => take::<5_000>(),
            _ => take::<50_000>(),
        }
        let words = [much, b, c, d, e, f, g, h, i, j, k, l, m, n];
        words.into_iter().zip(1..).map(|(w, place)| w * place).sum()
    }

    const WORDS_OF_DEEP: [u64; WORDS] = [0, 5, 2, 8, 3, 9, 1, 7, 4, 6, 10, 11, 13, 12];

    /// The sum that `deep` returns.
    const SUM: u64 = {
        let (mut sum, mut i) = (0, 0);
        while i < WORDS {
            sum += WORDS_OF_DEEP[i] * (i as u64 + 1);
            i += 1;
        }
        sum
    };

    #[test]
    fn words_arrive_and_what_a_call_takes_is_seen() {
        let function = deep as *const ();
        let mut stacks = Stacks::painted();
        let mut much = WORDS_OF_DEEP;
        much[0] = 1;
        // SAFETY: `deep` takes any words.
        unsafe {
            assert_eq!(call_here(function, WORDS_OF_DEEP), SUM);
            let mut call = |rows, words| stacks.call(Entry::Decode, rows, function, words);
            assert_eq!(call(Rows::Few, WORDS_OF_DEEP), SUM);
            assert_eq!(call(Rows::Any, much), SUM + 1);
            assert_eq!(call(Rows::Any, WORDS_OF_DEEP), SUM);
            let [little, more] = ROWS.map(|rows| stacks.deepest(Entry::Decode, rows));
            assert!((5_000..5_500).contains(&little), "{little}");
            assert!((50_000..50_500).contains(&more), "{more}");
            assert_eq!(stacks.deepest(Entry::Encode, Rows::Any), 0);
        }
    }

    #[test]
    fn every_entry_has_a_figure() {
        for entry in ENTRIES {
            assert!(promised(entry, Rows::Few) > 0 && is_in_readme(entry));
            assert!(promised(entry, Rows::Few) <= promised(entry, Rows::Any));
        }
    }
}
