//! Memory to lend to the station, fenced so that no stray byte goes unseen.
//!
//! Each slice lies in a pen of its own, flush against a page that may not be touched, now at its
//! start and now at its end: a read or a write past that side stops the program at once (see
//! [`crate::trap`]). On the other side stand guard bytes, which are looked at after the call. A slice
//! that must stay as it is can be shut: then a write to it stops the program too, even one of the
//! byte that is there.

use std::ffi::{c_int, c_void};

const PAGE: usize = 4096;
/// The room of a pen; only what is used of it takes memory.
const PEN: usize = 1 << 25;
/// The guard bytes beside a slice.
const ZONE: usize = 4096;
const GUARD: u8 = 0xC3;
/// As many as a call lends slices.
const PENS: usize = 6;

extern "C" {
    fn mmap(
        address: *mut c_void,
        len: usize,
        protection: c_int,
        flags: c_int,
        file: c_int,
        offset: i64,
    ) -> *mut c_void;
    fn mprotect(address: *mut c_void, len: usize, protection: c_int) -> c_int;
}

const PROT_NONE: c_int = 0;
const PROT_READ: c_int = 1;
const PROT_READ_WRITE: c_int = 1 | 2;
/// Private, anonymous, with no memory set aside (Linux).
const MAP_FLAGS: c_int = 0x02 | 0x20 | 0x4000;

/// A slice that is lent.
#[derive(Clone, Copy)]
pub struct Lend {
    pub at: *mut u8,
    pub len: usize,
}

impl Lend {
    /// No bytes, at no place.
    pub const NULL: Lend = Lend {
        at: std::ptr::null_mut(),
        len: 0,
    };
}

/// `PEN` bytes between two pages that trap.
pub struct Pen {
    start: *mut u8,
}

impl Pen {
    pub fn new() -> Pen {
        // SAFETY: a fresh mapping, of which the pages between the first and the last are opened.
        unsafe {
            let len = PEN + 2 * PAGE;
            let fence = mmap(std::ptr::null_mut(), len, PROT_NONE, MAP_FLAGS, -1, 0);
            assert!(fence as isize != -1, "no memory for a pen");
            let start = fence.byte_add(PAGE);
            assert!(
                mprotect(start, PEN, PROT_READ_WRITE) == 0,
                "a pen stays shut"
            );
            Pen {
                start: start.cast(),
            }
        }
    }

    /// Where a slice of `len` bytes lies, flush against one end, and where its guard bytes start.
    fn place(&self, len: usize, at_end: bool) -> (usize, usize) {
        match at_end {
            true => (PEN - len, PEN - len - ZONE),
            false => (0, len),
        }
    }

    pub fn part(&self, from: usize, len: usize) -> &[u8] {
        assert!(from + len <= PEN);
        // SAFETY: inside the pen, which lives as long as the program; mapped memory starts as zeros.
        unsafe { std::slice::from_raw_parts(self.start.add(from), len) }
    }

    pub fn part_mut(&mut self, from: usize, len: usize) -> &mut [u8] {
        assert!(from + len <= PEN);
        // SAFETY: as in `part`, and the pen is borrowed alone.
        unsafe { std::slice::from_raw_parts_mut(self.start.add(from), len) }
    }
}

/// The slices of one call.
pub struct Yard {
    pens: Vec<Pen>,
    /// Where the guard bytes of each pen in use start.
    guards: Vec<usize>,
    /// The pages that are shut.
    shut: Vec<Lend>,
    turn: usize,
    /// In place of pens: blocks of the heap, each exactly as long as its slice.
    blocks: Option<Vec<Box<[u8]>>>,
}

impl Yard {
    /// Slices in pens.
    pub fn fenced() -> Yard {
        Yard {
            pens: (0..PENS).map(|_| Pen::new()).collect(),
            guards: Vec::new(),
            shut: Vec::new(),
            turn: 0,
            blocks: None,
        }
    }

    /// Slices in blocks of the heap, for a checker of memory such as valgrind.
    pub fn on_heap() -> Yard {
        Yard {
            pens: Vec::new(),
            guards: Vec::new(),
            shut: Vec::new(),
            turn: 0,
            blocks: Some(Vec::new()),
        }
    }

    /// Whether slices lie in pens.
    pub fn is_fenced(&self) -> bool {
        self.blocks.is_none()
    }

    /// Lends a copy of the bytes until [`Yard::take_back`].
    pub fn lend(&mut self, bytes: &[u8]) -> Lend {
        let len = bytes.len();
        if let Some(blocks) = &mut self.blocks {
            let mut block: Box<[u8]> = bytes.into();
            let at = block.as_mut_ptr();
            blocks.push(block);
            return Lend { at, len };
        }
        assert!(len + ZONE <= PEN, "a slice too long for a pen");
        self.turn += 1;
        let pen = &mut self.pens[self.guards.len()];
        // The Thue-Morse sequence has no period, so each slice of a call lies now this way, now that.
        let (place, guard) = pen.place(len, self.turn.count_ones().is_multiple_of(2));
        pen.part_mut(guard, ZONE).fill(GUARD);
        pen.part_mut(place, len).copy_from_slice(bytes);
        self.guards.push(guard);
        let at = pen.part_mut(place, len).as_mut_ptr();
        Lend { at, len }
    }

    /// Shuts a lent slice: until it is taken back, its pages can only be read. On the heap, where
    /// blocks share pages, nothing happens.
    pub fn shut(&mut self, lend: Lend) {
        if self.blocks.is_some() || lend.len == 0 {
            return;
        }
        let before = lend.at as usize % PAGE;
        let pages = Lend {
            at: lend.at.wrapping_sub(before),
            len: (before + lend.len).next_multiple_of(PAGE),
        };
        protect(pages, PROT_READ);
        self.shut.push(pages);
    }

    /// What a lent slice holds now.
    pub fn bytes(&self, lend: Lend) -> &[u8] {
        if lend.len == 0 {
            return &[];
        }
        // SAFETY: `lend` came from this yard and has not been taken back.
        unsafe { std::slice::from_raw_parts(lend.at, lend.len) }
    }

    /// Ends all lending; a fault if a guard byte has changed.
    pub fn take_back(&mut self) -> Result<(), String> {
        if let Some(blocks) = &mut self.blocks {
            blocks.clear();
        }
        for pages in self.shut.drain(..) {
            protect(pages, PROT_READ_WRITE);
        }
        let mut kept = self.pens.iter().zip(&self.guards);
        let trespass = kept.any(|(pen, guard)| pen.part(*guard, ZONE).iter().any(|b| *b != GUARD));
        self.guards.clear();
        match trespass {
            true => Err("a byte beside a lent slice has changed".to_string()),
            false => Ok(()),
        }
    }
}

/// Says what may be done with pages of a pen.
fn protect(pages: Lend, protection: c_int) {
    // SAFETY: whole pages of a pen, which nothing but the yard and the call under way uses.
    let done = unsafe { mprotect(pages.at.cast(), pages.len, protection) };
    assert!(done == 0, "the pages of a slice stay as they were");
}

#[cfg(test)]
mod tests {
    use super::*;

    #[test]
    fn a_byte_beside_a_slice_is_seen() {
        let mut yard = Yard::fenced();
        for turn in 0..8 {
            let lend = yard.lend(&[1, 2, 3]);
            assert_eq!(yard.bytes(lend), [1, 2, 3]);
            // SAFETY: a slice at the start of its pen begins on a page and has its guard bytes after
            // it; one at the end has them before it.
            unsafe {
                let before = !(lend.at as usize).is_multiple_of(PAGE);
                let beside = if before {
                    lend.at.sub(1)
                } else {
                    lend.at.add(3)
                };
                assert_eq!(*beside, GUARD);
                *beside = if turn % 2 == 0 { 7 } else { GUARD };
            }
            assert_eq!(yard.take_back().is_err(), turn % 2 == 0);
        }
    }

    #[test]
    fn a_shut_slice_is_read_and_opens_again() {
        let mut yard = Yard::fenced();
        for turn in 0..8 {
            let lend = yard.lend(&[turn; 5000]);
            yard.shut(lend);
            assert_eq!(yard.bytes(lend), [turn; 5000]);
            assert!(yard.take_back().is_ok());
        }
    }

    #[test]
    fn blocks_of_the_heap_hold_the_bytes() {
        let mut yard = Yard::on_heap();
        let (a, b) = (yard.lend(&[1, 2]), yard.lend(&[]));
        assert_eq!((yard.bytes(a), yard.bytes(b)), (&[1, 2][..], &[][..]));
        assert!(yard.take_back().is_ok());
    }
}
