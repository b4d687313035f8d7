//! The station's compare beside memcmp.

use crate::lines::Works;
use oracle::rng::Rng;
use std::cmp::Ordering;
use std::ffi::{c_int, c_void};
use std::hint::black_box;
use std::ops::RangeInclusive;

/// The pairs of one call.
pub const PAIRS: usize = 1024;

extern "C" {
    fn memcmp(a: *const c_void, b: *const c_void, count: usize) -> c_int;
}

/// Pairs of strings of one length each.
pub struct Strings {
    pairs: Vec<[Vec<u8>; 2]>,
    /// What was answered of each pair.
    signs: Vec<i8>,
}

impl Strings {
    /// Pairs of such lengths: of equal strings, or of such that differ in one byte, anywhere.
    pub fn new(lengths: RangeInclusive<usize>, equal: bool) -> Strings {
        let mut rng = Rng::new(12);
        let lengths: Vec<usize> = lengths.collect();
        let pairs = (0..PAIRS).map(|_| {
            let length = rng.pick(&lengths);
            let a = rng.bytes(length);
            let mut b = a.clone();
            if !equal {
                b[rng.below(length)] ^= 1 << rng.below(8);
            }
            [a, b]
        });
        Strings {
            pairs: pairs.collect(),
            signs: vec![0; PAIRS],
        }
    }

    #[inline(never)]
    fn station_compare(&mut self) {
        for ([a, b], sign) in black_box(&self.pairs).iter().zip(&mut self.signs) {
            *sign = station::compare(a, b) as i8;
        }
    }

    #[inline(never)]
    fn memcmp(&mut self) {
        for ([a, b], sign) in black_box(&self.pairs).iter().zip(&mut self.signs) {
            // SAFETY: both have as many bytes.
            let order = unsafe { memcmp(a.as_ptr().cast(), b.as_ptr().cast(), a.len()) };
            *sign = order.signum() as i8;
        }
    }
}

impl Works for Strings {
    fn clear(&mut self) {}

    fn station(&mut self) {
        self.station_compare()
    }

    fn other(&mut self) {
        self.memcmp()
    }

    /// Both answer what the order of slices is.
    fn check(&mut self) {
        let order = |[a, b]: &[Vec<u8>; 2]| match a.cmp(b) {
            Ordering::Less => -1,
            Ordering::Equal => 0,
            Ordering::Greater => 1,
        };
        let signs: Vec<i8> = self.pairs.iter().map(order).collect();
        self.station();
        assert!(self.signs == signs);
        self.signs.fill(2);
        self.other();
        assert!(self.signs == signs);
    }
}
