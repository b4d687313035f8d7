//! Packed bits, least bit first.

use crate::Buffer;

/// Arithmetic on counts of bits.
pub mod bit_util {
    /// `value / divisor`, rounded up.
    #[inline]
    pub fn ceil(value: usize, divisor: usize) -> usize {
        value.div_ceil(divisor)
    }
}

/// `len` bits from bit `offset` of a buffer on.
#[derive(Clone, Debug)]
pub struct BooleanBuffer {
    buffer: Buffer,
    offset: usize,
    len: usize,
}

impl BooleanBuffer {
    pub fn new(buffer: Buffer, offset: usize, len: usize) -> Self {
        assert!(offset + len <= 8 * buffer.as_slice().len(), "bits missing");
        BooleanBuffer {
            buffer,
            offset,
            len,
        }
    }

    /// The bits that `f` says, packed.
    pub fn collect_bool(len: usize, f: impl Fn(usize) -> bool) -> Self {
        let mut bytes = vec![0; len.div_ceil(8)];
        for i in (0..len).filter(|&i| f(i)) {
            bytes[i / 8] |= 1 << (i % 8);
        }
        BooleanBuffer::new(bytes.into(), 0, len)
    }

    #[inline]
    pub fn value(&self, i: usize) -> bool {
        assert!(i < self.len, "bit {i} of {}", self.len);
        // SAFETY: `new` saw that the buffer holds every bit below `offset + len`.
        unsafe { self.bit(i) }
    }

    #[inline]
    pub fn iter(&self) -> impl ExactSizeIterator<Item = bool> + '_ {
        // SAFETY: i is below `len`, as in `value`.
        (0..self.len).map(move |i| unsafe { self.bit(i) })
    }

    /// Bit i, unchecked, as the crate's own iterator over bits reads it.
    ///
    /// # Safety
    /// i is below `len`.
    #[inline]
    unsafe fn bit(&self, i: usize) -> bool {
        let at = self.offset + i;
        // SAFETY: the caller's, and `new`'s.
        let byte = unsafe { *self.buffer.as_slice().get_unchecked(at / 8) };
        byte >> (at % 8) & 1 == 1
    }
}

/// Validity bits with the count of the clear ones.
#[derive(Clone, Debug)]
pub struct NullBuffer {
    valid: BooleanBuffer,
    null_count: usize,
}

impl NullBuffer {
    pub fn new(valid: BooleanBuffer) -> Self {
        let null_count = valid.iter().filter(|v| !v).count();
        NullBuffer { valid, null_count }
    }

    pub fn null_count(&self) -> usize {
        self.null_count
    }

    #[inline]
    pub fn iter(&self) -> impl ExactSizeIterator<Item = bool> + '_ {
        self.valid.iter()
    }

    #[inline]
    pub fn is_valid(&self, i: usize) -> bool {
        self.valid.value(i)
    }
}
