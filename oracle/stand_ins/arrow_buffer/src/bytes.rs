//! Buffers of bytes, of values and of offsets.

use crate::ArrowNativeType;
use std::ops::{Deref, DerefMut};

/// Bytes that no longer change.
#[derive(Clone, Debug)]
pub struct Buffer(Vec<u8>);

impl Buffer {
    pub fn as_slice(&self) -> &[u8] {
        &self.0
    }
}

impl From<Vec<u8>> for Buffer {
    fn from(bytes: Vec<u8>) -> Self {
        Buffer(bytes)
    }
}

impl From<MutableBuffer> for Buffer {
    fn from(bytes: MutableBuffer) -> Self {
        Buffer(bytes.0)
    }
}

/// Bytes that grow.
pub struct MutableBuffer(Vec<u8>);

impl MutableBuffer {
    pub fn new(capacity: usize) -> Self {
        MutableBuffer(Vec::with_capacity(capacity))
    }

    #[inline]
    pub fn push(&mut self, word: u64) {
        self.0.extend_from_slice(&word.to_le_bytes());
    }

    #[inline]
    pub fn extend_from_slice(&mut self, bytes: &[u8]) {
        self.0.extend_from_slice(bytes);
    }

    pub fn as_slice_mut(&mut self) -> &mut [u8] {
        &mut self.0
    }

    pub fn truncate(&mut self, len: usize) {
        self.0.truncate(len);
    }
}

impl Deref for MutableBuffer {
    type Target = [u8];

    fn deref(&self) -> &[u8] {
        &self.0
    }
}

impl DerefMut for MutableBuffer {
    fn deref_mut(&mut self) -> &mut [u8] {
        &mut self.0
    }
}

/// Values, one after the other.
#[derive(Clone, Debug)]
pub struct ScalarBuffer<T>(Vec<T>);

impl<T> From<Vec<T>> for ScalarBuffer<T> {
    fn from(values: Vec<T>) -> Self {
        ScalarBuffer(values)
    }
}

impl<T> Deref for ScalarBuffer<T> {
    type Target = [T];

    fn deref(&self) -> &[T] {
        &self.0
    }
}

/// Offsets: 0 or more, none falling.
#[derive(Clone, Debug)]
pub struct OffsetBuffer<O>(ScalarBuffer<O>);

impl<O: ArrowNativeType> OffsetBuffer<O> {
    pub fn new(offsets: ScalarBuffer<O>) -> Self {
        assert!(!offsets.is_empty(), "at least one offset");
        let falls = offsets
            .windows(2)
            .any(|w| w[1].as_usize() < w[0].as_usize());
        assert!(!falls, "offsets fall");
        OffsetBuffer(offsets)
    }

    /// What lies between each two offsets.
    pub fn lengths(&self) -> impl ExactSizeIterator<Item = usize> + '_ {
        self.windows(2).map(|w| w[1].as_usize() - w[0].as_usize())
    }
}

impl<O> Deref for OffsetBuffer<O> {
    type Target = [O];

    fn deref(&self) -> &[O] {
        &self.0
    }
}
