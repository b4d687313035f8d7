//! Arrays of byte strings that lie between offsets.

use crate::types::{ByteArrayType, GenericBinaryType, GenericStringType};
use arrow_buffer::{ArrowNativeType, Buffer, NullBuffer, OffsetBuffer};

/// The type of an array's offsets.
pub trait OffsetSizeTrait: ArrowNativeType + 'static {
    fn zero() -> Self;
}

impl OffsetSizeTrait for i32 {
    fn zero() -> Self {
        0
    }
}

impl OffsetSizeTrait for i64 {
    fn zero() -> Self {
        0
    }
}

/// Byte strings: string i lies between offsets i and i + 1.
pub struct GenericByteArray<T: ByteArrayType> {
    offsets: OffsetBuffer<T::Offset>,
    values: Buffer,
    nulls: Option<NullBuffer>,
}

pub type GenericBinaryArray<O> = GenericByteArray<GenericBinaryType<O>>;
pub type GenericStringArray<O> = GenericByteArray<GenericStringType<O>>;

type Parts<O> = (OffsetBuffer<O>, Buffer, Option<NullBuffer>);

impl<T: ByteArrayType> GenericByteArray<T> {
    /// # Safety
    /// The last offset does not pass the values.
    pub unsafe fn new_unchecked(
        offsets: OffsetBuffer<T::Offset>,
        values: Buffer,
        nulls: Option<NullBuffer>,
    ) -> Self {
        GenericByteArray {
            offsets,
            values,
            nulls,
        }
    }

    pub fn into_parts(self) -> Parts<T::Offset> {
        (self.offsets, self.values, self.nulls)
    }

    pub fn offsets(&self) -> &OffsetBuffer<T::Offset> {
        &self.offsets
    }

    pub fn value_offsets(&self) -> &[T::Offset] {
        &self.offsets
    }

    pub fn values(&self) -> &Buffer {
        &self.values
    }

    pub fn value(&self, i: usize) -> &[u8] {
        &self.values.as_slice()[self.offsets[i].as_usize()..self.offsets[i + 1].as_usize()]
    }

    pub fn nulls(&self) -> Option<&NullBuffer> {
        self.nulls.as_ref()
    }
}

/// Strings are left out of the station, so their bytes are taken as they stand.
impl<O: OffsetSizeTrait> From<GenericBinaryArray<O>> for GenericStringArray<O> {
    fn from(binary: GenericBinaryArray<O>) -> Self {
        let (offsets, values, nulls) = binary.into_parts();
        // SAFETY: the parts are those of an array.
        unsafe { GenericByteArray::new_unchecked(offsets, values, nulls) }
    }
}
