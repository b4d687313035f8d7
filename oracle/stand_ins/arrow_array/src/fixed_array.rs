//! Arrays of values that have one width.

use crate::ArrowPrimitiveType;
use arrow_buffer::{BooleanBuffer, Buffer, NullBuffer, ScalarBuffer};
use arrow_schema::DataType;

/// Values of a primitive type.
pub struct PrimitiveArray<T: ArrowPrimitiveType> {
    values: ScalarBuffer<T::Native>,
    nulls: Option<NullBuffer>,
}

impl<T: ArrowPrimitiveType> PrimitiveArray<T> {
    pub fn new(values: ScalarBuffer<T::Native>, nulls: Option<NullBuffer>) -> Self {
        PrimitiveArray { values, nulls }
    }

    pub fn is_compatible(data_type: &DataType) -> bool {
        *data_type == T::DATA_TYPE
    }

    /// The array itself: the types here have one data type each.
    pub fn with_data_type(self, data_type: DataType) -> Self {
        assert!(Self::is_compatible(&data_type));
        self
    }

    pub fn values(&self) -> &ScalarBuffer<T::Native> {
        &self.values
    }

    pub fn nulls(&self) -> Option<&NullBuffer> {
        self.nulls.as_ref()
    }
}

/// Bools.
pub struct BooleanArray {
    values: BooleanBuffer,
    nulls: Option<NullBuffer>,
}

impl BooleanArray {
    pub fn new(values: BooleanBuffer, nulls: Option<NullBuffer>) -> Self {
        BooleanArray { values, nulls }
    }

    pub fn values(&self) -> &BooleanBuffer {
        &self.values
    }

    pub fn nulls(&self) -> Option<&NullBuffer> {
        self.nulls.as_ref()
    }
}

/// Byte strings of one width.
pub struct FixedSizeBinaryArray {
    size: i32,
    values: Buffer,
    nulls: Option<NullBuffer>,
    len: usize,
}

impl FixedSizeBinaryArray {
    pub fn try_new_with_len(
        size: i32,
        values: Buffer,
        nulls: Option<NullBuffer>,
        len: usize,
    ) -> Result<Self, &'static str> {
        if size as usize * len != values.as_slice().len() {
            return Err("the values are not as many bytes as size times length");
        }
        Ok(FixedSizeBinaryArray {
            size,
            values,
            nulls,
            len,
        })
    }

    pub fn value_length(&self) -> i32 {
        self.size
    }

    pub fn value(&self, i: usize) -> &[u8] {
        let size = self.size as usize;
        &self.values.as_slice()[i * size..(i + 1) * size]
    }

    pub fn nulls(&self) -> Option<&NullBuffer> {
        self.nulls.as_ref()
    }

    pub fn iter(&self) -> impl ExactSizeIterator<Item = Option<&[u8]>> {
        (0..self.len).map(|i| {
            let valid = self.nulls.as_ref().is_none_or(|nulls| nulls.is_valid(i));
            valid.then(|| self.value(i))
        })
    }
}
