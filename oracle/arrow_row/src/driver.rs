//! A stand-in for the driver of `lib.rs`: columns to rows by the crate's encoders, and back by its
//! decoders.

use crate::fixed::{self, FixedLengthEncoding};
use crate::values::Value;
use crate::{push_generic_byte_array_lengths, variable, LengthTracker};
use arrow_array::types::*;
use arrow_array::{BooleanArray, FixedSizeBinaryArray, GenericBinaryArray, PrimitiveArray};
use arrow_buffer::{BooleanBuffer, NullBuffer, OffsetBuffer};
use arrow_schema::SortOptions;

/// A slot of a sheet: whether it is valid, and its bytes (one byte, 0 or 1, for a bool).
pub type SheetSlot<'a> = (bool, &'a [u8]);

/// A column with its order.
pub struct Column {
    pub array: Array,
    pub options: SortOptions,
}

/// What a column is, to decode it.
#[derive(Clone, Copy)]
pub struct Field {
    pub kind: Kind,
    pub options: SortOptions,
}

/// The initial offsets of `lib.rs`: 0, then each row's start. Answers the bytes of all rows.
pub fn plan(columns: &[Column], rows: usize, offsets: &mut Vec<usize>) -> usize {
    let mut lengths = LengthTracker::new(rows);
    for column in columns {
        column.array.push_lengths(&mut lengths);
    }
    offsets.clear();
    offsets.push(0);
    lengths.extend_offsets(0, offsets)
}

/// Writes the rows, a column at a time; after it the offsets are 0 and each row's end.
pub fn write(columns: &[Column], data: &mut [u8], offsets: &mut [usize]) {
    for column in columns {
        column.array.encode(data, offsets, column.options);
    }
}

/// Reads the rows, a column at a time; after it `rows` holds what each row has left.
pub fn read(fields: &[Field], rows: &mut [&[u8]]) -> Vec<Array> {
    fields
        .iter()
        .map(|field| Array::decode(rows, field.kind, field.options))
        .collect()
}

/// Writes what is given for each primitive kind and its type of Arrow.
macro_rules! for_primitives {
    ($visit:ident) => {
        $visit! {
            Int8 Int8Type, Int16 Int16Type, Int32 Int32Type, Int64 Int64Type,
            UInt8 UInt8Type, UInt16 UInt16Type, UInt32 UInt32Type, UInt64 UInt64Type,
            Float16 Float16Type, Float32 Float32Type, Float64 Float64Type,
            DayTime IntervalDayTimeType, MonthDayNano IntervalMonthDayNanoType,
            Decimal128 Decimal128Type, Decimal256 Decimal256Type,
        }
    };
}

macro_rules! define_arrays {
    ($($name:ident $type:ident,)*) => {
        /// The kinds of columns that the station knows.
        #[derive(Clone, Copy)]
        pub enum Kind {
            Boolean,
            $($name,)*
            FixedBinary(i32),
            Binary,
        }

        /// A column's values.
        pub enum Array {
            Boolean(BooleanArray),
            $($name(PrimitiveArray<$type>),)*
            FixedBinary(FixedSizeBinaryArray),
            Binary(GenericBinaryArray<i32>),
        }

        impl Array {
            /// An array of the slots of a sheet, with what its null slots hold. The strings of one of
            /// bytes begin after `before`, as in a slice.
            pub fn from_slots(kind: Kind, before: &[u8], slots: &[SheetSlot<'_>]) -> Array {
                match kind {
                    Kind::Boolean => Array::Boolean(boolean_array(slots)),
                    $(Kind::$name => Array::$name(primitive_array(slots)),)*
                    Kind::FixedBinary(size) => Array::FixedBinary(fixed_binary_array(size, slots)),
                    Kind::Binary => Array::Binary(binary_array(before, slots)),
                }
            }

            /// The valid slots' bytes, as they stand in a sheet.
            pub fn slots(&self, rows: usize) -> Vec<Option<Vec<u8>>> {
                match self {
                    Array::Boolean(a) => valid_slots(a.nulls(), rows, |i| vec![a.values().value(i) as u8]),
                    $(Array::$name(a) => valid_slots(a.nulls(), rows, |i| a.values()[i].to_bytes()),)*
                    Array::FixedBinary(a) => valid_slots(a.nulls(), rows, |i| a.value(i).to_vec()),
                    Array::Binary(a) => valid_slots(a.nulls(), rows, |i| a.value(i).to_vec()),
                }
            }

            /// As `row_lengths`.
            fn push_lengths(&self, lengths: &mut LengthTracker) {
                match self {
                    Array::Boolean(_) => lengths.push_fixed(bool::ENCODED_LEN),
                    $(Array::$name(a) => lengths.push_fixed(fixed::encoded_len(a)),)*
                    Array::FixedBinary(a) => lengths.push_fixed(1 + a.value_length() as usize),
                    Array::Binary(a) => push_generic_byte_array_lengths(lengths, a),
                }
            }

            /// As `encode_column`: the not-null twin where no slot is null.
            fn encode(&self, data: &mut [u8], offsets: &mut [usize], options: SortOptions) {
                match self {
                    Array::Boolean(a) => match some_nulls(a.nulls()) {
                        Some(nulls) => fixed::encode_boolean(data, offsets, a.values(), nulls, options),
                        None => fixed::encode_boolean_not_null(data, offsets, a.values(), options),
                    },
                    $(Array::$name(a) => match some_nulls(a.nulls()) {
                        Some(nulls) => fixed::encode(data, offsets, a.values(), nulls, options),
                        None => fixed::encode_not_null(data, offsets, a.values(), options),
                    },)*
                    Array::FixedBinary(a) => fixed::encode_fixed_size_binary(data, offsets, a, options),
                    Array::Binary(a) => variable::encode_generic_byte_array(data, offsets, a, options),
                }
            }

            /// As `decode_column`.
            fn decode(rows: &mut [&[u8]], kind: Kind, options: SortOptions) -> Array {
                match kind {
                    Kind::Boolean => Array::Boolean(fixed::decode_bool(rows, options)),
                    $(Kind::$name => {
                        Array::$name(fixed::decode_primitive(rows, $type::DATA_TYPE, options))
                    })*
                    Kind::FixedBinary(size) => {
                        Array::FixedBinary(fixed::decode_fixed_size_binary(rows, size, options))
                    }
                    Kind::Binary => Array::Binary(variable::decode_binary(rows, options)),
                }
            }
        }
    };
}

for_primitives!(define_arrays);

/// Null bits that count: the crate takes an array without any for one that has none.
fn some_nulls(nulls: Option<&NullBuffer>) -> Option<&NullBuffer> {
    nulls.filter(|nulls| nulls.null_count() > 0)
}

fn null_buffer(slots: &[SheetSlot<'_>]) -> Option<NullBuffer> {
    let valid = BooleanBuffer::collect_bool(slots.len(), |i| slots[i].0);
    Some(NullBuffer::new(valid))
}

fn boolean_array(slots: &[SheetSlot<'_>]) -> BooleanArray {
    let values = BooleanBuffer::collect_bool(slots.len(), |i| slots[i].1 == [1]);
    BooleanArray::new(values, null_buffer(slots))
}

fn primitive_array<T: ArrowPrimitiveType>(slots: &[SheetSlot<'_>]) -> PrimitiveArray<T>
where
    T::Native: Value,
{
    let values: Vec<T::Native> = slots.iter().map(|slot| Value::from_bytes(slot.1)).collect();
    PrimitiveArray::new(values.into(), null_buffer(slots))
}

/// The bytes of all slots, joined.
fn joined(slots: &[SheetSlot<'_>]) -> Vec<u8> {
    slots.iter().flat_map(|slot| slot.1).copied().collect()
}

fn fixed_binary_array(size: i32, slots: &[SheetSlot<'_>]) -> FixedSizeBinaryArray {
    let (values, nulls) = (joined(slots).into(), null_buffer(slots));
    FixedSizeBinaryArray::try_new_with_len(size, values, nulls, slots.len())
        .expect("slots of this width")
}

fn binary_array(before: &[u8], slots: &[SheetSlot<'_>]) -> GenericBinaryArray<i32> {
    let mut ends = vec![before.len() as i32];
    for slot in slots {
        ends.push(ends[ends.len() - 1] + slot.1.len() as i32);
    }
    let offsets = OffsetBuffer::new(ends.into());
    let bytes = [before, &joined(slots)].concat();
    // SAFETY: the last end is the count of all bytes.
    unsafe { GenericBinaryArray::new_unchecked(offsets, bytes.into(), null_buffer(slots)) }
}

fn valid_slots(
    nulls: Option<&NullBuffer>,
    rows: usize,
    value: impl Fn(usize) -> Vec<u8>,
) -> Vec<Option<Vec<u8>>> {
    (0..rows)
        .map(|i| {
            nulls
                .is_none_or(|nulls| nulls.is_valid(i))
                .then(|| value(i))
        })
        .collect()
}
