//! The types of arrays.

use crate::OffsetSizeTrait;
use arrow_buffer::{i256, IntervalDayTime, IntervalMonthDayNano};
use arrow_schema::DataType;
use half::f16;
use std::marker::PhantomData;

/// A type whose values have one width.
pub trait ArrowPrimitiveType: 'static {
    type Native: Copy;
    const DATA_TYPE: DataType;
}

macro_rules! primitive {
    ($name:ident, $native:ty, $data_type:ident) => {
        #[derive(Clone, Debug)]
        pub struct $name;

        impl ArrowPrimitiveType for $name {
            type Native = $native;
            const DATA_TYPE: DataType = DataType::$data_type;
        }
    };
}

primitive!(Int8Type, i8, Int8);
primitive!(Int16Type, i16, Int16);
primitive!(Int32Type, i32, Int32);
primitive!(Int64Type, i64, Int64);
primitive!(UInt8Type, u8, UInt8);
primitive!(UInt16Type, u16, UInt16);
primitive!(UInt32Type, u32, UInt32);
primitive!(UInt64Type, u64, UInt64);
primitive!(Float16Type, f16, Float16);
primitive!(Float32Type, f32, Float32);
primitive!(Float64Type, f64, Float64);
primitive!(IntervalDayTimeType, IntervalDayTime, IntervalDayTime);
primitive!(
    IntervalMonthDayNanoType,
    IntervalMonthDayNano,
    IntervalMonthDayNano
);

// Precision and scale, which rows say nothing of, are left out.
primitive!(Decimal128Type, i128, Decimal128);
primitive!(Decimal256Type, i256, Decimal256);

/// A type of byte strings.
pub trait ByteArrayType: 'static {
    type Offset: OffsetSizeTrait;
}

/// Byte strings that hold anything.
pub struct GenericBinaryType<O>(PhantomData<O>);

/// Byte strings that hold UTF-8.
pub struct GenericStringType<O>(PhantomData<O>);

impl<O: OffsetSizeTrait> ByteArrayType for GenericBinaryType<O> {
    type Offset = O;
}

impl<O: OffsetSizeTrait> ByteArrayType for GenericStringType<O> {
    type Offset = O;
}
