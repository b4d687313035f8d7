//! Stand-in for the crate `arrow_schema`: what `fixed.rs` and `variable.rs` of arrow-row use of it.

/// How a column is sorted.
#[derive(Clone, Copy, Debug, PartialEq, Eq)]
pub struct SortOptions {
    pub descending: bool,
    pub nulls_first: bool,
}

/// The types of values that are decoded as primitive arrays.
#[derive(Clone, Debug, PartialEq, Eq)]
pub enum DataType {
    Int8,
    Int16,
    Int32,
    Int64,
    UInt8,
    UInt16,
    UInt32,
    UInt64,
    Float16,
    Float32,
    Float64,
    IntervalDayTime,
    IntervalMonthDayNano,
    Decimal128,
    Decimal256,
}
