//! Stand-in for the crate `arrow_buffer`: the containers that `fixed.rs` and `variable.rs` of
//! arrow-row read and fill, over `Vec`.

mod bits;
mod bytes;
mod numbers;

pub use bits::{bit_util, BooleanBuffer, NullBuffer};
pub use bytes::{Buffer, MutableBuffer, OffsetBuffer, ScalarBuffer};
pub use numbers::{i256, ArrowNativeType, IntervalDayTime, IntervalMonthDayNano};
