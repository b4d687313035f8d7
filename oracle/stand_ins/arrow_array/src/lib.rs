//! Stand-in for the crate `arrow_array`: the arrays that `fixed.rs` and `variable.rs` of arrow-row
//! read and make.

mod byte_array;
mod fixed_array;
pub mod types;
mod views;

/// Arrays under the path that `fixed.rs` names.
pub mod array {
    pub use crate::fixed_array::PrimitiveArray;
}

pub use byte_array::{GenericBinaryArray, GenericByteArray, GenericStringArray, OffsetSizeTrait};
pub use fixed_array::{BooleanArray, FixedSizeBinaryArray, PrimitiveArray};
pub use types::ArrowPrimitiveType;
pub use views::{builder, BinaryViewArray, StringViewArray};
