//! View arrays, which the station leaves out: `variable.rs` of arrow-row names them, so they must
//! have a type. No run makes one.

use arrow_buffer::{Buffer, NullBuffer, ScalarBuffer};
use std::sync::Arc;

const LEFT_OUT: &str = "view arrays are left out";

pub struct BinaryViewArray;
pub struct StringViewArray;

impl BinaryViewArray {
    /// # Safety
    /// None is needed: it never returns.
    pub unsafe fn new_unchecked(
        _views: ScalarBuffer<u128>,
        _buffers: Arc<[Buffer]>,
        _nulls: Option<NullBuffer>,
    ) -> Self {
        unimplemented!("{LEFT_OUT}")
    }

    /// # Safety
    /// None is needed: it never returns.
    pub unsafe fn to_string_view_unchecked(self) -> StringViewArray {
        unimplemented!("{LEFT_OUT}")
    }
}

pub mod builder {
    pub fn make_view(_value: &[u8], _block: u32, _offset: u32) -> u128 {
        unimplemented!("{}", super::LEFT_OUT)
    }
}
