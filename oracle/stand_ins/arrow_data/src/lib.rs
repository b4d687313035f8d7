//! Stand-in for the crate `arrow_data`: the one constant that `variable.rs` of arrow-row uses.

/// The longest value that a view array holds inside a view. View arrays are never made here.
pub const MAX_INLINE_VIEW_LEN: u32 = 12;
