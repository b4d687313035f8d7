//! The encoders and decoders of arrow-row 60.0.0, compiled from the crate's own text.
//!
//! From the crate, unchanged: `fixed.rs` and `variable.rs` whole; of `lib.rs` the function
//! `null_sentinel`, the type `LengthTracker` with its methods, and the function
//! `push_generic_byte_array_lengths`. A stand-in, written here: the [`driver`], which does for these
//! kinds of columns what `row_lengths`, `RowConverter::append`, `encode_column`, `convert_raw` and
//! `decode_column` of `lib.rs` do; and the containers, in the crates under `stand_ins`.

pub mod driver;
mod values;

use arrow_array::types::ByteArrayType;
use arrow_array::*;
use arrow_schema::SortOptions;

include!(concat!(env!("OUT_DIR"), "/crate_text.rs"));
