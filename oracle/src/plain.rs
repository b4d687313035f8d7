//! A straightforward encoder of request 9's columns: row by row and field by field, with the
//! functions of the crate's `fixed.rs` and `variable.rs` that encode one value.

use arrow_array::types::{Float64Type, IntervalMonthDayNanoType, UInt32Type};
use arrow_array::{GenericBinaryArray, PrimitiveArray};
use arrow_buffer::NullBuffer;
use arrow_row::driver::{Array, Column};
use arrow_row::fixed::FixedLengthEncoding;
use arrow_row::variable;
use arrow_schema::SortOptions;

/// Plate, glyph name, position and exposure.
pub struct Catalogue<'a> {
    plates: &'a PrimitiveArray<UInt32Type>,
    names: &'a GenericBinaryArray<i32>,
    positions: &'a PrimitiveArray<Float64Type>,
    exposures: &'a PrimitiveArray<IntervalMonthDayNanoType>,
    options: [SortOptions; 4],
}

impl<'a> Catalogue<'a> {
    /// The columns, if these are their kinds.
    pub fn of(columns: &'a [Column]) -> Option<Catalogue<'a>> {
        let [plate, name, position, exposure] = columns else {
            return None;
        };
        let options = [plate, name, position, exposure].map(|column| column.options);
        match (&plate.array, &name.array, &position.array, &exposure.array) {
            (
                Array::UInt32(plates),
                Array::Binary(names),
                Array::Float64(positions),
                Array::MonthDayNano(exposures),
            ) => Some(Catalogue {
                plates,
                names,
                positions,
                exposures,
                options,
            }),
            _ => None,
        }
    }

    /// Writes the rows into a cleared buffer; the offsets, one more than there are rows, are 0 and each
    /// row's end.
    pub fn encode(&self, rows: &mut [u8], offsets: &mut [u64]) {
        let [plate, name, position, exposure] = self.options;
        let mut at = 0;
        offsets[0] = 0;
        for (r, end) in offsets[1..].iter_mut().enumerate() {
            let value = valid(self.plates.nulls(), r).then(|| self.plates.values()[r]);
            at += put(&mut rows[at..], value, plate);
            let value = valid(self.names.nulls(), r).then(|| self.names.value(r));
            at += variable::encode_one(&mut rows[at..], value, name);
            let value = valid(self.positions.nulls(), r).then(|| self.positions.values()[r]);
            at += put(&mut rows[at..], value, position);
            let value = valid(self.exposures.nulls(), r).then(|| self.exposures.values()[r]);
            at += put(&mut rows[at..], value, exposure);
            *end = at as u64;
        }
    }
}

fn valid(nulls: Option<&NullBuffer>, r: usize) -> bool {
    nulls.is_none_or(|nulls| nulls.is_valid(r))
}

/// Writes a field of a fixed length, as `fixed::encode` does, and answers its length.
fn put<T: FixedLengthEncoding>(out: &mut [u8], value: Option<T>, options: SortOptions) -> usize {
    match value {
        Some(value) => {
            let mut encoded = value.encode();
            if options.descending {
                encoded.as_mut().iter_mut().for_each(|v| *v = !*v)
            }
            out[0] = 1;
            out[1..T::ENCODED_LEN].copy_from_slice(encoded.as_ref());
        }
        None if options.nulls_first => out[0] = 0,
        None => out[0] = 0xFF,
    }
    T::ENCODED_LEN
}
