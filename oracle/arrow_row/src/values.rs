//! Values from and to their bytes in a sheet: low byte first, interval parts in order.

use arrow_buffer::{i256, IntervalDayTime, IntervalMonthDayNano};
use half::f16;

/// A value of one width.
pub trait Value: Copy {
    fn from_bytes(bytes: &[u8]) -> Self;
    fn to_bytes(self) -> Vec<u8>;
}

macro_rules! number {
    ($($t:ty)*) => {$(
        impl Value for $t {
            fn from_bytes(bytes: &[u8]) -> Self {
                Self::from_le_bytes(bytes.try_into().expect("a value of this width"))
            }

            fn to_bytes(self) -> Vec<u8> {
                self.to_le_bytes().to_vec()
            }
        }
    )*};
}

number!(i8 i16 i32 i64 i128 i256 u8 u16 u32 u64 f32 f64);

impl Value for f16 {
    fn from_bytes(bytes: &[u8]) -> Self {
        f16::from_bits(Value::from_bytes(bytes))
    }

    fn to_bytes(self) -> Vec<u8> {
        self.to_bits().to_bytes()
    }
}

impl Value for IntervalDayTime {
    fn from_bytes(bytes: &[u8]) -> Self {
        IntervalDayTime {
            days: Value::from_bytes(&bytes[..4]),
            milliseconds: Value::from_bytes(&bytes[4..]),
        }
    }

    fn to_bytes(self) -> Vec<u8> {
        [self.days.to_bytes(), self.milliseconds.to_bytes()].concat()
    }
}

impl Value for IntervalMonthDayNano {
    fn from_bytes(bytes: &[u8]) -> Self {
        IntervalMonthDayNano {
            months: Value::from_bytes(&bytes[..4]),
            days: Value::from_bytes(&bytes[4..8]),
            nanoseconds: Value::from_bytes(&bytes[8..]),
        }
    }

    fn to_bytes(self) -> Vec<u8> {
        [
            self.months.to_bytes(),
            self.days.to_bytes(),
            self.nanoseconds.to_bytes(),
        ]
        .concat()
    }
}
