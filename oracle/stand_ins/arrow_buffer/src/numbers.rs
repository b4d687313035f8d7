//! Numbers that the standard library has not, and offsets.

/// A 256-bit number in two halves, as arrow_buffer has it.
#[allow(non_camel_case_types)]
#[derive(Clone, Copy, Debug, PartialEq, Eq)]
pub struct i256 {
    low: u128,
    high: i128,
}

impl i256 {
    #[inline]
    pub const fn to_be_bytes(self) -> [u8; 32] {
        joined(self.high.to_be_bytes(), self.low.to_be_bytes())
    }

    #[inline]
    pub const fn from_be_bytes(bytes: [u8; 32]) -> Self {
        let (high, low) = halves(bytes);
        i256 {
            low: u128::from_be_bytes(low),
            high: i128::from_be_bytes(high),
        }
    }

    #[inline]
    pub const fn to_le_bytes(self) -> [u8; 32] {
        joined(self.low.to_le_bytes(), self.high.to_le_bytes())
    }

    #[inline]
    pub const fn from_le_bytes(bytes: [u8; 32]) -> Self {
        let (low, high) = halves(bytes);
        i256 {
            low: u128::from_le_bytes(low),
            high: i128::from_le_bytes(high),
        }
    }
}

#[inline]
const fn joined(first: [u8; 16], second: [u8; 16]) -> [u8; 32] {
    let (mut bytes, mut i) = ([0; 32], 0);
    while i < 16 {
        (bytes[i], bytes[i + 16]) = (first[i], second[i]);
        i += 1;
    }
    bytes
}

#[inline]
const fn halves(bytes: [u8; 32]) -> ([u8; 16], [u8; 16]) {
    let (mut first, mut second, mut i) = ([0; 16], [0; 16], 0);
    while i < 16 {
        (first[i], second[i]) = (bytes[i], bytes[i + 16]);
        i += 1;
    }
    (first, second)
}

/// Days and milliseconds.
#[derive(Clone, Copy, Debug, PartialEq, Eq)]
pub struct IntervalDayTime {
    pub days: i32,
    pub milliseconds: i32,
}

/// Months, days and nanoseconds.
#[derive(Clone, Copy, Debug, PartialEq, Eq)]
pub struct IntervalMonthDayNano {
    pub months: i32,
    pub days: i32,
    pub nanoseconds: i64,
}

/// A number that serves as an offset.
pub trait ArrowNativeType: Copy {
    fn as_usize(self) -> usize;
    fn from_usize(value: usize) -> Option<Self>;
}

macro_rules! native_offset {
    ($t:ty) => {
        impl ArrowNativeType for $t {
            #[inline]
            fn as_usize(self) -> usize {
                self as usize
            }

            #[inline]
            fn from_usize(value: usize) -> Option<Self> {
                value.try_into().ok()
            }
        }
    };
}

native_offset!(i32);
native_offset!(i64);
