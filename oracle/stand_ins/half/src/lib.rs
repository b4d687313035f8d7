//! Stand-in for the crate `half`: a 16-bit float as its bits.

#[allow(non_camel_case_types)]
#[derive(Clone, Copy, Debug, PartialEq, Eq)]
pub struct f16(u16);

impl f16 {
    pub const fn from_bits(bits: u16) -> Self {
        f16(bits)
    }

    pub const fn to_bits(self) -> u16 {
        self.0
    }
}
