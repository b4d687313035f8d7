//! Columns: the kinds of document 01 and their lists.

pub const BOOL: u8 = 1;
pub const DAY_TIME: u8 = 13;
pub const MONTH_DAY_NANO: u8 = 14;
pub const FIXED_BINARY: u8 = 15;
pub const VARIABLE: u8 = 16;
pub const I128: u8 = 17;
pub const I256: u8 = 18;

pub const FLOATS: std::ops::RangeInclusive<u8> = 10..=12;

/// The kinds, 1 to 18.
pub const KINDS: std::ops::RangeInclusive<u8> = BOOL..=I256;

/// One column: its kind, the bytes of a value (0 for variable bytes), its options.
#[derive(Clone, Copy, Debug, PartialEq, Eq)]
pub struct Column {
    pub kind: u8,
    pub width: usize,
    pub descending: bool,
    pub nulls_first: bool,
    /// No slot may be null.
    pub required: bool,
    /// Floats are folded.
    pub fold: bool,
}

impl Column {
    /// A column of a kind that has one width only, or of variable bytes.
    pub fn new(kind: u8, options: u8) -> Column {
        Column::with_width(kind, options, value_bytes(kind))
    }

    pub fn fixed_binary(width: usize, options: u8) -> Column {
        Column::with_width(FIXED_BINARY, options, width)
    }

    fn with_width(kind: u8, options: u8, width: usize) -> Column {
        Column {
            kind,
            width,
            descending: options & 1 != 0,
            nulls_first: options & 2 != 0,
            required: options & 4 != 0,
            fold: options & 8 != 0,
        }
    }

    /// The options byte: bit 0 descending, bit 1 nulls first, bit 2 required, bit 3 fold.
    pub fn options(&self) -> u8 {
        let bits = [self.descending, self.nulls_first, self.required, self.fold];
        bits.iter()
            .rev()
            .fold(0, |byte, bit| byte << 1 | *bit as u8)
    }

    /// The column's bytes in a list: kind, options, and for fixed binary the width.
    pub fn spelled(&self) -> Vec<u8> {
        let mut bytes = vec![self.kind, self.options()];
        if self.kind == FIXED_BINARY {
            bytes.extend((self.width as u16).to_le_bytes());
        }
        bytes
    }

    /// The four bytes that stand for the column once its list was read: kind, options, and the width,
    /// which is 0 unless the kind is fixed binary.
    pub fn description(&self) -> [u8; 4] {
        let width = match self.kind {
            FIXED_BINARY => self.width as u16,
            _ => 0,
        };
        let [low, high] = width.to_le_bytes();
        [self.kind, self.options(), low, high]
    }
}

/// The option bits that a kind knows: only floats fold.
pub fn known_options(kind: u8) -> u8 {
    match FLOATS.contains(&kind) {
        true => 0b1111,
        false => 0b0111,
    }
}

/// The list of columns.
pub fn list_of(columns: &[Column]) -> Vec<u8> {
    columns.iter().flat_map(Column::spelled).collect()
}

/// The descriptions of columns.
pub fn descriptions_of(columns: &[Column]) -> Vec<u8> {
    columns.iter().flat_map(Column::description).collect()
}

/// The table of kinds: value bytes. Fixed binary carries its own width, variable bytes have none.
pub fn value_bytes(kind: u8) -> usize {
    match kind {
        1 | 2 | 6 => 1,
        3 | 7 | 10 => 2,
        4 | 8 | 11 => 4,
        5 | 9 | 12 | DAY_TIME => 8,
        MONTH_DAY_NANO | I128 => 16,
        I256 => 32,
        _ => 0,
    }
}
