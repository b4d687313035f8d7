//! Tables: columns of slots, and the sheets that hold them.

use crate::columns::{list_of, Column, BOOL, VARIABLE};
use crate::hex::hex_start;
use std::fmt;

/// A slot: whether it is valid, and the bytes it holds in the sheet (one byte, 0 or 1, for a bool).
#[derive(Clone, Debug, PartialEq, Eq)]
pub struct Slot {
    pub valid: bool,
    pub bytes: Vec<u8>,
}

impl Slot {
    /// The value, or none if the slot is null.
    pub fn value(&self) -> Option<&[u8]> {
        self.valid.then_some(&self.bytes)
    }
}

/// Columns with their slots, as many in each as there are rows.
#[derive(Clone, PartialEq, Eq)]
pub struct Table {
    pub rows: usize,
    pub columns: Vec<Column>,
    pub slots: Vec<Vec<Slot>>,
    /// What stands in front of each column's values: in variable bytes the bytes before the first
    /// end, which mean nothing, and nothing in other kinds.
    pub before: Vec<Vec<u8>>,
}

impl Table {
    /// A table whose columns are no slices: the first end of each is 0.
    pub fn new(rows: usize, columns: Vec<Column>, slots: Vec<Vec<Slot>>) -> Table {
        Table {
            rows,
            before: vec![Vec::new(); columns.len()],
            columns,
            slots,
        }
    }

    pub fn list(&self) -> Vec<u8> {
        list_of(&self.columns)
    }

    /// The null total: the clear validity bits of all rows and columns.
    pub fn nulls(&self) -> u64 {
        let slots = self.slots.iter().flatten();
        slots.filter(|slot| !slot.valid).count() as u64
    }

    /// The sheet: the columns in list order.
    pub fn sheet(&self) -> Vec<u8> {
        let mut sheet = Vec::new();
        for (c, (column, slots)) in self.columns.iter().zip(&self.slots).enumerate() {
            push_bits(&mut sheet, slots, |slot| slot.valid);
            push_values(&mut sheet, *column, &self.before[c], slots);
        }
        sheet
    }

    /// The same table with the values of columns that fold folded. Null slots stay.
    pub fn folded(&self) -> Table {
        let mut table = self.clone();
        for (column, slots) in table.columns.iter().zip(&mut table.slots) {
            for slot in slots.iter_mut().filter(|slot| column.fold && slot.valid) {
                slot.bytes = one_float(&slot.bytes);
            }
        }
        table
    }

    /// What decode gives: the same table folded, with zeros, and length 0, in its null slots, and
    /// nothing before a first end.
    pub fn cleared(&self) -> Table {
        let mut table = self.folded();
        table.before.iter_mut().for_each(Vec::clear);
        for (column, slots) in table.columns.iter().zip(&mut table.slots) {
            for slot in slots.iter_mut().filter(|slot| !slot.valid) {
                slot.bytes = vec![0; column.width];
            }
        }
        table
    }

    /// The slots of one row.
    pub fn row(&self, r: usize) -> impl Iterator<Item = (Column, Option<&[u8]>)> {
        let columns = self.columns.iter().copied();
        columns.zip(self.slots.iter().map(move |slots| slots[r].value()))
    }
}

/// A float's bits, or those that stand for it: one NaN for all, and +0 for -0.
fn one_float(bytes: &[u8]) -> Vec<u8> {
    if let Ok(bytes) = bytes.try_into() {
        let x = f64::from_le_bytes(bytes);
        // To add +0 changes -0 alone.
        return match x.is_nan() {
            true => f64::from_bits(0x7FF8 << 48),
            false => x + 0.0,
        }
        .to_le_bytes()
        .to_vec();
    }
    if let Ok(bytes) = bytes.try_into() {
        let x = f32::from_le_bytes(bytes);
        return match x.is_nan() {
            true => f32::from_bits(0x7FC0 << 16),
            false => x + 0.0,
        }
        .to_le_bytes()
        .to_vec();
    }
    match bytes {
        [0, 0x80] => vec![0, 0],
        [low, high] if high & 0x7C == 0x7C && (high & 3 != 0 || *low != 0) => vec![0, 0x7E],
        _ => bytes.to_vec(),
    }
}

/// Bits packed in bytes, least bit first.
fn push_bits(sheet: &mut Vec<u8>, slots: &[Slot], bit: impl Fn(&Slot) -> bool) {
    for eight in slots.chunks(8) {
        let bits = eight.iter().enumerate();
        sheet.push(bits.map(|(i, slot)| (bit(slot) as u8) << i).sum());
    }
}

fn push_values(sheet: &mut Vec<u8>, column: Column, before: &[u8], slots: &[Slot]) {
    if column.kind == BOOL {
        return push_bits(sheet, slots, |slot| slot.bytes == [1]);
    }
    if column.kind == VARIABLE {
        let mut end = before.len() as u32;
        sheet.extend(end.to_le_bytes());
        for slot in slots {
            end += slot.bytes.len() as u32;
            sheet.extend(end.to_le_bytes());
        }
        sheet.extend(before);
    }
    slots.iter().for_each(|slot| sheet.extend(&slot.bytes));
}

impl fmt::Display for Table {
    fn fmt(&self, f: &mut fmt::Formatter<'_>) -> fmt::Result {
        let (list, sheet) = (hex_start(&self.list()), hex_start(&self.sheet()));
        write!(f, "list {list} n {} sheet {sheet}", self.rows)
    }
}
