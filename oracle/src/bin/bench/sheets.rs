//! The whole public encode and decode, and beside them the crate's code or the plain encoder: one input,
//! cleared buffers.

use crate::lines::{Work, Works};
use arrow_row::driver::{self, Array, Field};
use oracle::crate_side;
use oracle::plain::Catalogue;
use oracle::table::Table;
use std::hint::black_box;

/// The input in both forms, and the buffers.
pub struct Sheets {
    work: Work,
    n: usize,
    list: Vec<u8>,
    sheet: Vec<u8>,
    /// What decode must give.
    cleared: Vec<u8>,
    columns: Vec<driver::Column>,
    fields: Vec<Field>,
    /// What both must write.
    rows: Vec<u8>,
    offsets: Vec<u64>,
    row_buffer: Vec<u8>,
    offset_buffer: Vec<u64>,
    crate_offsets: Vec<usize>,
    sheet_buffer: Vec<u8>,
    /// What the crate decoded, call by call.
    arrays: Vec<Vec<Array>>,
}

impl Sheets {
    pub fn new(table: &Table, work: Work) -> Sheets {
        let (rows, offsets) = crate_side::encode(table);
        let cleared = table.cleared().sheet();
        Sheets {
            work,
            n: table.rows,
            list: table.list(),
            sheet: table.sheet(),
            columns: crate_side::columns(table),
            fields: crate_side::fields(&table.columns),
            row_buffer: vec![0; rows.len()],
            offset_buffer: vec![0; offsets.len()],
            crate_offsets: Vec::with_capacity(offsets.len()),
            sheet_buffer: vec![0; cleared.len()],
            arrays: Vec::with_capacity(crate::CALLS),
            cleared,
            rows,
            offsets,
        }
    }

    #[inline(never)]
    fn crate_encode(&mut self) {
        let columns = black_box(&self.columns);
        let total = driver::plan(columns, self.n, &mut self.crate_offsets);
        let rows = &mut self.row_buffer[..total];
        driver::write(columns, rows, &mut self.crate_offsets);
    }

    #[inline(never)]
    fn plain_encode(&mut self) {
        let catalogue = Catalogue::of(black_box(&self.columns)).expect("request 9's columns");
        catalogue.encode(&mut self.row_buffer, &mut self.offset_buffer);
    }

    #[inline(never)]
    fn station_encode(&mut self) {
        let (rows, offsets) = (&mut self.row_buffer, &mut self.offset_buffer);
        let sheet = black_box(&self.sheet);
        station::encode(&self.list, self.n as u64, sheet, rows, offsets).expect("accepted");
    }

    #[inline(never)]
    fn crate_decode(&mut self) {
        let mut rows = crate_side::cut(black_box(&self.rows), &self.offsets);
        self.arrays.push(driver::read(&self.fields, &mut rows));
    }

    #[inline(never)]
    fn station_decode(&mut self) {
        let (list, rows, sheet) = (&self.list, black_box(&self.rows), &mut self.sheet_buffer);
        station::decode(list, self.n as u64, rows, &self.offsets, sheet).expect("accepted");
    }
}

impl Works for Sheets {
    fn clear(&mut self) {
        self.row_buffer.fill(0);
        self.offset_buffer.fill(0);
        self.crate_offsets.clear();
        self.sheet_buffer.fill(0);
        self.arrays.clear();
    }

    fn station(&mut self) {
        match self.work {
            Work::Decode => self.station_decode(),
            _ => self.station_encode(),
        }
    }

    fn other(&mut self) {
        match self.work {
            Work::Decode => self.crate_decode(),
            Work::EncodePlain => self.plain_encode(),
            _ => self.crate_encode(),
        }
    }

    /// Both encoders write the crate's rows, and the station decodes them to the cleared sheet; what the
    /// crate decodes is for the differential runs to compare.
    fn check(&mut self) {
        self.clear();
        self.station();
        match self.work {
            Work::Decode => assert!(self.sheet_buffer == self.cleared),
            _ => assert!(self.row_buffer == self.rows && self.offset_buffer == self.offsets),
        }
        self.clear();
        self.other();
        match self.work {
            Work::Decode => {}
            Work::EncodePlain => {
                assert!(self.row_buffer == self.rows && self.offset_buffer == self.offsets)
            }
            _ => assert!(self.row_buffer == self.rows),
        }
        self.clear();
    }
}
