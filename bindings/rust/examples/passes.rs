//! Two passes over a plate, joined as bytes: a point in both is ink, a point in one is film dust.
//!
//!     cargo run --offline --example passes

use station::{Refusal, Rows};

/// Plate (u32), glyph name (variable bytes), contour (u16), position (f64) and exposure (months,
/// days, nanoseconds), all ascending with nulls first: a kind byte and an options byte each.
const LIST: [u8; 10] = [8, 2, 16, 2, 7, 2, 12, 2, 14, 2];

/// A point as a pass saw it; a glyph without a name has none.
struct Point {
    plate: u32,
    name: Option<&'static str>,
    contour: u16,
    position: f64,
    exposure_ns: i64,
}

impl Point {
    /// No months, no days, and nanoseconds.
    fn exposure(&self) -> Vec<u8> {
        [[0; 8], self.exposure_ns.to_le_bytes()].concat()
    }
}

fn point(name: Option<&'static str>, contour: u16, position: f64) -> Point {
    Point {
        plate: 7,
        name,
        contour,
        position,
        exposure_ns: 250,
    }
}

/// Appends a column: validity bits, least bit first, then what `values` are.
fn column(sheet: &mut Vec<u8>, valid: &[bool], values: impl IntoIterator<Item = u8>) {
    for bits in valid.chunks(8) {
        sheet.push((0..bits.len()).map(|i| u8::from(bits[i]) << i).sum());
    }
    sheet.extend(values);
}

/// The five columns one after the other, each number low byte first.
fn sheet(points: &[Point]) -> Vec<u8> {
    let mut sheet = Vec::new();
    let all = vec![true; points.len()];
    let named: Vec<bool> = points.iter().map(|p| p.name.is_some()).collect();
    let names = || points.iter().map(|p| p.name.unwrap_or(""));
    let ends = names().scan(0, |end: &mut u32, name| {
        *end += name.len() as u32;
        Some(*end)
    });
    let ends = std::iter::once(0).chain(ends).flat_map(u32::to_le_bytes);

    let plates = points.iter().flat_map(|p| p.plate.to_le_bytes());
    let contours = points.iter().flat_map(|p| p.contour.to_le_bytes());
    let positions = points.iter().flat_map(|p| p.position.to_le_bytes());
    let exposures = points.iter().flat_map(Point::exposure);

    column(&mut sheet, &all, plates);
    column(&mut sheet, &named, ends.chain(names().flat_map(str::bytes)));
    column(&mut sheet, &all, contours);
    column(&mut sheet, &all, positions);
    column(&mut sheet, &all, exposures);
    sheet
}

/// The rows of a pass, sorted as bytes: so they stand in the order of the values.
fn rows(points: &[Point]) -> Result<Rows, Refusal> {
    let rows = station::encode_to_vec(&LIST, points.len() as u64, &sheet(points))?;
    let mut sorted: Vec<&[u8]> = rows.iter().collect();
    sorted.sort();
    let bytes = sorted.concat();
    let ends = sorted.iter().scan(0, |end, row| {
        *end += row.len() as u64;
        Some(*end)
    });
    let offsets = std::iter::once(0).chain(ends).collect();
    let nulls = rows.nulls;
    Ok(Rows {
        bytes,
        offsets,
        nulls,
    })
}

fn hex(row: &[u8]) -> String {
    row.iter().map(|b| format!("{b:02x}")).collect()
}

fn main() -> Result<(), Refusal> {
    let first = [
        point(Some("ae"), 0, -2.0),
        point(Some("a"), 1, 1.5),
        point(None, 0, 0.25),
    ];
    let second = [
        point(Some("a"), 1, 1.5),
        point(Some("ae"), 0, -2.0),
        point(Some("ae"), 0, 3.0),
        point(Some("ae"), 0, -2.0),
    ];

    // An entry is 4,096 times the pass plus the row; equal rows stand side by side, pass 0 first.
    let passes = [rows(&first)?, rows(&second)?];
    let order = station::join_to_vec(&passes[0], &passes[1])?;
    let row = |entry: &u64| passes[(entry / 4096) as usize].row((entry % 4096) as usize);
    for same in order.chunk_by(|a, b| row(a) == row(b)) {
        let second = same.iter().filter(|&&entry| 4096 <= entry).count();
        let first = same.len() - second;
        let verdict = if first > 0 && second > 0 {
            "ink"
        } else {
            "dust"
        };
        println!("{} {verdict} {first} {second}", hex(row(&same[0])));
    }

    // A damaged row is refused with its number and place, and read as nothing else.
    let mut damaged = passes[0].row(0).to_vec();
    damaged[5] = 0x03;
    let offsets = [0, damaged.len() as u64];
    let refusal = station::decode_to_vec(&LIST, 1, &damaged, &offsets).expect_err("damaged");
    println!("{refusal}");
    Ok(())
}
