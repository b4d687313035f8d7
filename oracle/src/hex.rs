//! Bytes as lower-case hex.

/// The bytes in hex; `-` for none, so that a line can be cut at its spaces.
pub fn hex(bytes: &[u8]) -> String {
    if bytes.is_empty() {
        return "-".to_string();
    }
    bytes.iter().map(|b| format!("{b:02x}")).collect()
}

/// The most bytes that a report prints.
const MOST: usize = 4096;

/// The same, cut where it gets long.
pub fn hex_start(bytes: &[u8]) -> String {
    match bytes.len() {
        0..=MOST => hex(bytes),
        len => format!("{}.. ({len} bytes)", hex(&bytes[..MOST])),
    }
}
