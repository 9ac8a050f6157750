//! Bytes as pairs of hexadecimal digits.

use std::fmt::Write;

pub fn to_hex(bytes: &[u8]) -> String {
    let mut out = String::with_capacity(2 * bytes.len());
    for byte in bytes {
        write!(out, "{byte:02x}").expect("a string takes any text");
    }
    out
}

pub fn from_hex(text: &str) -> Option<Vec<u8>> {
    let digits: Option<Vec<u8>> = text
        .chars()
        .map(|c| c.to_digit(16).map(|d| d as u8))
        .collect();
    let digits = digits?;
    if digits.len() % 2 != 0 {
        return None;
    }
    Some(
        digits
            .chunks_exact(2)
            .map(|pair| pair[0] * 16 + pair[1])
            .collect(),
    )
}

/// Ids in hexadecimal, joined by commas.
pub fn list(ids: &[Vec<u8>]) -> String {
    let ids: Vec<String> = ids.iter().map(|id| to_hex(id)).collect();
    ids.join(",")
}
