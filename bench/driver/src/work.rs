//! What both sides are given.

use crate::source;

pub const PLATFORM: u32 = 7;
pub const METHOD: &str = "cluster_code";
/// Draws 1234 (P1 of the scope).
pub const RANDOM: [u8; 4] = [0xD2, 0x04, 0x00, 0x00];
pub const RIGHT: &[u8] = b"1234";
pub const WRONG: &[u8] = b"4321";
pub const BUS: u8 = 1;
pub const FRAME_ID: u16 = 0x123;
pub const FRAME_DATA: [u8; 8] = [0x11; 8];

/// A car, and phones that are paired and validated in it.
pub struct Work {
    pub fingerprint: Vec<u8>,
    pub car: [u8; 32],
    pub phones: Vec<Vec<u8>>,
    /// The saved record of the car and the phones.
    pub record: Vec<u8>,
    /// The last phone of the list: the one that starts, submits and commands.
    pub phone: Vec<u8>,
}

impl Work {
    pub fn with_phones(count: u8) -> Self {
        let fingerprint = bytes(34);
        let car = source::digest_of(&fingerprint);
        let phones: Vec<Vec<u8>> = (0..count)
            .map(|i| vec![i, 1, 2, 3, 4, 5, 6, 7, 8, i])
            .collect();
        let mut record = vec![1];
        record.extend(car);
        record.push(count);
        for phone in &phones {
            record.push(phone.len() as u8);
            record.extend(phone);
        }
        let phone = phones.last().expect("some phone").clone();
        Self {
            fingerprint,
            car,
            phones,
            record,
            phone,
        }
    }
}

/// Bytes that are not all alike.
pub fn bytes(count: usize) -> Vec<u8> {
    (0..count).map(|i| (i * 7 + i / 251) as u8).collect()
}
