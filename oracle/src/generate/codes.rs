//! Random bytes for a draw, and typed codes.

use super::Generator;
use crate::items::Bytes;
use core_interface::CODE_LENGTH;
use core_interface::oracle::validation;

/// Every code point with the property White_Space, and no other.
const WHITE_SPACE: [u32; 25] = [
    9, 10, 11, 12, 13, 32, 133, 160, 5760, 8192, 8193, 8194, 8195, 8196, 8197, 8198, 8199, 8200,
    8201, 8202, 8232, 8233, 8239, 8287, 12288,
];

/// Code points that look blank, or stand beside a blank one, and are not trimmed.
const NOT_WHITE_SPACE: [u32; 15] = [
    0, 8, 14, 28, 31, 132, 134, 159, 161, 6158, 8191, 8203, 8234, 0xFEFF, 12289,
];

/// Bytes that are no UTF-8: a lone continuation byte, forms that are too long, a surrogate, a number that is too large,
/// ends that are cut off.
const NOT_TEXT: [&[u8]; 9] = [
    &[0x80],
    &[0xFF],
    &[0xC0, 0x80],
    &[0xE0, 0x80, 0xA0],
    &[0xED, 0xA0, 0x80],
    &[0xF4, 0x90, 0x80, 0x80],
    &[0xE2, 0x80],
    &[0xC2],
    &[0xF0, 0x9F, 0x98],
];

/// What is dropped between two digits, if it stands there alone.
const SEPARATORS: [u8; 2] = [b' ', b'-'];

/// Blanks, dashes and other marks that stay between two digits.
const NOT_SEPARATORS: [u32; 16] = [
    9, 10, 13, 43, 44, 46, 47, 95, 160, 173, 8195, 8208, 8209, 8211, 8722, 12288,
];

fn text(point: u32) -> Bytes {
    let c = char::from_u32(point).expect("a code point of text");
    c.to_string().into_bytes()
}

impl Generator {
    /// Lent bytes with a group that gives a code.
    pub(super) fn good_random(&mut self) -> Bytes {
        let mut bytes = Bytes::new();
        while self.random.chance(1, 5) {
            bytes.extend(self.high_group());
        }
        let space = 10u32.pow(CODE_LENGTH as u32);
        let limit = u32::MAX - u32::MAX % space;
        let any = self.random.next() as u32 % limit;
        let value = self
            .random
            .pick(&[any, any, any, 0, 7, 1234, limit - 1, limit - space]);
        bytes.extend(value.to_le_bytes());
        let after = self.random.pick(&[0, 0, 1, 4]);
        bytes.extend(self.random.bytes(after));
        bytes
    }

    /// A group that is not below the draw limit.
    fn high_group(&mut self) -> [u8; 4] {
        let space = 10u32.pow(CODE_LENGTH as u32);
        let over = u32::MAX % space;
        let above = self.random.below(u64::from(over) + 1) as u32;
        let past = self.random.pick(&[0, 0, above, over]);
        (u32::MAX - over + past).to_le_bytes()
    }

    /// Lent bytes of every kind.
    pub(super) fn lent_random(&mut self) -> Bytes {
        match self.random.below(20) {
            0 | 1 => Bytes::new(),
            2 => self.random.bytes(1),
            3 => self.random.bytes(3),
            4 | 5 => {
                let mut bytes = Bytes::new();
                for _ in 0..=self.random.below(3) {
                    bytes.extend(self.high_group());
                }
                let after = self.random.below(4) as usize;
                bytes.extend(vec![0; after]);
                bytes
            }
            _ => self.good_random(),
        }
    }

    /// The running code, if there is one.
    pub(super) fn running_code(&self) -> Option<Bytes> {
        validation::session()?.code.map(|code| code.to_vec())
    }

    /// The running code in a form that is right.
    pub(super) fn right_code(&mut self) -> Bytes {
        let code = self.running_code().unwrap_or(vec![b'0'; CODE_LENGTH]);
        let mut typed = Bytes::new();
        while self.random.chance(1, 3) {
            typed.extend(text(self.random.pick(&WHITE_SPACE)));
        }
        let grouped = self.grouped(&code);
        typed.extend(self.random.pick(&[code, grouped]));
        while self.random.chance(1, 3) {
            typed.extend(text(self.random.pick(&WHITE_SPACE)));
        }
        typed
    }

    /// The digits with a blank or a hyphen in one gap, in every gap or in some.
    fn grouped(&mut self, digits: &[u8]) -> Bytes {
        let one = self.random.below(digits.len() as u64) as usize;
        let gaps = self.random.below(3);
        let separators = self.random.pick(&[*b"  ", *b"--", SEPARATORS]);
        let mut typed = Bytes::new();
        for (at, digit) in digits.iter().enumerate() {
            let here = match gaps {
                0 => at == one,
                1 => true,
                _ => self.random.flip(),
            };
            if at > 0 && here {
                typed.push(self.random.pick(&separators));
            }
            typed.push(*digit);
        }
        typed
    }

    /// The digits with something in a gap or at an end that stays.
    fn badly_grouped(&mut self, digits: &[u8]) -> Bytes {
        let gap = self.random.below(digits.len() as u64) as usize;
        if gap == 0 {
            return self.with_hyphen_at_end(digits);
        }
        let separator = self.random.pick(&SEPARATORS);
        let mark = text(self.random.pick(&NOT_SEPARATORS));
        let between = match self.random.below(5) {
            0 => vec![separator, self.random.pick(&SEPARATORS)],
            1 => vec![separator, separator, self.random.pick(&SEPARATORS)],
            2 => [&mark[..], &[separator]].concat(),
            _ => mark,
        };
        let (front, back) = digits.split_at(gap);
        let front = [front.to_vec(), self.grouped(front)];
        let back = [back.to_vec(), self.grouped(back)];
        [self.random.pick(&front), between, self.random.pick(&back)].concat()
    }

    /// A hyphen before or behind the digits, also beside a blank, which is trimmed or not.
    fn with_hyphen_at_end(&mut self, digits: &[u8]) -> Bytes {
        let hyphen: &[u8] = self
            .random
            .pick(&[&b"-"[..], b"-", b"-", b" -", b"- ", b"--"]);
        let digits = [digits.to_vec(), self.grouped(digits)];
        let digits = self.random.pick(&digits);
        if self.random.flip() {
            [hyphen, &digits].concat()
        } else {
            [&digits, hyphen].concat()
        }
    }

    /// A text that is not the running code.
    pub(super) fn wrong_code(&mut self) -> Bytes {
        let code = self.running_code().unwrap_or(vec![b'0'; CODE_LENGTH]);
        let at = self.random.below(code.len() as u64) as usize;
        let mut other = code.clone();
        other[at] = b'0' + (other[at] - b'0' + 1 + self.random.below(9) as u8) % 10;
        let other_grouped = self.grouped(&other);
        let badly_grouped = self.badly_grouped(&code);
        let mut longer = code.clone();
        longer.push(b'0');
        let mut padded = text(self.random.pick(&NOT_WHITE_SPACE));
        padded.extend(&code);
        let mut behind = code.clone();
        behind.extend(text(self.random.pick(&NOT_WHITE_SPACE)));
        let blanks = text(self.random.pick(&WHITE_SPACE));
        let mut high = code.clone();
        high[at] ^= 0x40;
        let mut wide = code[..at].to_vec();
        wide.extend(text(0xFF10 + u32::from(code[at] - b'0')));
        wide.extend(&code[at + 1..]);
        self.random.pick(&[
            other.clone(),
            other,
            other_grouped,
            badly_grouped.clone(),
            badly_grouped,
            code[1..].to_vec(),
            longer,
            padded,
            behind,
            blanks,
            vec![b'-'],
            Bytes::new(),
            high,
            wide,
        ])
    }

    /// Bytes that are no text, alone or around the code.
    pub(super) fn no_text(&mut self) -> Bytes {
        let bad = self.random.pick(&NOT_TEXT);
        let mut typed = if self.random.flip() {
            self.right_code()
        } else {
            Bytes::new()
        };
        typed.extend(bad);
        typed
    }

    /// A typed code of any kind.
    pub(super) fn typed(&mut self) -> Bytes {
        match self.random.below(10) {
            0 => self.no_text(),
            1..=4 => self.right_code(),
            _ => self.wrong_code(),
        }
    }
}
