//! Values written as text.

use super::random::Random;
use crate::hex::from_hex;
use crate::items::TEXT_KEYS;

/// The lines with some of the values that may be text written so, where every byte is printed ASCII.
pub fn with_texts(lines: &[String], seed: u64) -> Vec<String> {
    let mut random = Random::new(seed);
    lines
        .iter()
        .map(|line| {
            let words: Vec<String> = line
                .split(' ')
                .map(|word| with_text(word, &mut random))
                .collect();
            words.join(" ")
        })
        .collect()
}

fn with_text(word: &str, random: &mut Random) -> String {
    as_text(word)
        .filter(|_| random.flip())
        .unwrap_or(word.to_string())
}

/// Of a method of `new` the id, which then may have no slash.
fn as_text(word: &str) -> Option<String> {
    let (key, value) = word.split_once('=')?;
    let (digits, rest) = value.split_at(value.find('/').unwrap_or(value.len()));
    let text = String::from_utf8(from_hex(digits)?).ok()?;
    let fits =
        text.bytes().all(|b| b.is_ascii_graphic()) && (rest.is_empty() || !text.contains('/'));
    (fits && TEXT_KEYS.contains(&key)).then(|| format!("{key}='{text}{rest}"))
}
