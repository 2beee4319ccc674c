//! Bytes as they are written in the papers.

use std::fmt::{self, Debug};

/// The bytes of a text in hexadecimal, whatever blanks stand between.
pub fn bytes(text: &str) -> Vec<u8> {
    let digits: Vec<u8> = text
        .chars()
        .filter(|sign| !sign.is_whitespace())
        .map(|sign| sign.to_digit(16).expect("a hexadecimal digit") as u8)
        .collect();
    assert!(digits.len() % 2 == 0, "half a byte in {text}");
    digits
        .chunks(2)
        .map(|pair| 16 * pair[0] + pair[1])
        .collect()
}

/// Bytes to be shown; of many only the first.
#[derive(Clone, Copy, PartialEq)]
pub struct Hex<'a>(pub &'a [u8]);

const SHOWN: usize = 400;

impl Debug for Hex<'_> {
    fn fmt(&self, f: &mut fmt::Formatter<'_>) -> fmt::Result {
        for byte in self.0.iter().take(SHOWN) {
            write!(f, "{byte:02x}")?;
        }
        if self.0.len() > SHOWN {
            write!(f, "...")?;
        }
        write!(f, " ({} bytes)", self.0.len())
    }
}
