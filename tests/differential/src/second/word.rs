//! A file as a word of '0' and '1', most significant bit first.

use super::Answer;

pub fn word(bytes: &[u8]) -> String {
    let digit = |byte: u8, place: u32| if byte / 2u8.pow(place) % 2 == 1 { '1' } else { '0' };
    bytes.iter().flat_map(|&byte| (0..8).rev().map(move |place| digit(byte, place))).collect()
}

pub fn bytes(word: &str) -> Vec<u8> {
    assert!(word.len().is_multiple_of(8), "a file ends with its last byte");
    (0..word.len()).step_by(8).map(|at| value(&word[at..at + 8]) as u8).collect()
}

/// Zeros up to the end of the last byte.
pub fn padded(mut word: String) -> String {
    while !word.len().is_multiple_of(8) {
        word.push('0');
    }
    word
}

pub fn value(word: &str) -> i128 {
    word.chars().fold(0, |sum, digit| 2 * sum + if digit == '1' { 1 } else { 0 })
}

/// Two's complement: the first digit counts negative.
pub fn signed_value(word: &str) -> i128 {
    let negative = if word.starts_with('1') { 1i128 << word.len() } else { 0 };
    value(word) - negative
}

pub fn field(value: i128, width: usize) -> String {
    assert!((0..1i128 << width).contains(&value), "a value that its field holds");
    format!("{value:0width$b}")
}

pub fn signed_field(value: i128, width: usize) -> String {
    field(if value < 0 { value + (1i128 << width) } else { value }, width)
}

/// Takes a word apart from its front.
pub struct Reader {
    word: String,
    at: usize,
}

impl Reader {
    pub fn new(file: &[u8]) -> Self {
        Reader { word: word(file), at: 0 }
    }

    pub fn skip(&mut self, width: usize) {
        self.at += width;
    }

    fn next(&mut self, width: usize) -> &str {
        self.at += width;
        &self.word[self.at - width..self.at]
    }

    pub fn take(&mut self, width: usize) -> i128 {
        value(self.next(width))
    }

    pub fn take_signed(&mut self, width: usize) -> i128 {
        signed_value(self.next(width))
    }

    /// What is left must be zeros, or 8.
    pub fn end(&self) -> Answer<()> {
        if self.word[self.at..].contains('1') {
            Err(8)
        } else {
            Ok(())
        }
    }
}
