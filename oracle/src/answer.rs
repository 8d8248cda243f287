//! The words that requests and answers are made of.

use std::fmt::{self, Display};
use std::str::FromStr;

use lindera::dictionary::character_definition::CategoryId;

/// Bytes in hex, `-` for none.
pub fn hex(bytes: &[u8]) -> String {
    const DIGITS: &[u8; 16] = b"0123456789abcdef";
    if bytes.is_empty() {
        return "-".into();
    }
    let digits = bytes
        .iter()
        .flat_map(|byte| [byte >> 4, byte & 15])
        .map(|digit| char::from(DIGITS[usize::from(digit)]));
    digits.collect()
}

pub fn bytes(word: &str) -> Option<Vec<u8>> {
    if word == "-" {
        return Some(Vec::new());
    }
    let (pairs, rest) = word.as_bytes().as_chunks::<2>();
    let byte = |[high, low]: &[u8; 2]| Some(digit(*high)? << 4 | digit(*low)?);
    pairs
        .iter()
        .map(byte)
        .collect::<Option<_>>()
        .filter(|_| rest.is_empty())
}

fn digit(letter: u8) -> Option<u8> {
    match letter {
        b'0'..=b'9' => Some(letter - b'0'),
        b'a'..=b'f' => Some(letter - b'a' + 10),
        _ => None,
    }
}

/// Items with `,` between, `.` for none.
pub fn list<T: Display>(items: impl IntoIterator<Item = T>) -> String {
    joined(items, ",", ".")
}

/// A row's numbers with `:` between, `-` for none.
pub fn row(row: &[CategoryId]) -> String {
    joined(row.iter().map(|id| id.0), ":", "-")
}

pub fn joined<T: Display>(items: impl IntoIterator<Item = T>, between: &str, none: &str) -> String {
    use std::fmt::Write;
    let mut all = String::new();
    for item in items {
        if !all.is_empty() {
            all.push_str(between);
        }
        write!(all, "{item}").expect("a string takes all");
    }
    if all.is_empty() { none.into() } else { all }
}

/// The items of a list, each read by `item`.
pub fn items<T>(word: &str, item: impl Fn(&str) -> Option<T>) -> Option<Vec<T>> {
    if word == "." {
        return Some(Vec::new());
    }
    word.split(',').map(item).collect()
}

pub fn number<T: FromStr>(word: &str) -> Option<T> {
    word.parse().ok()
}

pub fn code(word: &str) -> Option<u32> {
    u32::from_str_radix(word, 16).ok()
}

pub fn name(word: &str) -> Option<String> {
    String::from_utf8(bytes(word)?).ok()
}

/// FNV-1a of 32 bits over what is added, eight hex digits.
pub struct Fnv(u32);

impl Fnv {
    pub fn new() -> Self {
        Self(2_166_136_261)
    }

    pub fn add(&mut self, bytes: &[u8]) {
        for byte in bytes {
            self.0 = (self.0 ^ u32::from(*byte)).wrapping_mul(16_777_619);
        }
    }

    /// Two bytes, the least first.
    fn half(&mut self, number: usize) {
        let half = u16::try_from(number).expect("lengths and categories have 16 bits");
        self.add(&half.to_le_bytes());
    }

    pub fn numbers(&mut self, row: &[CategoryId]) {
        row.iter().for_each(|id| self.half(id.0));
    }

    /// A row's length, and its numbers.
    pub fn row(&mut self, row: &[CategoryId]) {
        self.half(row.len());
        self.numbers(row);
    }
}

impl Display for Fnv {
    fn fmt(&self, to: &mut fmt::Formatter) -> fmt::Result {
        write!(to, "{:08x}", self.0)
    }
}
