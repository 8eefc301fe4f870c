//! Values as text and back.

use crate::text::names::{Style, NONE};

/// The least value without a known meaning that is written in hex.
const LARGE: u32 = 0x1_0000;

/// A value in its style. The bytes of a `Bytes` field are not known here: its
/// value is their number.
pub fn show(style: Style, value: u32) -> String {
    match style {
        Style::Hex => format!("0x{value:X}"),
        Style::Address => format!("0x{value:08X}"),
        Style::Word if value >= LARGE => format!("0x{value:08X}"),
        Style::Signed => (value as i32).to_string(),
        Style::Decimal | Style::Word | Style::Bytes => value.to_string(),
    }
}

/// The value of a word, in decimal or hex whatever the style is. Only signed
/// values have a minus sign.
pub fn read(style: Style, word: &str) -> Option<u32> {
    match style {
        Style::Signed if word.starts_with('-') => word.parse().ok().map(|value: i32| value as u32),
        _ => read_unsigned(word),
    }
}

fn read_unsigned(word: &str) -> Option<u32> {
    match word.strip_prefix("0x") {
        Some(digits) => read_digits(digits, 16),
        None => read_digits(word, 10),
    }
}

/// Digits alone: the library would take a plus sign too.
fn read_digits(digits: &str, radix: u32) -> Option<u32> {
    let plain = digits.chars().all(|digit| digit.is_digit(radix));
    u32::from_str_radix(digits, radix).ok().filter(|_| plain)
}

/// Whether the word is an offset as a listing prints it before a record.
pub fn is_offset(word: &str) -> bool {
    word.starts_with("0x") && read_unsigned(word).is_some()
}

/// An offset in a trace.
pub fn show_offset(offset: usize) -> String {
    format!("0x{offset:04X}")
}

/// Bytes, each in two hex digits.
pub fn show_bytes(bytes: &[u8]) -> String {
    show_list(bytes, |byte| format!("{byte:02X}"))
}

/// A byte in two hex digits.
pub fn read_byte(word: &str) -> Option<u8> {
    let value = read_digits(word, 16).filter(|_| word.len() == 2)?;
    u8::try_from(value).ok()
}

/// Items with single spaces, or a word that there are none.
pub fn show_list<T>(items: &[T], show: impl Fn(&T) -> String) -> String {
    match items {
        [] => String::from(NONE),
        _ => items.iter().map(show).collect::<Vec<_>>().join(" "),
    }
}
