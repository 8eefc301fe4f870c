//! Words from bytes and from text, and back.

use second::text::names::Style;
use second::text::value::read;

const WORD_BYTES: usize = 4;

/// Words of four bytes each, the least significant first.
pub fn from_bytes(bytes: &[u8]) -> Result<Vec<u32>, String> {
    let (words, rest) = bytes.as_chunks::<WORD_BYTES>();
    if rest.is_empty() {
        return Ok(words.iter().copied().map(u32::from_le_bytes).collect());
    }
    Err(format!("{} bytes are no whole words, which have {WORD_BYTES} each", bytes.len()))
}

pub fn to_bytes(words: &[u32]) -> Vec<u8> {
    words.iter().flat_map(|word| word.to_le_bytes()).collect()
}

/// Numbers with blanks or new lines between them; what stands after a # is a comment.
pub fn from_text(text: &str) -> Result<Vec<u32>, String> {
    let mut words = Vec::new();
    for (line, text) in (1..).zip(text.lines()) {
        let text = text.split('#').next().unwrap_or_default();
        for found in text.split_whitespace() {
            words.push(read(Style::Word, found).ok_or_else(|| unexpected(line, found))?);
        }
    }
    Ok(words)
}

fn unexpected(line: usize, found: &str) -> String {
    const MOST_SHOWN: usize = 20;
    let shown: String = plain(found).chars().take(MOST_SHOWN).collect();
    format!("line {line}: found `{shown}`, expected a number from 0 to {}", u32::MAX)
}

/// A text in one line, whatever it holds.
pub fn plain(text: &str) -> String {
    text.chars().map(|shown| if shown.is_control() { '?' } else { shown }).collect()
}
