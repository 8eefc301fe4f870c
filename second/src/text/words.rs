//! A line of text as words, taken one after the other.

use std::error::Error;
use std::fmt;

use crate::text::names::{Field, Form, Said, Style, NONE};
use crate::text::value::{is_offset, read, read_byte};

/// What is wrong in a text.
#[derive(Clone, Debug, PartialEq, Eq)]
pub struct TextError {
    /// Counted from 1.
    pub line: usize,
    pub found: String,
    pub expected: String,
}

impl fmt::Display for TextError {
    fn fmt(&self, out: &mut fmt::Formatter) -> fmt::Result {
        let TextError { line, found, expected } = self;
        write!(out, "line {line}: found {found}, expected {expected}")
    }
}

impl Error for TextError {}

/// The words of a line that are not yet read.
pub struct Words<'a> {
    line: usize,
    words: Vec<&'a str>,
    place: usize,
}

impl<'a> Words<'a> {
    /// Leaves out the comment, the answer and the offset.
    pub fn new(line: usize, text: &'a str) -> Words<'a> {
        let text = text.split('#').next().unwrap_or_default();
        let mut words: Vec<&str> =
            text.split_whitespace().take_while(|&word| word != "=").collect();
        if words.first().is_some_and(|word| is_offset(word)) {
            words.remove(0);
        }
        Words { line, words, place: 0 }
    }

    pub fn peek(&self) -> Option<&'a str> {
        self.words.get(self.place).copied()
    }

    /// Takes the words of a name, if they come next.
    pub fn takes(&mut self, name: &str) -> bool {
        let name: Vec<&str> = name.split(' ').collect();
        let found = self.words[self.place..].starts_with(&name);
        if found {
            self.place += name.len();
        }
        found
    }

    /// The form whose name comes next.
    pub fn form(&mut self, forms: &'static [Form]) -> Result<&'static Form, TextError> {
        let found = forms.iter().find(|form| self.takes(form.name));
        found.ok_or_else(|| self.unexpected_words(2, one_of(forms)))
    }

    /// The numbers of a form's fields; the bytes among them are appended.
    pub fn fields(&mut self, fields: &[Field], bytes: &mut Vec<u8>) -> Result<Vec<u32>, TextError> {
        fields.iter().map(|field| self.field(field, bytes)).collect()
    }

    fn field(&mut self, field: &Field, bytes: &mut Vec<u8>) -> Result<u32, TextError> {
        if !self.label(field)? {
            return Ok(0);
        }
        if field.style == Style::Bytes {
            bytes.extend(self.list(field.most as usize, "bytes of two hex digits", read_byte)?);
            return Ok(bytes.len() as u32);
        }
        self.value(field)
    }

    /// The next word as a value of this field.
    fn value(&mut self, field: &Field) -> Result<u32, TextError> {
        let value = self.peek().and_then(|word| read(field.style, word));
        let Some(value) = value.filter(|&value| value <= field.most) else {
            let least = if field.style == Style::Signed { i32::MIN } else { 0 };
            let expected = format!("a number from {least} to {} as {}", field.most, field.name);
            return Err(self.unexpected(expected));
        };
        self.place += 1;
        Ok(value)
    }

    /// The rest of the line as a list; a word of its own says that it is empty.
    /// An empty rest could be a list that was forgotten.
    pub fn list<T>(
        &mut self,
        most: usize,
        items_are: &str,
        read: impl Fn(&str) -> Option<T>,
    ) -> Result<Vec<T>, TextError> {
        if self.takes(NONE) {
            return Ok(Vec::new());
        }
        let mut items = Vec::new();
        while items.is_empty() || self.peek().is_some() {
            let item = self.peek().and_then(&read);
            items.push(item.ok_or_else(|| self.unexpected(format!("{items_are}, or `{NONE}`")))?);
            self.place += 1;
        }
        if items.len() > most {
            let found = items.len().to_string();
            return Err(self.error(found, format!("at most {most} {items_are}")));
        }
        Ok(items)
    }

    /// That nothing is left.
    pub fn end(&self) -> Result<(), TextError> {
        match self.peek() {
            Some(_) => Err(self.unexpected(String::from("the end of the line"))),
            None => Ok(()),
        }
    }

    /// The error that something else was expected than the next word.
    pub fn unexpected(&self, expected: String) -> TextError {
        self.unexpected_words(1, expected)
    }

    /// The same with so many words: some names have two.
    fn unexpected_words(&self, count: usize, expected: String) -> TextError {
        let rest = &self.words[self.place..];
        let found = match &rest[..rest.len().min(count)] {
            [] => String::from("the end of the line"),
            words => format!("`{}`", words.join(" ")),
        };
        self.error(found, expected)
    }

    pub fn error(&self, found: String, expected: String) -> TextError {
        TextError { line: self.line, found, expected }
    }

    /// Takes the field's name. False if the field is left out.
    fn label(&mut self, field: &Field) -> Result<bool, TextError> {
        match field.said {
            Said::Bare => Ok(true),
            _ if self.takes(field.name) => Ok(true),
            Said::UnlessZero => Ok(false),
            Said::Named => Err(self.unexpected(format!("`{}`", field.name))),
        }
    }
}

/// The names of forms, as something that is expected.
pub fn one_of(forms: &[Form]) -> String {
    let names: Vec<String> = forms.iter().map(|form| format!("`{}`", form.name)).collect();
    names.join(", ")
}
