//! The dump of a table.

use second::fault::Fault;
use second::table::{check, TABLE_WORDS};
use second::text::names::Style;
use second::text::value::show;

use crate::layout::{count, paragraph};
use crate::reading::Reading;
use crate::{fold, names, parts};

/// All that is said of words, whatever they are and however many.
pub fn dump(words: &[u32]) -> String {
    let reading = Reading::new(words);
    // One line, however long: it is looked for by the first line of a dump.
    let mut out = verdict(words, reading.well_formed) + "\n";
    if !reading.well_formed {
        out += &paragraph(
            "where a buffer lies is told by the second program's rule: the proved library refuses the table",
        );
    }
    out += &fold::write(&parts::cut(parts::pieces(&reading, words.len()), words));
    out += &match words.len() {
        length if length < TABLE_WORDS => missing(length),
        TABLE_WORDS => String::new(),
        _ => fold::write(&parts::extra(words)),
    };
    out
}

/// Whether the words are well formed by the proved check, and what is wrong if not.
fn verdict(words: &[u32], well_formed: bool) -> String {
    match (well_formed, check(words)) {
        (true, Ok(())) => String::from("well formed"),
        (false, Err(fault)) => format!("not well formed: {}", fault_text(words, fault)),
        (true, Err(fault)) => {
            let fault = fault_text(words, fault);
            format!("well formed, though the second program's check says otherwise: {fault}")
        }
        (false, Ok(())) => {
            String::from("not well formed, though the second program's check finds no fault")
        }
    }
}

/// The word, its name and its value, and the rule that it breaks.
pub fn fault_text(words: &[u32], Fault { word, reason }: Fault) -> String {
    let name = names::word(word);
    match words.get(word) {
        Some(&value) => {
            format!("word {word} ({name}) = {}: {reason}", show(Style::Word, value))
        }
        None => format!("word {word} ({name}) is missing: {reason}, and here are {}", words.len()),
    }
}

fn missing(length: usize) -> String {
    let missing = count(TABLE_WORDS - length, "word is", "words are");
    format!("\nthe words end here: {missing} missing\n")
}
