//! docs/TEXT.md: its lines are read and listed again as they stand, and no form of a line is left out.

use std::collections::BTreeSet;
use std::fs;

use second::text::list::list_to_string;
use second::text::names::{Form, BOARD, BOARD_DRIVER, BOARD_PROCESS, BOARD_WORDS, STEPS};
use second::text::parse::assemble;

/// The texts of the page: the blocks from one that begins with a board to the next.
fn texts() -> Vec<String> {
    let path = concat!(env!("CARGO_MANIFEST_DIR"), "/../docs/TEXT.md");
    let page = fs::read_to_string(path).unwrap();
    let mut texts: Vec<String> = Vec::new();
    for block in page.split("```\n").skip(1).step_by(2) {
        match texts.last_mut() {
            Some(text) if !block.starts_with(BOARD) => text.push_str(block),
            _ => texts.push(String::from(block)),
        }
    }
    texts
}

/// The lines of a listing, without offsets and answers.
fn lines(listing: &str) -> Vec<String> {
    let told = |line: &str| {
        let words = line.split_whitespace().take_while(|&word| word != "=");
        words.skip_while(|word| word.starts_with("0x")).collect::<Vec<_>>().join(" ")
    };
    listing.lines().map(told).collect()
}

#[test]
fn every_line_comes_back() {
    for text in texts() {
        let trace = assemble(&text).unwrap_or_else(|error| panic!("{error} in\n{text}"));
        let expected: Vec<&str> = text.lines().collect();
        assert_eq!(lines(&list_to_string(&trace)), expected);
    }
}

/// The words that a line of a form begins with, after those before it.
fn beginnings(before: &str, form: &Form, found: &mut BTreeSet<String>) {
    let begins = format!("{before}{}", form.name);
    if form.rest.is_empty() {
        found.insert(begins);
    } else {
        // what stands between is the process
        form.rest.iter().for_each(|rest| beginnings(&format!("{begins} process 0 "), rest, found));
    }
}

#[test]
fn every_form_is_there() {
    let mut forms = BTreeSet::new();
    STEPS.iter().for_each(|form| beginnings("", form, &mut forms));
    forms.extend([BOARD, BOARD_PROCESS.name, BOARD_DRIVER.name].map(String::from));
    forms.insert(format!("{BOARD} {BOARD_WORDS}"));
    let page = texts().concat();
    for form in &forms {
        let shown = page.lines().any(|line| line == form || line.starts_with(&format!("{form} ")));
        assert!(shown, "docs/TEXT.md has no line `{form} ..`");
    }
    assert!(forms.len() > 25);
}
