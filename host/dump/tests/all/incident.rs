//! The incident's table at its end, as docs/dump-incident.txt has it, and what docs/DUMP.md shows of it.

use std::fs;

use dump::table::dump as text_of;
use dump::trace::to_byte;

use crate::common::{dump, printed, root, table_of};

fn read(file: &str) -> String {
    fs::read_to_string(root().join(file)).unwrap()
}

fn trace() -> Vec<u8> {
    fs::read(root().join("examples/incident.trace")).unwrap()
}

#[test]
fn the_incident_at_its_end() {
    let file = root().join("examples/incident.trace");
    let text = printed(dump(&["--trace", file.to_str().unwrap()], b""));
    assert_eq!(text, read("docs/dump-incident.txt"));
}

/// The page's excerpt, its fault and its header are what is printed.
#[test]
fn what_the_page_shows() {
    let page = read("docs/DUMP.md");
    let excerpts: Vec<&str> = page.split("```\n").skip(1).step_by(2).collect();
    assert_eq!(excerpts.len(), 1);
    assert!(read("docs/dump-incident.txt").contains(excerpts[0]));

    let mut table = table_of(&trace());
    table[929] = 3840;
    let fault = text_of(&table);
    let header = to_byte(&trace(), 92).unwrap().0.header();
    for line in fault.lines().take(1).chain(header.lines()) {
        assert!(page.lines().any(|shown| shown == format!("    {line}")), "{line}");
    }
}
