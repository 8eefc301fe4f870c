//! Lines of text that a person reads, none wider than the page.

/// Most columns of a line.
pub const PAGE: usize = 100;

/// Columns of the words' places, at the left.
pub const PLACES: usize = 12;

/// Columns that a name has at least, so that most values stand below each other.
pub const NAME: usize = 24;

/// Stands for a space at which no line is parted.
pub const JOINED: char = '\u{1f}';

/// A line with a label at the left; what is too long goes on below, behind the label's columns. A label that fills them has a space behind it.
pub fn labelled(label: &str, text: &str) -> String {
    let mut out = String::new();
    let (mut label, mut rest) = (label, text.trim_end());
    loop {
        let (line, more) = part(rest, PAGE - PLACES);
        let width = PLACES - 1;
        out += format!("{label:width$} {line}").replace(JOINED, " ").trim_end();
        out.push('\n');
        if more.is_empty() {
            return out;
        }
        (label, rest) = ("", more);
    }
}

/// A paragraph; what is too long goes on below, set in.
pub fn paragraph(text: &str) -> String {
    const SET_IN: &str = "    ";
    let (first, mut rest) = part(text.trim_end(), PAGE);
    let mut out = format!("{first}\n");
    while !rest.is_empty() {
        let (line, more) = part(rest, PAGE - SET_IN.len());
        out += &format!("{SET_IN}{line}\n");
        rest = more;
    }
    out
}

/// What fits into so many columns, parted at a space where there is one, and the rest.
fn part(text: &str, columns: usize) -> (&str, &str) {
    if text.len() <= columns {
        return (text, "");
    }
    // One more, as the space itself may stand behind the last column.
    let within = text.get(..=columns).unwrap_or(text);
    let at = match within.trim_start().rfind(' ') {
        Some(_) => within.rfind(' ').unwrap_or(columns),
        None => columns,
    };
    let (line, rest) = text.split_at_checked(at).unwrap_or((text, ""));
    (line.trim_end(), rest.trim_start())
}

/// So many things.
pub fn count(number: usize, one: &str, many: &str) -> String {
    match number {
        1 => format!("1 {one}"),
        _ => format!("{number} {many}"),
    }
}

/// A count, which can be beyond what there are rows for.
pub fn limited(count: u32, most: usize) -> String {
    if count as usize > most {
        format!("{count}, more than there are rows for: {most} follow")
    } else {
        count.to_string()
    }
}
