//! What the tests share: tables that steps reach, a dump taken apart, and the command as a program.

use std::fs;
use std::io::Write;
use std::ops::Range;
use std::path::{Path, PathBuf};
use std::process::{Command, Output, Stdio};

use makvluria::Layer;
use second::generate::tables::reached;

pub fn root() -> PathBuf {
    Path::new(env!("CARGO_MANIFEST_DIR")).join("../..")
}

/// The traces of `examples/`, by their names.
pub fn examples() -> Vec<(PathBuf, Vec<u8>)> {
    let files = fs::read_dir(root().join("examples")).unwrap().map(|file| file.unwrap().path());
    let traces = files.filter(|path| path.extension().is_some_and(|name| name == "trace"));
    let traces: Vec<_> = traces.map(|path| (path.clone(), fs::read(path).unwrap())).collect();
    assert!(traces.len() >= 2, "there are examples");
    traces
}

/// The proved table after a run over a trace.
pub fn table_of(trace: &[u8]) -> Vec<u32> {
    let mut layer = Box::new(Layer::new());
    layer.replay_all(trace, &mut Vec::new()).unwrap();
    layer.table().to_vec()
}

/// Tables that use every part.
pub fn reached_tables() -> Vec<(&'static str, Vec<u32>)> {
    reached().iter().map(|reached| (reached.name, table_of(&reached.trace))).collect()
}

/// An entry of a dump: the words it is about, and all that it says of them.
pub struct Entry {
    pub words: Range<usize>,
    pub text: String,
}

/// The entries of a dump. Their lines begin with the words' places, and those that begin with so many spaces go on with the entry before.
pub fn entries(dump: &str) -> Vec<Entry> {
    let mut entries: Vec<Entry> = Vec::new();
    let mut open = false;
    for line in dump.lines() {
        if let Some((words, text)) = entry(line) {
            entries.push(Entry { words, text: String::from(text) });
            open = true;
        } else if let (true, Some(more)) = (open, line.strip_prefix(&" ".repeat(12))) {
            entries.last_mut().unwrap().text += &format!(" {more}");
        } else {
            open = false;
        }
    }
    entries
}

/// The places at the front of a line, the end not included, and the rest of it.
fn entry(line: &str) -> Option<(Range<usize>, &str)> {
    let (places, text) = line.split_once(' ').unwrap_or((line, ""));
    let (start, end) = match places.split_once("..") {
        Some((start, end)) => (start.parse().ok()?, end.parse().ok()?),
        None => (places.parse().ok()?, places.parse::<usize>().ok()? + 1),
    };
    Some((start..end, text))
}

/// Whether a text has the word's value, in decimal or in hex.
pub fn says(text: &str, word: u32) -> bool {
    let forms = [word.to_string(), format!("0x{word:X}"), format!("0x{word:08X}")];
    text.split(|letter: char| !letter.is_ascii_alphanumeric())
        .any(|part| forms.iter().any(|form| form == part))
}

/// Runs the program with this standard input.
pub fn dump(arguments: &[&str], input: &[u8]) -> Output {
    run(Command::new(env!("CARGO_BIN_EXE_dump")).args(arguments), input)
}

pub fn run(command: &mut Command, input: &[u8]) -> Output {
    let piped = command.stdin(Stdio::piped()).stdout(Stdio::piped()).stderr(Stdio::piped());
    let mut child = piped.spawn().unwrap();
    // It need not read all of it.
    let _ = child.stdin.take().unwrap().write_all(input);
    child.wait_with_output().unwrap()
}

/// What a program printed that ended well and told nothing.
#[track_caller]
pub fn printed(output: Output) -> String {
    assert!(output.status.success() && output.stderr.is_empty(), "{output:?}");
    String::from_utf8(output.stdout).unwrap()
}

/// A file of the tests' own.
pub fn own_file(name: &str, bytes: &[u8]) -> String {
    let path = Path::new(env!("CARGO_TARGET_TMPDIR")).join(name);
    fs::write(&path, bytes).unwrap();
    String::from(path.to_str().unwrap())
}
