//! The tables of runs over traces: at every record, after each step, saved and read back.

use dump::table::dump as text_of;
use dump::trace::{to_byte, to_end, Run};
use dump::words::{from_bytes, to_bytes};
use second::generate::{generate, Kind};
use second::trace::Reader;

use crate::common::{dump, examples, own_file, printed, root, table_of};

/// Where the records after the board begin, and the end.
fn boundaries(trace: &[u8]) -> Vec<usize> {
    let mut reader = Reader::new(trace);
    reader.board().unwrap();
    let mut places = vec![reader.place()];
    while reader.step().unwrap().is_some() {
        places.push(reader.place());
    }
    places
}

fn traces() -> Vec<(String, Vec<u8>)> {
    let walks = (0..4).map(|index| (format!("walk {index}"), generate(13, Kind::Walk, index)));
    let examples = examples().into_iter().map(|(path, trace)| (path.display().to_string(), trace));
    examples.chain(walks).collect()
}

#[test]
fn the_table_at_each_record_is_that_of_the_run_before_it() {
    for (name, trace) in traces() {
        let places = boundaries(&trace);
        let mut each = Run::start(&trace).unwrap();
        // Each run to a byte starts anew: some of many are enough.
        let some = places.len().div_ceil(40);
        for (index, &at) in places.iter().enumerate() {
            assert_eq!(each.place(), at, "{name}");
            let expected = table_of(&trace[..at]);
            assert_eq!(each.table(), expected, "{name} at {at}");
            if index % some == 0 {
                let (run, error) = to_byte(&trace, at).unwrap();
                assert_eq!((run.table(), error), (&expected[..], None), "{name} at {at}");
                assert_eq!(run.header(), each.header());
            }
            assert_eq!(each.step(), Ok(index + 1 < places.len()), "{name} at {at}");
        }
        let (run, error) = to_end(&trace).unwrap();
        assert_eq!((run.table(), error), (&table_of(&trace)[..], None));
    }
}

#[test]
fn the_command_prints_the_same_at_each_record() {
    for (path, trace) in examples() {
        let name = path.to_str().unwrap();
        let at = |place: usize| printed(dump(&["--trace", name, "--at", &place.to_string()], b""));
        let places = boundaries(&trace);
        let one_by_one: Vec<String> = places.iter().map(|&place| at(place)).collect();
        assert_eq!(printed(dump(&["--trace", name, "--each"], b"")), one_by_one.join("\n"));
        assert_eq!(printed(dump(&["--trace", name], b"")), one_by_one[places.len() - 1]);
        assert_eq!(printed(dump(&["--trace", "-"], &trace)), one_by_one[places.len() - 1]);
        for (place, text) in places.iter().zip(&one_by_one) {
            assert!(text.ends_with(&text_of(&table_of(&trace[..*place]))), "{name} at {place}");
        }
    }
}

#[test]
fn a_text_is_assembled_first() {
    let incident = |name: &str| {
        let path = root().join("examples").join(name);
        printed(dump(&["--trace", path.to_str().unwrap()], b""))
    };
    assert_eq!(incident("incident.txt"), incident("incident.trace"));
}

#[test]
fn a_saved_table_is_read_back() {
    for (path, trace) in examples() {
        let name = path.to_str().unwrap();
        let saved = own_file("saved.words", b"something before");
        let middle = boundaries(&trace)[1].to_string();
        for stop in [&["--at", &middle][..], &[]] {
            let arguments = [&["--trace", name, "--save", &saved], stop].concat();
            let run = printed(dump(&arguments, b""));
            let bytes = std::fs::read(&saved).unwrap();
            let table = printed(dump(&[&saved], b""));
            assert!(run.ends_with(&table) && run.starts_with("at byte "));
            assert_eq!(printed(dump(&["-"], &bytes)), table);
            let words: Vec<String> =
                from_bytes(&bytes).unwrap().iter().map(|word| format!("{word:#x}")).collect();
            let numbers = format!("# a table\n{}", words.join(" # and so on\n"));
            assert_eq!(printed(dump(&["--text", "-"], numbers.as_bytes())), table);
        }
    }
}

#[test]
fn words_and_bytes() {
    assert_eq!(from_bytes(&[1, 2, 3, 4, 0xFF, 0, 0, 0]), Ok(vec![0x0403_0201, 0xFF]));
    assert_eq!(to_bytes(&[0x0403_0201, 0xFF]), [1, 2, 3, 4, 0xFF, 0, 0, 0]);
    assert_eq!(from_bytes(&[]), Ok(vec![]));
}
