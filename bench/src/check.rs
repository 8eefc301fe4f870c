//! The proved check of a full table beside the plain one. That they agree on every word is for
//! host/rust/tests/tables.rs.

use std::hint::black_box;
use std::time::Instant;

use second::generate::tables::reached;
use second::state::Machine;
use second::table;
use second::trace::Reader;

const TURNS: u32 = 20;
const ROUNDS: u32 = 2_000;

pub fn time() {
    let full = full_table();
    // The least of several turns, taken in turn, so that both see the same machine.
    let (mut proved, mut plain) = (f64::MAX, f64::MAX);
    for _ in 0..TURNS {
        proved = proved.min(nanoseconds(makvluria::is_well_formed, &full));
        plain = plain.min(nanoseconds(table::is_well_formed, &full));
    }
    let ratio = proved / plain;
    println!(
        "check of a full table: proved {proved:.0} ns, plain Rust {plain:.0} ns, ratio {ratio:.2}"
    );
}

fn nanoseconds(check: impl Fn(&[u32]) -> bool, table: &[u32]) -> f64 {
    let began = Instant::now();
    for _ in 0..ROUNDS {
        assert!(black_box(check(black_box(table))));
    }
    began.elapsed().as_nanos() as f64 / f64::from(ROUNDS)
}

/// A table at the limits: eight processes, sixteen drivers, every slot in use, full queues.
fn full_table() -> Vec<u32> {
    let crowded = reached().into_iter().find(|reached| reached.name == "crowded");
    let trace = crowded.expect("it is one of them").trace;
    let mut reader = Reader::new(&trace);
    let mut machine = Machine::start(&reader.board().expect("a board")).expect("a good board");
    while let Some(step) = reader.step().expect("a good record") {
        let _ = machine.step(step);
    }
    table::image(&machine)
}
