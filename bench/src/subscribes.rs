//! A subscribe, by what is queued: the difference of two traces, of which one has it in each round.

use std::time::Duration;

use second::generate::subscribes::{Case, CASES};

use crate::job::Job;

const TURNS: usize = 400;
const ROUNDS: usize = 300;

pub fn time() {
    println!("a subscribe, by how many of the queued upcalls are of its slot:");
    println!("  {ROUNDS} rounds with it less as many without; least of {TURNS} turns each, taken in turn");
    for case in CASES {
        let [proved, plain] = nanoseconds(case);
        let (name, ratio) = (case.name(), proved / plain);
        println!("  {name}: proved {proved:.1} ns, plain Rust {plain:.1} ns, ratio {ratio:.2}");
    }
}

/// What a subscribe takes the library, and what the second program.
fn nanoseconds(case: Case) -> [f64; 2] {
    let mut jobs = [true, false].map(|with_subscribe| job(case, ROUNDS, with_subscribe));
    let mut least = [[Duration::MAX; 2]; 2];
    for _ in 0..TURNS {
        for (job, least) in jobs.iter_mut().zip(&mut least) {
            let (proved, plain) = job.both();
            *least = [least[0].min(proved), least[1].min(plain)];
        }
    }
    jobs.iter().for_each(Job::assert_all_accepted);
    let [with, without] = least.map(|times| times.map(|time| time.as_secs_f64() * 1e9));
    [0, 1].map(|program| (with[program] - without[program]) / ROUNDS as f64)
}

pub fn job(case: Case, rounds: usize, with_subscribe: bool) -> Job {
    let steps = case.round(with_subscribe).len() * rounds;
    Job::new(case.trace(rounds, with_subscribe), steps)
}
