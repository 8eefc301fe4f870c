//! A million calls through the proved library and through the second program, in turn.

use std::time::Duration;

use second::generate::calls;

use crate::job::Job;

const TURNS: usize = 7;

pub fn compare_and_time() {
    let mut job = Job::new(calls::trace(calls::CALLS), calls::CALLS);
    let (mut proved, mut plain) = (Duration::MAX, Duration::MAX);
    for _ in 0..TURNS {
        let times = job.both();
        (proved, plain) = (proved.min(times.0), plain.min(times.1));
        job.assert_all_accepted();
    }
    let (bytes, written) = (job.trace.len(), job.lines().len());
    println!(
        "replay of {} calls: {bytes} bytes of trace and {written} of equal lines",
        calls::CALLS
    );
    println!("  no call refused or failed; least of {TURNS} turns each, taken in turn");
    report("proved", proved);
    report("plain Rust", plain);
    println!("  ratio {:.2}", proved.as_secs_f64() / plain.as_secs_f64());
}

fn report(what: &str, time: Duration) {
    let seconds = time.as_secs_f64();
    let (milliseconds, nanoseconds) = (seconds * 1e3, seconds * 1e9 / calls::CALLS as f64);
    println!("  {what}: {milliseconds:.1} ms, {nanoseconds:.1} ns per call");
}
