//! The benchmark's trace.

use second::generate::calls::{trace, CALLS};
use second::lines::Lines;
use second::replay::replay_into;

#[test]
fn no_call_of_the_benchmark_is_refused_or_fails() {
    let mut lines = Lines::default();
    replay_into(&trace(CALLS), &mut lines);
    let lines: Vec<_> = lines.written().split_inclusive(|&byte| byte == b'\n').collect();
    let exchanged = lines.iter().filter(|line| line.starts_with(b"A 130 ")).count();
    let nothing = lines.iter().filter(|&&line| line == b"N\n").count();
    assert_eq!((lines.len(), exchanged, nothing), (999_999, 666_666, 333_333));
}
