//! Times the proved library beside the second program, which is plain Rust of the same job, in one
//! run: the check of a table, a million calls, subscribes by what is queued, and steps of each kind.
//!
//! For a tool that counts instructions, `bench PROGRAM calls N` replays N calls once, `bench PROGRAM
//! with C N` and `bench PROGRAM without C N` replay N rounds of a case of subscribes, and `bench
//! PROGRAM rounds C N` N rounds of steps; PROGRAM is `library`, `plain`, `checked`, which makes each
//! step by the library's function for it, or `none` to build only what they are given. `bench
//! cases` and `bench kinds` list the cases and the rounds, which are counted from 0.

mod check;
mod job;
mod rate;
mod steps;
mod subscribes;

use std::env;
use std::fmt::Display;
use std::process::ExitCode;

use second::generate::calls;
use second::generate::subscribes::{Case, CASES};

use job::Job;

fn main() -> ExitCode {
    let arguments: Vec<String> = env::args().skip(1).collect();
    let arguments: Vec<&str> = arguments.iter().map(String::as_str).collect();
    let done = match arguments[..] {
        [] => time_all(),
        ["cases"] => list(CASES.map(Case::name)),
        ["kinds"] => list(steps::names()),
        [program, ref what @ ..] => job(what).and_then(|job| replay_once(program, job)),
    };
    if done.is_some() {
        return ExitCode::SUCCESS;
    }
    eprintln!(
        "bench, bench cases, bench kinds, or bench library|plain|checked|none and calls N, with C N, without C N or rounds C N"
    );
    ExitCode::FAILURE
}

fn time_all() -> Option<()> {
    check::time();
    rate::compare_and_time();
    subscribes::time();
    steps::time();
    Some(())
}

fn list(names: impl IntoIterator<Item = impl Display>) -> Option<()> {
    names.into_iter().for_each(|name| println!("{name}"));
    Some(())
}

fn job(what: &[&str]) -> Option<Job> {
    match what {
        ["calls", count] => {
            let count = count.parse().ok().filter(|count: &usize| count.is_multiple_of(3))?;
            Some(Job::new(calls::trace(count), count))
        }
        [way @ ("with" | "without"), case, rounds] => {
            let case = CASES.get(case.parse::<usize>().ok()?)?;
            Some(subscribes::job(*case, rounds.parse().ok()?, *way == "with"))
        }
        ["rounds", place, count] => steps::job(place.parse().ok()?, count.parse().ok()?),
        _ => None,
    }
}

fn replay_once(program: &str, mut job: Job) -> Option<()> {
    match program {
        "library" => drop(job.library()),
        "plain" => drop(job.plain()),
        "checked" => drop(job.checked()),
        "none" => {}
        _ => return None,
    }
    Some(())
}
