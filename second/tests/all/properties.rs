//! What holds of every run, tried on generated walks.

use second::board::ProcessIndex;
use second::generate::{generate, Kind};
use second::state::Machine;
use second::step::{Answer, Refusal, Step};
use second::trace::read_trace;
use second::variant::ReturnVariant;

const SEED: u64 = 7;

/// Board words and steps of a good trace.
fn read(trace: &[u8]) -> (Vec<u32>, Vec<Step<'_>>) {
    read_trace(trace).expect("good records")
}

fn start(words: &[u32]) -> Machine {
    Machine::start(words).expect("a good board")
}

#[test]
fn every_step_leaves_a_well_formed_state() {
    for index in 0..40 {
        let trace = generate(SEED, Kind::Walk, index);
        let (words, steps) = read(&trace);
        let mut machine = start(&words);
        assert!(machine.is_well_formed());
        for step in steps {
            let _ = machine.step(step);
            assert!(machine.is_well_formed(), "walk {index}, after {step:?}");
        }
    }
}

/// Whether the answer promises that nothing has changed.
fn changes_nothing(answer: &Result<Answer, Refusal>) -> bool {
    use ReturnVariant::{Failure, FailureWith2U32};
    match answer {
        Err(_) => true,
        Ok(Answer::Returned(Failure(_) | FailureWith2U32(..)) | Answer::Fetched(_)) => true,
        Ok(_) => false,
    }
}

#[test]
fn refusals_failures_and_fetches_change_nothing() {
    for index in 0..12 {
        let trace = generate(SEED, Kind::Walk, index);
        let (words, steps) = read(&trace);
        let mut machine = start(&words);
        for step in steps.into_iter().take(500) {
            let before = machine.clone();
            let answer = machine.step(step);
            assert!(!changes_nothing(&answer) || machine == before, "walk {index}, {step:?}");
        }
    }
}

/// Whether the step is a command above 0 to a shared driver, by this process.
fn is_shared_command(machine: &Machine, step: &Step, process: ProcessIndex) -> bool {
    let Step::Call { process: caller, class: 2, registers: [driver, number, ..] } = *step else {
        return false;
    };
    let mut drivers = machine.board.drivers().iter();
    let shared = drivers.any(|board| board.shared && board.number.0 == driver);
    caller == process && number > 0 && shared
}

/// An answer with the bytes that a fetch hands back.
type Seen = (Result<Answer, Refusal>, Vec<u8>);

/// Runs the steps; gives the answers to this process's own, and the end state.
fn run(words: &[u32], steps: &[Step], process: ProcessIndex) -> (Vec<Seen>, Machine) {
    let mut machine = start(words);
    let mut answers = Vec::new();
    for step in steps {
        let answer = machine.step(*step);
        if step.process() == Some(process) {
            let bytes = match answer {
                Ok(Answer::Fetched(part)) => machine.bytes(part).to_vec(),
                _ => Vec::new(),
            };
            answers.push((answer, bytes));
        }
    }
    (answers, machine)
}

/// Demand 3: a process that sends no command above 0 to a shared driver gets
/// the same alone, whatever the others do.
#[test]
fn a_process_is_not_touched_by_the_others() {
    for index in 0..40 {
        let trace = generate(SEED, Kind::Walk, index);
        let (words, mut steps) = read(&trace);
        let machine = start(&words);
        let process = ProcessIndex(index as u32 % machine.processes.len() as u32);
        steps.retain(|step| !is_shared_command(&machine, step, process));
        let (answers, together) = run(&words, &steps, process);
        steps.retain(|step| step.process() == Some(process));
        let (alone_answers, alone) = run(&words, &steps, process);

        assert_eq!(answers, alone_answers, "walk {index}");
        let place = process.place();
        assert_eq!(together.processes[place], alone.processes[place]);
        let ram = machine.board.processes()[place].ram;
        let own = (ram.start - 0x2000_0000) as usize..(ram.end - 0x2000_0000) as usize;
        assert_eq!(together.memory[own.clone()], alone.memory[own]);
    }
}

/// Every delivery is of a taken event, with its arguments and its slot's data,
/// and deliveries come in the order in which the events were taken.
#[test]
fn deliveries_keep_the_order_of_the_events() {
    for index in 0..40 {
        let trace = generate(SEED, Kind::Walk, index);
        let (words, steps) = read(&trace);
        let mut machine = start(&words);
        let mut histories: Vec<Vec<[u32; 4]>> = vec![Vec::new(); machine.processes.len()];
        for step in steps {
            let answer = machine.step(step);
            let Some(history) = step.process().and_then(|p| histories.get_mut(p.place())) else {
                continue;
            };
            match (step, answer) {
                (Step::Event { process, arguments: [a, b, c], .. }, Ok(_)) => {
                    let queue = &machine.processes[process.place()].queue;
                    let data = queue.back().expect("just taken").upcall.data;
                    history.push([a, b, c, data]);
                }
                (_, Ok(Answer::Delivered { registers, .. })) => {
                    // Earlier ones that were passed over have been cancelled.
                    let place = history.iter().position(|taken| *taken == registers);
                    history.drain(..=place.expect("a delivery is of a taken event"));
                }
                _ => {}
            }
        }
    }
}
