//! The owning struct beside the functions over lent slices: the same answers, table and images.

mod steps;

use makvluria::{
    area, is_well_formed, Answer, Class, Driver, Layer, Process, Progress, Refusal, IMAGE_BYTES,
    LINES_BYTES, TABLE_WORDS,
};
use second::generate::{generate, Kind};
use second::step::Step;
use second::trace::Reader;

const SEED: u64 = 104;

/// What a host lends.
struct Lent {
    table: Vec<u32>,
    memory: Vec<u8>,
    flash: Vec<u8>,
}

impl Lent {
    fn new(layer: &Layer) -> Lent {
        let (memory, flash) = (layer.memory.to_vec(), layer.flash.to_vec());
        Lent { table: layer.table().to_vec(), memory, flash }
    }

    fn step(&mut self, step: Step) -> Answer {
        steps::make(&mut self.table, &mut self.memory, &self.flash, step)
    }

    fn is_of(&self, layer: &Layer) -> bool {
        self.table == layer.table() && self.memory == layer.memory && self.flash == layer.flash
    }
}

/// What a step gives: its answer, and the bytes of a fetch.
type Given<'a> = (Result<Option<Answer>, Refusal>, &'a [u8]);

/// The step as a method.
fn step<'a>(layer: &'a mut Layer, step: Step) -> Given<'a> {
    let answer = match step {
        Step::Call { process, class, registers } => {
            layer.call(Process(process.0), Class(class), registers)
        }
        Step::Event { process, driver, slot, arguments } => {
            layer.event(Process(process.0), Driver(driver.0), slot, arguments)
        }
        Step::Resume { process } => layer.resume(Process(process.0)),
        Step::Deposit { process, driver, slot, offset, bytes } => {
            layer.deposit(Process(process.0), Driver(driver.0), slot, offset, bytes)
        }
        Step::Fetch { process, driver, slot, offset, length } => {
            return match layer.fetch(Process(process.0), Driver(driver.0), slot, offset, length) {
                Ok(part) => (Ok(None), part),
                Err(refusal) => (Err(refusal), &[]),
            }
        }
        Step::Latch { driver, peak } => layer.latch(Driver(driver.0), peak),
    };
    (answer.accepted().map(Some), &[])
}

/// The same of an answer to a step on what is lent.
fn given<'a>(lent: &'a Lent, step: Step, answer: Answer) -> Given<'a> {
    let part = answer.part(&lent.memory, &lent.flash);
    let is_fetch = matches!(step, Step::Fetch { .. });
    (answer.accepted().map(|answer| (!is_fetch).then_some(answer)), part)
}

fn filled(board: &[u32]) -> Box<Layer> {
    let mut layer = Layer::started(board).unwrap();
    for (index, byte) in layer.flash.iter_mut().enumerate() {
        *byte = (index % 251) as u8;
    }
    layer
}

#[test]
fn methods_are_the_functions() {
    let mut fetched = 0;
    for index in 0..40 {
        let trace = generate(SEED, Kind::Walk, index);
        let mut reader = Reader::new(&trace);
        let mut layer = filled(&reader.board().unwrap());
        let mut lent = Lent::new(&layer);
        while let Some(next) = reader.step().unwrap() {
            let answer = lent.step(next);
            let of_method = step(&mut layer, next);
            assert_eq!(of_method, given(&lent, next, answer), "walk {index}: {next:?}");
            fetched += of_method.1.len();
            let for_the_lent =
                [Answer::Refused(Refusal::NoImage), Answer::Refused(Refusal::NoTable)];
            assert!(!for_the_lent.contains(&answer), "walk {index}: {next:?}");
        }
        assert!(lent.is_of(&layer), "walk {index}");
        assert!(is_well_formed(layer.table()), "walk {index}");
    }
    assert!(fetched > 1_000, "{fetched} bytes were fetched");
}

#[test]
fn the_question_is_the_function() {
    let mut told = 0;
    for index in 0..40 {
        let trace = generate(SEED, Kind::Walk, index);
        let mut reader = Reader::new(&trace);
        let mut layer = filled(&reader.board().unwrap());
        while let Some(next) = reader.step().unwrap() {
            let _ = step(&mut layer, next);
            // The allows name a slot; the other classes, and any numbers, are asked about too.
            if let Step::Call { process, class, registers: [driver, slot, ..] } = next {
                let (process, class, driver) = (Process(process.0), Class(class), Driver(driver));
                let of_method = layer.area(process, class, driver, slot);
                let of_function = area(layer.table(), process, class, driver, slot);
                assert_eq!(of_method, of_function, "walk {index}: {next:?}");
                told += usize::from(of_method.is_ok_and(|held| held.size > 0));
            }
        }
    }
    assert!(told > 500, "{told} buffers were told");
}

#[test]
fn runs_are_the_functions() {
    let mut lines = vec![0; LINES_BYTES];
    for index in 0..10 {
        let trace = generate(SEED, Kind::Walk, index);
        let (mut layer, mut out) = (Box::new(Layer::new()), Vec::new());
        layer.replay_all(&trace, &mut out).unwrap();
        let mut again = Box::new(Layer::new());
        let Progress::Ended { written } = again.replay(&trace, 0, &mut lines) else {
            panic!("walk {index} has more lines than the longest line has bytes");
        };
        assert!(lines[..written] == out, "walk {index}");
        assert!(again == layer, "walk {index}");
        let (mut table, mut memory) = (vec![0; TABLE_WORDS], vec![0; IMAGE_BYTES]);
        let (flash, mut expected) = (vec![0; IMAGE_BYTES], Vec::new());
        makvluria::replay_all(&trace, &mut table, &mut memory, &flash, &mut expected).unwrap();
        assert!(out == expected, "walk {index}");
        assert!(Lent { table, memory, flash }.is_of(&layer), "walk {index}");
    }
}

#[test]
fn nothing_runs_before_the_start() {
    let mut layer = Box::<Layer>::default();
    let before = layer.clone();
    let (process, driver) = (Process(0), Driver(1));
    let refused = Answer::Refused(Refusal::NoTable);
    assert_eq!(layer.call(process, Class::YIELD, [0; 4]), refused);
    assert_eq!(layer.event(process, driver, 0, [0; 3]), refused);
    assert_eq!(layer.resume(process), refused);
    assert_eq!(layer.deposit(process, driver, 0, 0, b""), refused);
    assert_eq!(layer.fetch(process, driver, 0, 0, 0), Err(Refusal::NoTable));
    assert_eq!(layer.latch(driver, 0), refused);
    assert_eq!(layer.area(process, Class::READ_ONLY_ALLOW, driver, 0), Err(Refusal::NoTable));
    assert_eq!(layer.start(&[]), Answer::Refused(Refusal::NoBoard));
    assert!(layer == before);
}

#[test]
fn a_start_keeps_the_images() {
    let board = [1, 0x2000_0000, 0x2000_1000, 0x2000_1000, 0x2000_0000, 0x4_0000, 0x4_1000, 0, 0];
    let mut layer = filled(&board);
    layer.memory.fill(9);
    assert_eq!(layer.call(Process(0), Class::YIELD, [1, 0, 0, 0]), Answer::Waiting);
    let before = layer.clone();
    assert_eq!(layer.start(&board), Answer::Started);
    assert!(layer.memory == before.memory && layer.flash == before.flash);
    assert_eq!(*layer.table(), *Layer::started(&board).unwrap().table());
    assert_ne!(*layer.table(), *before.table());
}

#[test]
fn its_words_and_bytes_are_not_printed() {
    assert_eq!(format!("{:?}", Box::<Layer>::default()), "Layer { .. }");
}
