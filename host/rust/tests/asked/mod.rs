//! Every question about a table: on tables that generated traces reach, beside the second program's state; on tables with a changed word,
//! beside what docs/LAYOUT.md says of their words; and on one whose slots are all in use.

use makvluria::{start, Answer, BOARD_WORDS, FLASH_BASE, IMAGE_BYTES, MEMORY_BASE, TABLE_WORDS};
use second::board::{Board, DriverNumber, SlotKind};
use second::generate::generate_mixed;
use second::generate::tables::reached;
use second::state::{Machine, Slot};
use second::step::Step;
use second::table::image;
use second::trace::Reader;

use super::words::{others, table_of};
use super::{
    area, held, steps, Area, Class, Driver, Held, Host, Process, Refusal, ALLOWS, READ_ONLY,
    READ_WRITE,
};

const SEED: u64 = 104;

const TRACES: u64 = 400;

/// Each area has to be told so often, or the traces show too little.
const OFTEN: usize = 1_000;

/// What is asked: the process, the class of the allow, the driver and its slot.
type Question = (Process, Class, Driver, u32);

fn ask(table: &[u32], (process, class, driver, slot): Question) -> Result<Held, Refusal> {
    area(table, process, class, driver, slot)
}

/// The areas as document 01 draws them: an empty buffer is in none, and the end is the exact sum.
fn lies(
    [ram, app_break]: [u32; 2],
    [flash, flash_end]: [u32; 2],
    [address, size]: [u32; 2],
) -> Area {
    let (from, to) = (u64::from(address), u64::from(address) + u64::from(size));
    let within = |low: u32, high: u32| u64::from(low) <= from && to <= u64::from(high);
    match size {
        0 => Area::Empty,
        _ if within(ram, app_break) => Area::Ram,
        _ if within(flash, flash_end) => Area::Flash,
        _ => Area::Outside,
    }
}

/// The kind of the slots that an allow of this class lends in.
fn kind_of(class: Class) -> Option<SlotKind> {
    match class {
        READ_WRITE => Some(SlotKind::ReadWrite),
        READ_ONLY => Some(SlotKind::ReadOnly),
        _ => None,
    }
}

/// What the second program's state gives.
fn by_state(machine: &Machine, question: Question) -> Result<Held, Refusal> {
    let (process, class, driver, number) = question;
    let process = machine.processes.get(process.0 as usize).ok_or(Refusal::NoProcess)?;
    let driver = machine.board.find_driver(DriverNumber(driver.0)).ok_or(Refusal::NoDriver)?;
    let kind = kind_of(class).ok_or(Refusal::NoSlot)?;
    if number >= machine.board.drivers()[driver.0].slots(kind) {
        return Err(Refusal::NoSlot);
    }
    let [address, size] = process.pair(Slot { kind, driver, number });
    let ram = [process.board.ram.start, process.app_break];
    let flash = [process.board.flash.start, process.board.flash.end];
    held(lies(ram, flash, [address, size]), address, size)
}

/// What the words of a table give, by docs/LAYOUT.md.
fn by_words(table: &[u32], question: Question) -> Result<Held, Refusal> {
    let (process, class, driver, slot) = question;
    if process.0 >= table[0] {
        return Err(Refusal::NoProcess);
    }
    let (areas, run) =
        (&table[1 + 7 * process.0 as usize..], &table[170 + 499 * process.0 as usize..]);
    let mut drivers = table[58..].chunks(5).take(table[57] as usize);
    let place = drivers.clone().position(|row| row[0] == driver.0).ok_or(Refusal::NoDriver)?;
    let kind = kind_of(class).ok_or(Refusal::NoSlot)? as usize;
    if slot >= drivers.nth(place).unwrap()[1 + kind] {
        return Err(Refusal::NoSlot);
    }
    let at = 3 + 2 * ((kind * 16 + place) * 4 + slot as usize);
    let [address, size] = [run[at], run[at + 1]];
    held(lies([areas[0], run[1]], [areas[4], areas[5]], [address, size]), address, size)
}

/// Every process and one past the last, every class and one that there is not, every driver and one that there is not, and every slot and
/// one that no driver has.
fn questions(board: &Board) -> Vec<Question> {
    let absent = (0..).find(|&number| board.find_driver(DriverNumber(number)).is_none()).unwrap();
    let mut drivers: Vec<u32> = board.drivers().iter().map(|driver| driver.number.0).collect();
    drivers.push(absent);
    let mut questions = Vec::new();
    for process in 0..=board.processes().len() as u32 {
        for class in 0..=7 {
            for &driver in &drivers {
                let of_slot = |slot| (Process(process), Class(class), Driver(driver), slot);
                questions.extend((0..=4).map(of_slot));
            }
        }
    }
    questions
}

/// The question for the buffer that a step names.
fn named_by(step: Step) -> Option<Question> {
    match step {
        Step::Call { process, class, registers: [driver, slot, ..] } => {
            Some((Process(process.0), Class(class), Driver(driver), slot))
        }
        Step::Deposit { process, driver, slot, .. } => {
            Some((Process(process.0), READ_WRITE, Driver(driver.0), slot))
        }
        Step::Fetch { process, driver, slot, .. } => {
            Some((Process(process.0), READ_ONLY, Driver(driver.0), slot))
        }
        Step::Event { .. } | Step::Resume { .. } | Step::Latch { .. } => None,
    }
}

/// How often each is told.
#[derive(Debug, Default)]
struct Counts {
    empty: usize,
    ram: usize,
    flash: usize,
    refused: usize,
}

impl Counts {
    /// Asks the library, and compares with the state.
    fn compare(&mut self, name: &str, table: &[u32], machine: &Machine, question: Question) {
        let told = ask(table, question);
        assert_eq!(told, by_state(machine, question), "{name}: {question:?}");
        match told.map(|held| held.area) {
            Ok(Area::Empty) => self.empty += 1,
            Ok(Area::Ram) => self.ram += 1,
            Ok(Area::Flash) => self.flash += 1,
            Ok(Area::Outside) => panic!("{name}: {question:?} is held outside"),
            Err(_) => self.refused += 1,
        }
    }

    /// Makes the steps of a trace as far as it is good. After each, the buffer that it names is asked for; after the last, every one.
    fn follow(&mut self, name: &str, trace: &[u8]) {
        let (mut table, mut memory) = (vec![0; TABLE_WORDS], vec![0; IMAGE_BYTES]);
        let flash = vec![0; IMAGE_BYTES];
        let mut reader = Reader::new(trace);
        let Ok(board) = reader.board() else { return };
        let Ok(mut machine) = Machine::start(&board) else { return };
        assert_eq!(start(&mut table, &board), Answer::Started, "{name}");
        while let Ok(Some(step)) = reader.step() {
            let _ = steps::make(&mut table, &mut memory, &flash, step);
            let _ = machine.step(step);
            if let Some(question) = named_by(step) {
                self.compare(name, &table, &machine, question);
            }
        }
        for question in questions(&machine.board) {
            self.compare(name, &table, &machine, question);
        }
        assert!(table == image(&machine), "{name}: a question has changed the table");
    }
}

#[test]
fn beside_the_second_program_on_generated_traces() {
    let mut counts = Counts::default();
    for index in 0..TRACES {
        counts.follow(&format!("{SEED}-{index}"), &generate_mixed(SEED, index));
    }
    let Counts { empty, ram, flash, refused } = counts;
    for often in [empty, ram, flash, refused] {
        assert!(often > OFTEN, "{counts:?}");
    }
}

/// Sees that a question is refused with 2 exactly if the table is not well formed, and that every answer is that of its words if it is; gives
/// whether it is.
fn judge(table: &[u32], questions: &[Question], what: impl Fn() -> String) -> bool {
    let formed = second::table::is_well_formed(table);
    for &question in questions {
        let expected = if formed { by_words(table, question) } else { Err(Refusal::NoTable) };
        assert_eq!(ask(table, question), expected, "{}: {question:?}", what());
        if !formed {
            break; // no question gets past the check
        }
    }
    formed
}

#[test]
fn every_word_of_reached_tables() {
    for name in ["worked", "restarted", "denied", "gaps"] {
        let trace = reached().into_iter().find(|reached| reached.name == name).unwrap().trace;
        let mut table = table_of(name, &trace);
        let board = Board::from_words(&Reader::new(&trace).board().unwrap()).unwrap();
        let questions = questions(&board);
        let (mut taken, mut refused) = (0, 0);
        for at in 0..TABLE_WORDS {
            let word = table[at];
            for other in others(&table, at) {
                table[at] = other;
                let what = || format!("{name}, word {at} as {other:#x} for {word:#x}");
                if judge(&table, &questions, what) {
                    taken += 1;
                } else {
                    refused += 1;
                }
            }
            table[at] = word;
        }
        assert!(taken > 400 && refused > 90_000, "{name}: {taken} taken, {refused} refused");
    }
}

/// Eight processes and sixteen drivers, all with four slots of each kind.
fn largest_board() -> Vec<u32> {
    let mut board = vec![8];
    for process in 0..8 {
        let (ram, flash) = (MEMORY_BASE + 0x2000 * process, FLASH_BASE + 0x2000 * process);
        let (end, flash_end) = (ram + 0x2000, flash + 0x2000);
        board.extend([ram, end, end, ram + 0x1000, flash, flash_end, 0xFFFF]);
    }
    board.push(16);
    board.extend((1..=16).flat_map(|number| [number, 4, 4, 4, 0]));
    assert_eq!(board.len(), BOARD_WORDS);
    board
}

/// On the largest board, with a buffer of another address or size in each.
#[test]
fn each_slot_has_its_own_buffer() {
    let mut host = Host::started(&largest_board());
    let buffer = |process: u32, class: Class, driver: u32, slot: u32| match class {
        READ_WRITE => [MEMORY_BASE + 0x2000 * process + 4 * driver + slot, process + 1],
        _ => [FLASH_BASE + 0x2000 * process + 4 * driver + slot, process + 1],
    };
    let mut slots = Vec::new();
    for process in 0..8 {
        for driver in 1..=16 {
            slots
                .extend((0..4).flat_map(|slot| ALLOWS.map(|class| (process, class, driver, slot))));
        }
    }
    for &(process, class, driver, slot) in &slots {
        let lent = buffer(process, class, driver, slot);
        host.lend(Process(process), class, Driver(driver), slot, lent);
    }
    for (process, class, driver, slot) in slots {
        let [address, size] = buffer(process, class, driver, slot);
        let lies = if class == READ_WRITE { Area::Ram } else { Area::Flash };
        let told = area(&host.table, Process(process), class, Driver(driver), slot);
        assert_eq!(told, held(lies, address, size), "{process}, {class}, {driver}, {slot}");
    }
}
