//! What a host may lend: anything. Malformed tables, images of a wrong length, short slices for the answer, and accepted steps of each kind.

mod run;

use makvluria::{
    area, call, deposit, event, fetch, is_well_formed, latch, raw, replay, replay_all, resume,
    start, Answer, Area, Class, Driver, Held, Image, Process, Progress, Refusal, IMAGE_BYTES,
    TABLE_WORDS,
};

/// The board of document 01's cases: two processes, an unshared driver 1 and a shared driver 0x90000.
#[rustfmt::skip]
const BOARD: [u32; 26] = [
    2,
    0x2000_0000, 0x2000_2000, 0x2000_1800, 0x2000_1000, 0x0004_0000, 0x0004_4000, 3,
    0x2000_2000, 0x2000_4000, 0x2000_3800, 0x2000_3000, 0x0004_4000, 0x0004_8000, 3,
    2,
    1, 2, 1, 1, 0,
    0x9_0000, 1, 1, 0, 1,
];
const FIRST: Process = Process(0);
const SECOND: Process = Process(1);
const UNSHARED: Driver = Driver(1);
const SHARED: Driver = Driver(0x9_0000);

/// What the host owns.
#[derive(Clone, PartialEq)]
struct Host {
    table: Vec<u32>,
    memory: Vec<u8>,
    flash: Vec<u8>,
}

impl Host {
    fn fresh() -> Host {
        let mut host = Host {
            table: vec![0; TABLE_WORDS],
            memory: vec![0; IMAGE_BYTES],
            flash: vec![0xFF; IMAGE_BYTES],
        };
        assert_eq!(start(&mut host.table, &BOARD), Answer::Started);
        host
    }

    /// One with a pending upcall, a read-write and a read-only buffer of process 0, so that every step has work to do.
    fn busy() -> Host {
        let mut host = Host::fresh();
        host.registers(Class::SUBSCRIBE, [UNSHARED.0, 0, 0x0004_0010, 7], [130, 0, 0, 0]);
        assert_eq!(event(&mut host.table, FIRST, UNSHARED, 0, [1, 2, 3]), Answer::Taken);
        host.registers(Class::READ_WRITE_ALLOW, [UNSHARED.0, 0, 0x2000_0100, 16], [130, 0, 0, 0]);
        host.registers(Class::READ_ONLY_ALLOW, [UNSHARED.0, 0, 0x0004_3FF0, 16], [130, 0, 0, 0]);
        host
    }

    fn call(&mut self, process: Process, class: Class, registers: [u32; 4]) -> Answer {
        call(&mut self.table, &mut self.memory, process, class, registers)
    }

    fn replay(&mut self, trace: &[u8], at: usize, lines: &mut [u8]) -> Progress {
        replay(trace, at, &mut self.table, &mut self.memory, &self.flash, lines)
    }

    /// The lines of a whole trace.
    fn run(&mut self, trace: &[u8]) -> String {
        let mut lines = Vec::new();
        replay_all(trace, &mut self.table, &mut self.memory, &self.flash, &mut lines).unwrap();
        String::from_utf8(lines).unwrap()
    }

    fn registers(&mut self, class: Class, registers: [u32; 4], answer: [u32; 4]) {
        assert_eq!(self.call(FIRST, class, registers), Answer::Registers(answer));
    }

    /// Where the read-only buffer of a process lies.
    fn area(&self, process: Process) -> Result<Held, Refusal> {
        area(&self.table, process, Class::READ_ONLY_ALLOW, UNSHARED, 0)
    }

    /// Every step of a process on what is here, with what it answers.
    fn all_steps(&mut self, process: Process) -> [Answer; 5] {
        [
            self.call(process, Class::MEMOP, [2, 0, 0, 0]),
            deposit(&self.table, &mut self.memory, process, UNSHARED, 0, 0, &[9]),
            fetch(&self.table, &self.memory, &self.flash, process, UNSHARED, 0, 0, 1),
            event(&mut self.table, process, UNSHARED, 0, [0; 3]),
            resume(&mut self.table, process),
        ]
    }
}

#[test]
fn a_short_answer_slice_stops_every_step() {
    for room in 0..6 {
        let before = Host::busy();
        let Host { mut table, mut memory, flash } = before.clone();
        let mut words = [77; 6];
        let out = &mut words[..room];
        assert!(!raw::start(&mut table, &BOARD, out));
        assert!(!raw::call(&mut table, &mut memory, FIRST, Class::YIELD.0, [1, 0, 0, 0], out));
        assert!(!raw::event(&mut table, FIRST, UNSHARED, 0, [1, 2, 3], out));
        assert!(!raw::resume(&mut table, FIRST, out));
        assert!(!raw::deposit(&table, &mut memory, FIRST, UNSHARED, 0, 0, b"bytes", out));
        assert!(!raw::fetch(&table, &memory, &flash, FIRST, UNSHARED, 0, 0, 1, out));
        assert!(!raw::latch(&mut table, SHARED, -1, out));
        assert!(!raw::area(&table, FIRST, Class::READ_ONLY_ALLOW.0, UNSHARED, 0, out));
        assert!(before == Host { table, memory, flash });
        assert_eq!(words, [77; 6]);
    }
}

#[test]
fn a_longer_answer_slice_keeps_the_rest() {
    let mut host = Host::fresh();
    let mut words = [77; 9];
    assert!(raw::latch(&mut host.table, SHARED, -1, &mut words));
    assert_eq!(words, [7, 0, 0, 0, 0, 0, 77, 77, 77]);
    assert!(raw::area(&host.table, FIRST, Class::READ_ONLY_ALLOW.0, SHARED, 0, &mut words));
    assert_eq!(words, [0, 8, 0, 0, 0, 0, 77, 77, 77]);
}

#[test]
fn images_of_another_length_are_refused_with_1() {
    for length in [0, 1, IMAGE_BYTES - 1, IMAGE_BYTES + 1, 2 * IMAGE_BYTES] {
        let mut host = Host::busy();
        host.memory = vec![5; length];
        let before = host.clone();
        let table = vec![0; 3]; // row 1 stands before row 2
        assert_eq!(host.call(FIRST, Class::YIELD, [0; 4]), Answer::Refused(Refusal::NoImage));
        assert_eq!(
            call(&mut table.clone(), &mut host.memory, Process(9), Class(9), [0; 4]),
            Answer::Refused(Refusal::NoImage)
        );
        assert_eq!(
            deposit(&host.table, &mut host.memory, FIRST, UNSHARED, 0, 0, b"x"),
            Answer::Refused(Refusal::NoImage)
        );
        assert_eq!(
            deposit(&table, &mut host.memory, FIRST, UNSHARED, 0, 0, b"x"),
            Answer::Refused(Refusal::NoImage)
        );
        let whole = vec![0; IMAGE_BYTES];
        assert_eq!(
            fetch(&host.table, &host.memory, &whole, FIRST, UNSHARED, 0, 0, 1),
            Answer::Refused(Refusal::NoImage)
        );
        assert_eq!(
            fetch(&host.table, &whole, &host.memory, FIRST, UNSHARED, 0, 0, 1),
            Answer::Refused(Refusal::NoImage)
        );
        assert!(before == host);
    }
}

#[test]
fn tables_of_another_length_are_refused_with_2() {
    for length in [0, 1, TABLE_WORDS - 1, TABLE_WORDS + 1] {
        let mut host = Host::busy();
        host.table.resize(length, 0);
        let before = host.clone();
        assert_eq!(start(&mut host.table, &BOARD), Answer::Refused(Refusal::NoTable));
        assert_eq!(start(&mut host.table, &[]), Answer::Refused(Refusal::NoTable));
        assert_eq!(host.all_steps(FIRST), [Answer::Refused(Refusal::NoTable); 5]);
        assert_eq!(latch(&mut host.table, SHARED, 1), Answer::Refused(Refusal::NoTable));
        assert_eq!(host.area(FIRST), Err(Refusal::NoTable));
        assert!(before == host);
    }
}

#[test]
fn a_changed_word_is_refused_with_2_or_makes_another_table() {
    let busy = Host::busy();
    let mut refused = 0;
    for at in 0..TABLE_WORDS {
        for word in [1, u32::MAX] {
            let mut host = busy.clone();
            host.table[at] ^= word;
            if is_well_formed(&host.table) {
                continue;
            }
            refused += 1;
            let before = host.clone();
            assert_eq!(host.all_steps(FIRST), [Answer::Refused(Refusal::NoTable); 5], "word {at}");
            assert_eq!(
                latch(&mut host.table, SHARED, 1),
                Answer::Refused(Refusal::NoTable),
                "word {at}"
            );
            assert_eq!(host.area(FIRST), Err(Refusal::NoTable), "word {at}");
            assert!(before == host, "word {at}");
        }
    }
    assert!(refused > TABLE_WORDS, "{refused}");
}

#[test]
fn no_such_process_is_refused_with_3() {
    let mut host = Host::busy();
    let before = host.clone();
    for process in [2, 8, u32::MAX].map(Process) {
        assert_eq!(host.all_steps(process), [Answer::Refused(Refusal::NoProcess); 5]);
        assert_eq!(host.area(process), Err(Refusal::NoProcess));
    }
    assert!(before == host);
}

#[test]
fn boards_that_are_not_good_are_refused_with_13() {
    let mut overlapping = BOARD;
    overlapping[8] = 0x2000_1FFF;
    let mut nobody = BOARD;
    nobody[0] = 0;
    let mut too_many = vec![0; 138];
    too_many[0] = u32::MAX;
    let longer = [&BOARD[..], &[0]].concat();
    for board in [&[][..], &BOARD[..25], &longer, &overlapping, &nobody, &too_many] {
        let mut table = vec![3; TABLE_WORDS];
        assert_eq!(start(&mut table, board), Answer::Refused(Refusal::NoBoard));
        assert_eq!(table, [3; TABLE_WORDS]);
    }
}

#[test]
fn the_other_refusals_keep_their_numbers() {
    let mut host = Host::busy();
    assert_eq!(resume(&mut host.table, FIRST), Answer::Refused(Refusal::ProcessRuns));
    assert_eq!(
        event(&mut host.table, FIRST, Driver(5), 0, [0; 3]),
        Answer::Refused(Refusal::NoDriver)
    );
    assert_eq!(
        event(&mut host.table, FIRST, UNSHARED, 2, [0; 3]),
        Answer::Refused(Refusal::NoSlot)
    );
    assert_eq!(
        deposit(&host.table, &mut host.memory, FIRST, UNSHARED, 0, u32::MAX, b"x"),
        Answer::Refused(Refusal::PastTheBuffer)
    );
    assert_eq!(
        fetch(&host.table, &host.memory, &host.flash, FIRST, UNSHARED, 0, 16, 1),
        Answer::Refused(Refusal::PastTheBuffer)
    );
    assert_eq!(
        event(&mut host.table, FIRST, UNSHARED, 1, [0; 3]),
        Answer::Refused(Refusal::NullUpcall)
    );
    for _ in 1..16 {
        assert_eq!(event(&mut host.table, FIRST, UNSHARED, 0, [0; 3]), Answer::Taken);
    }
    assert_eq!(
        event(&mut host.table, FIRST, UNSHARED, 0, [0; 3]),
        Answer::Refused(Refusal::QueueFull)
    );
    assert_eq!(latch(&mut host.table, UNSHARED, 1), Answer::Refused(Refusal::NotShared));
    assert_eq!(host.call(SECOND, Class::YIELD, [1, 0, 0, 0]), Answer::Waiting);
    assert_eq!(
        host.call(SECOND, Class::YIELD, [1, 0, 0, 0]),
        Answer::Refused(Refusal::ProcessWaits)
    );
    assert_eq!(host.call(FIRST, Class::EXIT, [0, 0, 0, 0]), Answer::Exited(0));
    assert_eq!(host.call(FIRST, Class::YIELD, [0; 4]), Answer::Refused(Refusal::ProcessExited));
}

#[test]
fn upcalls_come_and_are_waited_for() {
    let mut host = Host::busy();
    let first = Answer::Delivered { pointer: 0x0004_0010, registers: [1, 2, 3, 7] };
    assert_eq!(host.call(FIRST, Class::YIELD, [0, 0x2000_0000, 0, 0]), first);
    assert_eq!(host.memory[0], 1);
    assert_eq!(host.call(FIRST, Class::YIELD, [0, 0x2000_0000, 0, 0]), Answer::Nothing);
    assert_eq!(host.memory[0], 0);
    assert_eq!(host.call(FIRST, Class::YIELD, [1, 0, 0, 0]), Answer::Waiting);
    assert_eq!(resume(&mut host.table, FIRST), Answer::Waiting);
    assert_eq!(event(&mut host.table, FIRST, UNSHARED, 0, [4, 5, u32::MAX]), Answer::Taken);
    let second = Answer::Delivered { pointer: 0x0004_0010, registers: [4, 5, u32::MAX, 7] };
    assert_eq!(resume(&mut host.table, FIRST), second);
}

#[test]
fn a_deposit_lands_in_its_buffer_alone() {
    let mut host = Host::busy();
    assert_eq!(
        deposit(&host.table, &mut host.memory, FIRST, UNSHARED, 0, 12, b"GPS!"),
        Answer::Deposited
    );
    assert_eq!(&host.memory[0x10C..0x110], b"GPS!");
    assert_eq!(host.memory.iter().filter(|&&byte| byte != 0).count(), 4);
    assert_eq!(
        deposit(&host.table, &mut host.memory, FIRST, UNSHARED, 0, 16, b""),
        Answer::Deposited
    );
}

#[test]
fn a_fetch_says_where_its_part_lies() {
    let mut host = Host::busy();
    host.flash[0x3FF4..0x3FF7].copy_from_slice(b"map");
    let found = fetch(&host.table, &host.memory, &host.flash, FIRST, UNSHARED, 0, 4, 3);
    assert_eq!(found, Answer::Fetched { image: Image::Flash, place: 0x3FF4, length: 3 });
    assert_eq!(found.part(&host.memory, &host.flash), b"map");

    assert_eq!(
        fetch(&host.table, &host.memory, &host.flash, FIRST, UNSHARED, 0, 16, 0),
        Answer::Fetched { image: Image::Memory, place: 0, length: 0 }
    );

    host.registers(
        Class::READ_ONLY_ALLOW,
        [UNSHARED.0, 0, 0x2000_0100, 16],
        [130, 0x0004_3FF0, 16, 0],
    );
    assert_eq!(
        deposit(&host.table, &mut host.memory, FIRST, UNSHARED, 0, 15, b"!"),
        Answer::Deposited
    );
    let found = fetch(&host.table, &host.memory, &host.flash, FIRST, UNSHARED, 0, 15, 1);
    assert_eq!(found, Answer::Fetched { image: Image::Memory, place: 0x10F, length: 1 });
    assert_eq!(found.part(&host.memory, &host.flash), b"!");
}

#[test]
fn a_question_may_have_any_numbers() {
    let host = Host::busy();
    let before = host.clone();
    let numbers = [0, 1, 2, 3, 4, 7, 8, 0x9_0000, 0x7FFF_FFFF, 0x8000_0000, u32::MAX];
    for class in (0..=u8::MAX).map(Class) {
        for process in numbers {
            for driver in numbers {
                for slot in numbers {
                    let asked = (process, class, driver, slot);
                    let told = area(&host.table, Process(process), class, Driver(driver), slot);
                    assert_eq!(told, told_of_busy(asked), "{asked:?}");
                }
            }
        }
    }
    assert!(before == host);
}

/// Where the buffers of `Host::busy` lie.
fn told_of_busy(asked: (u32, Class, u32, u32)) -> Result<Held, Refusal> {
    const READ_WRITE: Class = Class::READ_WRITE_ALLOW;
    const READ_ONLY: Class = Class::READ_ONLY_ALLOW;
    match asked {
        (2.., ..) => Err(Refusal::NoProcess),
        (_, _, 0 | 2..=0x8_FFFF | 0x9_0001.., _) => Err(Refusal::NoDriver),
        (0, READ_WRITE, 1, 0) => Ok(Held { area: Area::Ram, address: 0x2000_0100, size: 16 }),
        (0, READ_ONLY, 1, 0) => Ok(Held { area: Area::Flash, address: 0x0004_3FF0, size: 16 }),
        (_, READ_WRITE, _, 0) | (_, READ_ONLY, 1, 0) => {
            Ok(Held { area: Area::Empty, address: 0, size: 0 })
        }
        _ => Err(Refusal::NoSlot),
    }
}

#[test]
fn a_peak_below_zero_is_a_value() {
    let mut host = Host::fresh();
    for peak in [-1, i32::MIN, i32::MAX, 0] {
        assert_eq!(latch(&mut host.table, SHARED, peak), Answer::Latched);
        host.registers(Class::COMMAND, [SHARED.0, 1, 0, 0], [128, 0, 0, 0]);
        host.registers(Class::COMMAND, [SHARED.0, 3, 0, 0], [129, peak as u32, 0, 0]);
    }
    assert_eq!(
        host.call(SECOND, Class::COMMAND, [SHARED.0, 3, 0, 0]),
        Answer::Registers([0, 5, 0, 0])
    );
}

#[test]
fn exits_tell_their_codes() {
    let mut host = Host::busy();
    assert_eq!(
        host.call(FIRST, Class::EXIT, [1, 0xFFFF_FFFE, 0, 0]),
        Answer::Restarted(0xFFFF_FFFE)
    );
    assert_eq!(host.call(FIRST, Class::EXIT, [0, 17, 0, 0]), Answer::Exited(17));
    let mut fresh = Host::fresh();
    assert_eq!(fresh.call(FIRST, Class::EXIT, [0, 17, 0, 0]), Answer::Exited(17));
    assert!(fresh == host);
}

#[test]
fn the_wrapping_buffer_is_refused() {
    let mut host = Host::fresh();
    let before = host.clone();
    host.registers(
        Class::READ_WRITE_ALLOW,
        [UNSHARED.0, 0, 0xFFFF_FFFF, 2],
        [2, 6, 0xFFFF_FFFF, 2],
    );
    assert!(before == host);
}

#[test]
fn a_refused_fetch_is_told_with_its_number_and_the_empty_part() {
    let host = Host::busy();
    let mut words = [77; 6];
    let Host { table, memory, flash } = &host;
    assert!(raw::fetch(table, memory, flash, FIRST, UNSHARED, 0, 16, 1, &mut words));
    assert_eq!(words, [11, 9, 0, 0, 0, 0]);
    assert_eq!(Answer::decode(words), Some(Answer::Refused(Refusal::PastTheBuffer)));
    assert_eq!(Answer::Refused(Refusal::PastTheBuffer).part(memory, flash), b"");
}

#[test]
fn words_that_are_no_answer_are_not_read() {
    for words in [
        [12, 0, 0, 0, 0, 0],
        [0, 0, 0, 0, 0, 0],
        [0, 14, 0, 0, 0, 0],
        [11, 0, 2, 0, 0, 0],
        [11, 14, 0, 0, 0, 0],
        [11, 9, 1, 0, 0, 0],
        [11, 9, 0, 1, 0, 0],
        [11, 9, 0, 0, 1, 0],
    ] {
        assert_eq!(Answer::decode(words), None, "{words:?}");
    }
}

#[test]
fn words_that_tell_of_no_buffer_are_not_read() {
    for words in [
        [12, 4, 0, 0, 0, 0],
        [12, u32::MAX, 0, 0, 0, 0],
        [12, 1, 8, 9, 1, 0],
        [12, 1, 8, 9, 0, 1],
        [0, 0, 0, 0, 0, 0],
        [0, 14, 0, 0, 0, 0],
        [0, 8, 1, 0, 0, 0],
        [1, 130, 0, 0, 0, 0],
        [11, 0, 1, 8, 9, 0],
    ] {
        assert_eq!(Held::decode(words), None, "{words:?}");
    }
}
