//! That a name stands for its number: each is reached by a real step through the library, or written as document 01 and TRD 104 write it
//! where no step gives it; and the second program, which has its own names, says the same.

mod steps;

use makvluria::{
    area, call, deposit, event, fetch, latch, raw, replay, resume, start, Answer, Area, Class,
    Driver, ErrorCode, Held, Image, Process, Progress, Refusal, ReturnVariant, Returned,
    BOARD_WORDS, FLASH_BASE, IMAGE_BYTES, MEMORY_BASE, TABLE_WORDS,
};
use second::generate::{generate, Kind};
use second::step::Step;
use second::text::list::list_to_string;
use second::trace::{write_trace, Reader};

/// The board of document 01's cases, with a third driver that process 0 may not call.
#[rustfmt::skip]
const BOARD: [u32; 31] = [
    2,
    0x2000_0000, 0x2000_2000, 0x2000_1800, 0x2000_1000, 0x0004_0000, 0x0004_4000, 3,
    0x2000_2000, 0x2000_4000, 0x2000_3800, 0x2000_3000, 0x0004_4000, 0x0004_8000, 7,
    3,
    1, 2, 1, 1, 0,
    0x9_0000, 1, 1, 0, 1,
    0x9_0001, 0, 0, 0, 0,
];
const FIRST: Process = Process(0);
const SECOND: Process = Process(1);
const UNSHARED: Driver = Driver(1);
const SHARED: Driver = Driver(0x9_0000);
const DENIED: Driver = Driver(0x9_0001);

struct Host {
    table: Vec<u32>,
    memory: Vec<u8>,
    flash: Vec<u8>,
}

impl Host {
    fn fresh() -> Host {
        let mut table = vec![0; TABLE_WORDS];
        assert_eq!(start(&mut table, &BOARD), Answer::Started);
        Host { table, memory: vec![0; IMAGE_BYTES], flash: vec![0; IMAGE_BYTES] }
    }

    fn call(&mut self, process: Process, class: Class, registers: [u32; 4]) -> Answer {
        call(&mut self.table, &mut self.memory, process, class, registers)
    }

    /// What a call of process 0 returns.
    fn returned(&mut self, class: Class, registers: [u32; 4]) -> Returned {
        let answer = self.call(FIRST, class, registers);
        answer.returned().unwrap_or_else(|| panic!("{answer}"))
    }

    fn event(&mut self, driver: Driver, slot: u32) -> Answer {
        event(&mut self.table, FIRST, driver, slot, [0; 3])
    }

    fn step(&mut self, step: Step) -> Answer {
        steps::make(&mut self.table, &mut self.memory, &self.flash, step)
    }
}

/// A step for each refusal, in the order of their numbers.
fn refused_steps() -> Vec<Answer> {
    let mut host = Host::fresh();
    let subscribe = [UNSHARED.0, 0, 0x0004_0010, 7];
    assert_eq!(host.returned(Class::SUBSCRIBE, subscribe), Returned::SuccessWith2U32(0, 0));
    assert_eq!(host.call(SECOND, Class::YIELD, [1, 0, 0, 0]), Answer::Waiting);
    let mut full = Host { table: host.table.clone(), ..Host::fresh() };
    while full.event(UNSHARED, 0) == Answer::Taken {}
    let mut exited = Host::fresh();
    assert_eq!(exited.call(FIRST, Class::EXIT, [0; 4]), Answer::Exited(0));
    vec![
        call(&mut host.table, &mut [], FIRST, Class::YIELD, [0; 4]),
        call(&mut [], &mut host.memory, FIRST, Class::YIELD, [0; 4]),
        host.call(Process(2), Class::YIELD, [0; 4]),
        exited.call(FIRST, Class::YIELD, [0; 4]),
        host.call(SECOND, Class::YIELD, [0; 4]),
        resume(&mut host.table, FIRST),
        host.event(Driver(2), 0),
        host.event(UNSHARED, 2),
        deposit(&host.table, &mut host.memory, FIRST, UNSHARED, 0, 0, b"x"),
        full.event(UNSHARED, 0),
        host.event(UNSHARED, 1),
        latch(&mut host.table, UNSHARED, 0),
        start(&mut host.table, &[]),
    ]
}

#[test]
fn each_refusal_is_reached() {
    let named = Refusal::ALL.iter().map(|&refusal| Answer::Refused(refusal)).collect::<Vec<_>>();
    assert_eq!(refused_steps(), named);
    let numbers = Refusal::ALL.iter().map(|refusal| refusal.number()).collect::<Vec<_>>();
    assert_eq!(numbers, (1..=13).collect::<Vec<_>>());
    assert_eq!((Refusal::from_number(0), Refusal::from_number(14)), (None, None));
}

#[test]
fn each_class_has_its_number() {
    let mut host = Host::fresh();
    let (address, pointer) = (0x2000_0100, 0x0004_0010);
    assert_eq!(host.call(FIRST, Class::YIELD, [0; 4]), Answer::Nothing);
    assert_eq!(
        host.returned(Class::SUBSCRIBE, [UNSHARED.0, 0, pointer, 7]),
        Returned::SuccessWith2U32(0, 0)
    );
    assert_eq!(host.returned(Class::COMMAND, [UNSHARED.0, 0, 0, 0]), Returned::Success);
    // A buffer in flash can be lent to be read only.
    for (class, flash) in [
        (Class::READ_WRITE_ALLOW, Returned::FailureWith2U32(ErrorCode::Inval, FLASH_BASE, 4)),
        (Class::READ_ONLY_ALLOW, Returned::SuccessWith2U32(address, 4)),
    ] {
        let lent = host.returned(class, [UNSHARED.0, 0, address, 4]);
        assert_eq!(lent, Returned::SuccessWith2U32(0, 0));
        assert_eq!(host.returned(class, [UNSHARED.0, 0, FLASH_BASE, 4]), flash);
    }
    assert_eq!(host.returned(Class::MEMOP, [2, 0, 0, 0]), Returned::SuccessWithU32(MEMORY_BASE));
    let unknown = Returned::Failure(ErrorCode::NoSupport);
    assert_eq!(host.returned(Class(Class::EXIT.0 + 1), [0; 4]), unknown);
    assert_eq!(host.call(FIRST, Class::EXIT, [0, 17, 0, 0]), Answer::Exited(17));
    let names =
        "yield, subscribe, command, read-write allow, read-only allow, memop, exit, class 7";
    for (class, name) in (0..).map(Class).zip(names.split(", ")) {
        assert_eq!(class.to_string(), name);
    }
}

#[test]
fn each_variant_and_code_of_a_call_is_reached() {
    use ErrorCode::{Inval, NoDevice, NoMem, NoSupport, Reserve};
    let mut host = Host::fresh();
    let (address, size) = (0xFFFF_FFFF, 2);
    for (class, registers, returned, numbers) in [
        (Class::COMMAND, [DENIED.0, 0, 0, 0], Returned::Failure(NoDevice), [0, 11, 0, 0]),
        (Class::COMMAND, [SHARED.0, 2, 0, 0], Returned::Failure(Reserve), [0, 5, 0, 0]),
        (Class::COMMAND, [SHARED.0, 4, 0, 0], Returned::Failure(NoSupport), [0, 10, 0, 0]),
        (Class::MEMOP, [0, 0, 0, 0], Returned::Failure(NoMem), [0, 9, 0, 0]),
        (
            Class::READ_WRITE_ALLOW,
            [UNSHARED.0, 0, address, size],
            Returned::FailureWith2U32(Inval, address, size),
            [2, 6, address, size],
        ),
        (Class::COMMAND, [SHARED.0, 1, 0, 0], Returned::Success, [128, 0, 0, 0]),
        (
            Class::MEMOP,
            [1, 0, 0, 0],
            Returned::SuccessWithU32(0x2000_1000),
            [129, 0x2000_1000, 0, 0],
        ),
        (
            Class::READ_WRITE_ALLOW,
            [UNSHARED.0, 0, MEMORY_BASE, size],
            Returned::SuccessWith2U32(0, 0),
            [130, 0, 0, 0],
        ),
    ] {
        let answer = host.call(FIRST, class, registers);
        assert_eq!(answer, Answer::Registers(numbers), "{answer}");
        assert_eq!(answer.returned(), Some(returned));
    }
}

/// All variants with the values that TRD 104 puts into the registers; no call gives the second, the fourth and the last two.
#[test]
fn each_variant_has_its_registers() {
    let code = ErrorCode::Busy;
    let cases = [
        (Returned::Failure(code), [0, 2, 0, 0], "Failure BUSY"),
        (Returned::FailureWithU32(code, 7), [1, 2, 7, 0], "Failure with u32 BUSY: 7"),
        (Returned::FailureWith2U32(code, 7, 8), [2, 2, 7, 8], "Failure with 2 u32 BUSY: 7, 8"),
        (
            Returned::FailureWithU64(code, 0x8_0000_0007),
            [3, 2, 7, 8],
            "Failure with u64 BUSY: 0x800000007",
        ),
        (Returned::Success, [128, 0, 0, 0], "Success"),
        (Returned::SuccessWithU32(65_535), [129, 65_535, 0, 0], "Success with u32: 65535"),
        (
            Returned::SuccessWith2U32(7, 65_536),
            [130, 7, 65_536, 0],
            "Success with 2 u32: 7, 0x00010000",
        ),
        (Returned::SuccessWithU64(8 << 32), [131, 0, 8, 0], "Success with u64: 0x800000000"),
        (Returned::SuccessWith3U32(7, 8, 9), [132, 7, 8, 9], "Success with 3 u32: 7, 8, 9"),
    ];
    for ((returned, registers, text), &variant) in cases.into_iter().zip(ReturnVariant::ALL) {
        assert_eq!(returned.variant(), variant);
        assert_eq!(returned.registers(), registers);
        assert_eq!(Returned::read(registers), Some(returned));
        assert_eq!(returned.to_string(), text);
        assert_eq!(Answer::Registers(registers).to_string(), text);
    }
    assert_eq!(ReturnVariant::ALL.len(), cases.len());
}

#[test]
fn registers_of_no_variant_are_not_read() {
    for registers in [[4, 6, 0, 0], [0, 0, 0, 0], [0, 14, 0, 0], [128, 0, 0, 1], [133, 1, 2, 3]] {
        assert_eq!(Returned::read(registers), None, "{registers:?}");
    }
    assert_eq!(
        Answer::Registers([133, 1, 2, 0x1_0000]).to_string(),
        "registers 133, 1, 2, 0x00010000"
    );
    assert_eq!(Answer::Waiting.returned(), None);
}

#[test]
fn each_code_is_that_of_the_trd() {
    let names = "FAIL BUSY ALREADY OFF RESERVE INVAL SIZE CANCEL NOMEM NOSUPPORT NODEVICE UNINSTALLED NOACK";
    for (number, name) in (1..).zip(names.split(' ')) {
        assert_eq!(ErrorCode::from_number(number).unwrap().to_string(), name);
    }
    assert_eq!(ErrorCode::from_number(1024).unwrap().to_string(), "BADRVAL");
    assert_eq!(ErrorCode::ALL.len(), 14);
}

/// A board with one process, its areas as given, and a driver with a read-only slot.
fn board_of(ram: [u32; 2], flash: [u32; 2]) -> [u32; 14] {
    let ([from, to], [flash_from, flash_to]) = (ram, flash);
    [1, from, to, to, to, flash_from, flash_to, 1, 1, 1, 0, 0, 1, 0]
}

#[test]
fn the_images_lie_between_their_bounds() {
    let size = Image::BYTES as u32;
    let (memory, flash) = ([MEMORY_BASE, MEMORY_BASE + size], [FLASH_BASE, FLASH_BASE + size]);
    let started = |memory, flash| start(&mut [0; TABLE_WORDS], &board_of(memory, flash));
    assert_eq!(started(memory, flash), Answer::Started);
    let refused = Answer::Refused(Refusal::NoBoard);
    assert_eq!(started([MEMORY_BASE - 1, MEMORY_BASE + size], flash), refused);
    assert_eq!(started([MEMORY_BASE, MEMORY_BASE + size + 1], flash), refused);
    assert_eq!(started(memory, [FLASH_BASE - 1, FLASH_BASE + size]), refused);
    assert_eq!(started(memory, [FLASH_BASE, FLASH_BASE + size + 1]), refused);
}

#[test]
fn the_first_byte_of_an_image_is_at_its_base() {
    let mut host = Host::fresh();
    for image in [Image::Memory, Image::Flash] {
        let lend = [UNSHARED.0, 0, image.base(), 4];
        let answer = host.call(FIRST, Class::READ_ONLY_ALLOW, lend);
        assert!(answer.returned().is_some_and(|returned| returned.code().is_none()), "{answer}");
        let Host { table, memory, flash } = &host;
        let found = fetch(table, memory, flash, FIRST, UNSHARED, 0, 1, 2);
        assert_eq!(found, Answer::Fetched { image, place: 1, length: 2 });
        let address = image.base() + 1;
        assert_eq!(found.to_string(), format!("fetched 2 bytes of {image} at 0x{address:08X}"));
        let one = fetch(table, memory, flash, FIRST, UNSHARED, 0, 1, 1).to_string();
        assert_eq!(one, format!("fetched 1 byte of {image} at 0x{address:08X}"));
        let none = fetch(table, memory, flash, FIRST, UNSHARED, 0, 1, 0).to_string();
        assert_eq!(none, "fetched 0 bytes");
    }
}

/// The three that a table holds, by what the library tells; the last by its number alone.
#[test]
fn each_area_has_its_number() {
    let mut host = Host::fresh();
    let (class, mut words) = (Class::READ_ONLY_ALLOW, [77; 6]);
    for (number, name, address, size) in
        [(0, "empty", 0xFFFF_FFFF, 0), (1, "RAM", 0x2000_0FFC, 4), (2, "flash", 0x0004_3FFC, 4)]
    {
        let _ = host.call(FIRST, class, [UNSHARED.0, 0, address, size]);
        assert!(raw::area(&host.table, FIRST, class.0, UNSHARED, 0, &mut words));
        assert_eq!(words, [12, number, address, size, 0, 0]);
        let held = area(&host.table, FIRST, class, UNSHARED, 0);
        assert_eq!(Held::decode(words), Some(held));
        assert_eq!(held.unwrap().area.to_string(), name);
        assert_eq!((held.unwrap().address, held.unwrap().size), (address, size));
    }
    let all = [Area::Empty, Area::Ram, Area::Flash, Area::Outside];
    for (number, area) in (0..).zip(all) {
        let held = Held { area, address: 8, size: 9 };
        assert_eq!(Held::decode([12, number, 8, 9, 0, 0]), Some(Ok(held)));
    }
    assert_eq!(Area::Outside.to_string(), "outside");
    assert_eq!(Held::decode([12, 4, 8, 9, 0, 0]), None);
}

#[test]
fn a_refused_question_has_its_number() {
    let host = Host::fresh();
    for (table, process, driver, slot, number) in [
        (&[][..], FIRST, UNSHARED, 0, 2),
        (&host.table, Process(2), UNSHARED, 0, 3),
        (&host.table, FIRST, Driver(2), 0, 7),
        (&host.table, FIRST, UNSHARED, 1, 8),
    ] {
        let (class, mut words) = (Class::READ_ONLY_ALLOW, [77; 6]);
        assert!(raw::area(table, process, class.0, driver, slot, &mut words));
        assert_eq!(words, [0, number, 0, 0, 0, 0]);
        let refusal = area(table, process, class, driver, slot).unwrap_err();
        assert_eq!((refusal.number(), Held::decode(words)), (number, Some(Err(refusal))));
    }
}

/// The largest board is taken, and a trace with one more word is broken.
#[test]
fn the_largest_board_has_its_words() {
    let mut board = vec![8];
    for index in 0..8 {
        let (ram, flash) = (MEMORY_BASE + 16 * index, FLASH_BASE + 16 * index);
        board.extend([ram, ram + 16, ram + 16, ram, flash, flash + 16, 0xFFFF]);
    }
    board.push(16);
    for number in 0..16 {
        board.extend([number, 4, 4, 4, 1]);
    }
    assert_eq!(board.len(), BOARD_WORDS);
    let mut host = Host::fresh();
    assert_eq!(start(&mut host.table, &board), Answer::Started);
    board.push(0);
    let (trace, mut lines) = (write_trace(&board, &[]), [0; 64]);
    let Host { table, memory, flash } = &mut host;
    let progress = replay(&trace, 0, table, memory, flash, &mut lines);
    assert_eq!(progress, Progress::Ended { written: 4 });
    assert_eq!(lines[..4], *b"B 0\n");
}

/// An answer in words without the values after a colon, which a listing writes as what they are: addresses, sizes, bytes.
fn without_values(text: &str) -> &str {
    text.split(':').next().unwrap()
}

/// The answers of a listing, in words.
fn listed(listing: &str) -> Vec<&str> {
    listing.lines().filter_map(|line| line.split_once(" = ").map(|(_, answer)| answer)).collect()
}

#[test]
fn the_second_program_says_the_same() {
    let mut said = 0;
    for index in 0..40 {
        let trace = generate(104, Kind::Walk, index);
        let listing = list_to_string(&trace);
        let mut listed = listed(&listing).into_iter();
        let mut reader = Reader::new(&trace);
        let mut host = Host::fresh();
        let started = start(&mut host.table, &reader.board().unwrap());
        assert_eq!(Some(started.to_string().as_str()), listed.next());
        while let Some(step) = reader.step().unwrap() {
            let (answer, listed) = (host.step(step), listed.next().unwrap());
            let text = answer.to_string();
            let text = match answer {
                Answer::Fetched { .. } => text.split(" of ").next().unwrap(),
                _ => without_values(&text),
            };
            assert_eq!(text, without_values(listed), "walk {index}: {step:?}");
            said += 1;
        }
        assert_eq!(listed.next(), None, "walk {index}");
    }
    assert!(said > 10_000, "{said} answers");
}
