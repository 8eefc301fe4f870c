//! Where a held buffer lies, as the library tells it: here at every edge, by the numbers of document 01; in `asked` on a full table, beside
//! the second program on generated traces, and on tables with a changed word.

mod asked;
mod steps;
mod words;

use makvluria::{
    area, call, start, Answer, Area, Class, Driver, Held, Process, Refusal, Returned, IMAGE_BYTES,
    TABLE_WORDS,
};

/// The board of document 01's cases: two processes, an unshared driver 1 and a shared driver 0x90000, which has no read-only slot.
#[rustfmt::skip]
const BOARD: [u32; 26] = [
    2,
    0x2000_0000, 0x2000_2000, 0x2000_1800, 0x2000_1000, 0x0004_0000, 0x0004_4000, 3,
    0x2000_2000, 0x2000_4000, 0x2000_3800, 0x2000_3000, 0x0004_4000, 0x0004_8000, 3,
    2,
    1, 2, 1, 1, 0,
    0x9_0000, 1, 1, 0, 1,
];
/// One process, to which both images belong whole.
#[rustfmt::skip]
const WHOLE_IMAGES: [u32; 14] = [
    1, 0x2000_0000, 0x2001_0000, 0x2001_0000, 0x2001_0000, 0x0004_0000, 0x0005_0000, 1,
    1, 1, 0, 1, 1, 0,
];
const FIRST: Process = Process(0);
const SECOND: Process = Process(1);
const UNSHARED: Driver = Driver(1);
const SHARED: Driver = Driver(0x9_0000);
const READ_WRITE: Class = Class::READ_WRITE_ALLOW;
const READ_ONLY: Class = Class::READ_ONLY_ALLOW;
const ALLOWS: [Class; 2] = [READ_WRITE, READ_ONLY];

fn held(area: Area, address: u32, size: u32) -> Result<Held, Refusal> {
    Ok(Held { area, address, size })
}

struct Host {
    table: Vec<u32>,
    memory: Vec<u8>,
}

impl Host {
    fn started(board: &[u32]) -> Host {
        let mut table = vec![0; TABLE_WORDS];
        assert_eq!(start(&mut table, board), Answer::Started);
        Host { table, memory: vec![0; IMAGE_BYTES] }
    }

    fn call(&mut self, process: Process, class: Class, registers: [u32; 4]) -> Answer {
        call(&mut self.table, &mut self.memory, process, class, registers)
    }

    fn lend(
        &mut self,
        process: Process,
        class: Class,
        driver: Driver,
        slot: u32,
        buffer: [u32; 2],
    ) {
        let [address, size] = buffer;
        let lent = self.call(process, class, [driver.0, slot, address, size]);
        let taken = matches!(lent.returned(), Some(Returned::SuccessWith2U32(..)));
        assert!(taken, "{class}, {size} bytes at {address:#x}: {lent}");
    }

    /// Of the first slot of driver 1.
    fn area(&self, process: Process, class: Class) -> Result<Held, Refusal> {
        area(&self.table, process, class, UNSHARED, 0)
    }

    /// Process 0 lends a buffer in the first slot of driver 1, and where it lies is asked.
    fn lends(&mut self, class: Class, expected: Area, [address, size]: [u32; 2]) {
        self.lend(FIRST, class, UNSHARED, 0, [address, size]);
        let told = self.area(FIRST, class);
        assert_eq!(told, held(expected, address, size), "{class}, {size} bytes at {address:#x}");
    }

    /// Process 0 moves its break.
    fn moves_break(&mut self, to: u32) {
        let moved = self.call(FIRST, Class::MEMOP, [0, to, 0, 0]);
        assert_eq!(moved.returned(), Some(Returned::Success));
    }
}

#[test]
fn nothing_lent_is_empty() {
    let host = Host::started(&BOARD);
    for process in [FIRST, SECOND] {
        for class in ALLOWS {
            assert_eq!(host.area(process, class), held(Area::Empty, 0, 0));
        }
    }
}

/// Empty it is at an address of every area too, and is told with that address.
#[test]
fn a_buffer_of_size_0_is_empty_at_any_address() {
    let mut host = Host::started(&BOARD);
    for class in ALLOWS {
        let of_flash = [0x3_FFFF, 0x4_0000, 0x4_3FFF, 0x4_4000, 0x5_0000];
        let of_ram = [0x1FFF_FFFF, 0x2000_0000, 0x2000_0FFF, 0x2000_1000, 0x2000_1800, 0x2000_2000];
        for address in [0, 1, 0x8000_0000, 0xFFFF_FFFF].into_iter().chain(of_flash).chain(of_ram) {
            host.lends(class, Area::Empty, [address, 0]);
        }
    }
}

#[test]
fn ram_is_from_its_start_up_to_the_break() {
    let mut host = Host::started(&BOARD);
    for class in ALLOWS {
        for (address, size) in [
            (0x2000_0000, 1),
            (0x2000_0000, 0x1000),
            (0x2000_0001, 0xFFF),
            (0x2000_0F00, 0x100),
            (0x2000_0FFF, 1),
        ] {
            host.lends(class, Area::Ram, [address, size]);
        }
    }
}

#[test]
fn flash_is_from_its_start_up_to_its_end() {
    let mut host = Host::started(&BOARD);
    for buffer in [[0x4_0000, 1], [0x4_0000, 0x4000], [0x4_0001, 0x3FFF], [0x4_3FFF, 1]] {
        host.lends(READ_ONLY, Area::Flash, buffer);
    }
}

#[test]
fn areas_reach_to_the_ends_of_the_images() {
    let mut host = Host::started(&WHOLE_IMAGES);
    for class in ALLOWS {
        host.lends(class, Area::Ram, [0x2000_0000, 0x1_0000]);
        host.lends(class, Area::Ram, [0x2000_FFFF, 1]);
        host.lends(class, Area::Empty, [0x2001_0000, 0]);
    }
    host.lends(READ_ONLY, Area::Flash, [0x4_0000, 0x1_0000]);
    host.lends(READ_ONLY, Area::Flash, [0x4_FFFF, 1]);
}

/// What lies nowhere is not taken, and the buffer held before is told.
#[test]
fn a_refused_buffer_is_not_told() {
    let mut host = Host::started(&BOARD);
    let wrapping = [[0xFFFF_FFFF, 2], [0x2000_0001, 0xFFFF_FFFF]];
    let beside_ram = [[0x1FFF_FFFF, 2], [0x2000_0F00, 0x101], [0x2000_1000, 1], [0x2000_2000, 1]];
    let beside_flash = [[0x3_FFFF, 2], [0x4_3FFF, 2], [0x4_4000, 1]];
    let outside = [&wrapping[..], &beside_ram, &beside_flash].concat();
    for class in ALLOWS {
        host.lends(class, Area::Ram, [0x2000_0100, 16]);
        let in_flash = (class == READ_WRITE).then_some([0x4_0000, 1]);
        for [address, size] in outside.iter().copied().chain(in_flash) {
            let lent = host.call(FIRST, class, [UNSHARED.0, 0, address, size]);
            assert_eq!(lent, Answer::Registers([2, 6, address, size]));
            assert_eq!(host.area(FIRST, class), held(Area::Ram, 0x2000_0100, 16));
        }
    }
}

#[test]
fn ram_follows_the_break() {
    for class in ALLOWS {
        let mut host = Host::started(&BOARD);
        host.lends(class, Area::Ram, [0x2000_0F00, 0x100]);
        host.moves_break(0x2000_1800);
        assert_eq!(host.area(FIRST, class), held(Area::Ram, 0x2000_0F00, 0x100));
        host.lends(class, Area::Ram, [0x2000_0F00, 0x900]);
        host.lends(class, Area::Ram, [0x2000_17FF, 1]);
        host.lends(class, Area::Ram, [0x2000_0000, 16]);
        // Down to the buffer's last byte and not below it.
        host.moves_break(0x2000_0010);
        assert_eq!(host.area(FIRST, class), held(Area::Ram, 0x2000_0000, 16));
        let lowered = host.call(FIRST, Class::MEMOP, [0, 0x2000_000F, 0, 0]);
        assert_eq!(lowered, Answer::Registers([0, 9, 0, 0]));
        assert_eq!(host.area(FIRST, class), held(Area::Ram, 0x2000_0000, 16));
    }
}

/// With no RAM left there are empty buffers, and flash.
#[test]
fn nothing_lies_in_ram_with_the_break_at_its_start() {
    let mut host = Host::started(&BOARD);
    host.moves_break(0x2000_0000);
    for class in ALLOWS {
        host.lends(class, Area::Empty, [0x2000_0000, 0]);
        let lent = host.call(FIRST, class, [UNSHARED.0, 0, 0x2000_0000, 1]);
        assert_eq!(lent, Answer::Registers([2, 6, 0x2000_0000, 1]));
    }
    host.lends(READ_ONLY, Area::Flash, [0x4_0000, 1]);
}

#[test]
fn each_process_has_its_own_areas() {
    let mut host = Host::started(&BOARD);
    for class in ALLOWS {
        host.lend(FIRST, class, UNSHARED, 0, [0x2000_0000, 0x1000]);
        host.lend(SECOND, class, UNSHARED, 0, [0x2000_2000, 0x1000]);
        assert_eq!(host.area(FIRST, class), held(Area::Ram, 0x2000_0000, 0x1000));
        assert_eq!(host.area(SECOND, class), held(Area::Ram, 0x2000_2000, 0x1000));
    }
    host.lend(SECOND, READ_ONLY, UNSHARED, 0, [0x4_4000, 0x4000]);
    assert_eq!(host.area(SECOND, READ_ONLY), held(Area::Flash, 0x4_4000, 0x4000));
    assert_eq!(host.area(FIRST, READ_ONLY), held(Area::Ram, 0x2000_0000, 0x1000));
}

/// Whether it runs, waits or has exited is of no matter; after an exit, its buffers are the fresh ones.
#[test]
fn any_process_can_be_asked_about() {
    for (how, after) in [(0, Answer::Exited(7)), (1, Answer::Restarted(7))] {
        let mut host = Host::started(&BOARD);
        for (process, ram, flash) in
            [(FIRST, 0x2000_0000, 0x4_0000), (SECOND, 0x2000_2000, 0x4_4000)]
        {
            host.lend(process, READ_WRITE, UNSHARED, 0, [ram, 4]);
            host.lend(process, READ_ONLY, UNSHARED, 0, [flash, 5]);
        }
        assert_eq!(host.call(SECOND, Class::YIELD, [1, 0, 0, 0]), Answer::Waiting);
        assert_eq!(host.call(FIRST, Class::EXIT, [how, 7, 0, 0]), after);
        for class in ALLOWS {
            assert_eq!(host.area(FIRST, class), held(Area::Empty, 0, 0), "{after}");
        }
        assert_eq!(host.area(SECOND, READ_WRITE), held(Area::Ram, 0x2000_2000, 4));
        assert_eq!(host.area(SECOND, READ_ONLY), held(Area::Flash, 0x4_4000, 5));
    }
}

/// A driver that the process may not call is installed, and has its slots.
#[test]
fn permissions_are_not_asked() {
    let mut board = BOARD;
    board[7] = 0;
    let host = Host::started(&board);
    assert_eq!(host.area(FIRST, READ_ONLY), held(Area::Empty, 0, 0));
}

/// 2 before 3 before 7 before 8, where the later ones apply too.
#[test]
fn the_first_refusal_is_given() {
    let Host { table, .. } = Host::started(&BOARD);
    let (nobody, nothing, no_slot) = (Process(2), Driver(7), 4);
    let cut = &table[..TABLE_WORDS - 1];
    for class in (0..=u8::MAX).map(Class) {
        let asked = |table, process, driver| area(table, process, class, driver, no_slot);
        assert_eq!(asked(cut, nobody, nothing), Err(Refusal::NoTable), "{class}");
        assert_eq!(asked(&table, nobody, nothing), Err(Refusal::NoProcess), "{class}");
        assert_eq!(asked(&table, FIRST, nothing), Err(Refusal::NoDriver), "{class}");
        assert_eq!(asked(&table, FIRST, UNSHARED), Err(Refusal::NoSlot), "{class}");
        assert_eq!(asked(cut, FIRST, UNSHARED), Err(Refusal::NoTable), "{class}");
        assert_eq!(asked(&table, nobody, UNSHARED), Err(Refusal::NoProcess), "{class}");
    }
}

#[test]
fn each_number_has_its_own_refusal() {
    let Host { table, .. } = Host::started(&BOARD);
    let read_only = |process, driver, slot| area(&table, process, READ_ONLY, driver, slot);
    assert!(read_only(SECOND, UNSHARED, 0).is_ok());
    assert_eq!(read_only(Process(2), UNSHARED, 0), Err(Refusal::NoProcess));
    assert_eq!(read_only(Process(u32::MAX), UNSHARED, 0), Err(Refusal::NoProcess));
    for number in [0, 2, 0x8_FFFF, 0x9_0001, u32::MAX] {
        assert_eq!(read_only(FIRST, Driver(number), 0), Err(Refusal::NoDriver), "{number:#x}");
    }
    for slot in [1, 2, 4, u32::MAX] {
        assert_eq!(read_only(FIRST, UNSHARED, slot), Err(Refusal::NoSlot), "{slot}");
    }
    // A slot of the other kind is none of this one.
    assert_eq!(read_only(FIRST, SHARED, 0), Err(Refusal::NoSlot));
    assert!(area(&table, FIRST, READ_WRITE, SHARED, 0).is_ok());
}

/// Slot 0 is there for a subscribe, and holds no buffer.
#[test]
fn no_other_class_has_a_slot() {
    let mut host = Host::started(&BOARD);
    host.lends(READ_WRITE, Area::Ram, [0x2000_0000, 1]);
    host.lends(READ_ONLY, Area::Flash, [0x4_0000, 1]);
    for class in (0..=u8::MAX).map(Class).filter(|class| !ALLOWS.contains(class)) {
        assert_eq!(host.area(FIRST, class), Err(Refusal::NoSlot), "{class}");
    }
}
