//! The board's words and what makes a board good.

mod check;

use std::fmt;

use crate::fault::BoardFault;

pub use crate::limits::{IMAGE_SIZE, MAX_DRIVERS, MAX_PROCESSES, MAX_SLOTS};
pub use check::{check_board, check_driver_count, check_process_count};

/// How many kinds of slots there are.
pub const SLOT_KINDS: usize = 3;

/// The addresses that the memory image covers.
pub const MEMORY: Area = image_at(0x2000_0000);
/// The addresses that the flash image covers.
pub const FLASH: Area = image_at(0x0004_0000);

const fn image_at(start: u32) -> Area {
    Area::new(start, start + IMAGE_SIZE as u32)
}

/// Words of one process on a board.
pub const PROCESS_WORDS: usize = 7;
/// Words of one driver on a board.
pub const DRIVER_WORDS: usize = 5;

/// Places of the words in the row of a process, and of a driver.
pub mod field {
    pub const S: usize = 0;
    pub const E: usize = 1;
    pub const G: usize = 2;
    pub const B: usize = 3;
    pub const F: usize = 4;
    pub const FE: usize = 5;
    pub const PERMISSIONS: usize = 6;

    pub const NUMBER: usize = 0;
    /// The first of three, in the order of the kinds.
    pub const SLOTS: usize = 1;
    pub const SHARED: usize = 4;
}

/// A process as a board writes it: S, E, G, B, F, FE and the permission mask.
pub type ProcessWords = [u32; PROCESS_WORDS];
/// A driver as a board writes it: its number, three slot counts, and shared.
pub type DriverWords = [u32; DRIVER_WORDS];

/// Words of the largest board.
pub const MAX_BOARD_WORDS: usize = board_words(MAX_PROCESSES, MAX_DRIVERS);

/// Words of a board with this many processes and drivers.
pub const fn board_words(processes: usize, drivers: usize) -> usize {
    2 + PROCESS_WORDS * processes + DRIVER_WORDS * drivers
}

/// A process, by its index on the board.
#[derive(Clone, Copy, Debug, PartialEq, Eq)]
pub struct ProcessIndex(pub u32);

impl ProcessIndex {
    /// Its place in a list of processes; past the end if there is no such process.
    pub fn place(self) -> usize {
        self.0 as usize
    }
}

/// A driver, by the number that programs call it by.
#[derive(Clone, Copy, Debug, PartialEq, Eq)]
pub struct DriverNumber(pub u32);

/// An installed driver, by its place in board order.
#[derive(Clone, Copy, Debug, PartialEq, Eq)]
pub struct DriverPlace(pub usize);

/// What a slot is for.
#[derive(Clone, Copy, Debug, PartialEq, Eq)]
pub enum SlotKind {
    Subscribe,
    ReadWrite,
    ReadOnly,
}

impl SlotKind {
    /// In the order in which a board counts a driver's slots.
    pub const ALL: [SlotKind; SLOT_KINDS] =
        [SlotKind::Subscribe, SlotKind::ReadWrite, SlotKind::ReadOnly];
}

/// The addresses from `start` up to, not including, `end`.
#[derive(Clone, Copy, Debug, PartialEq, Eq)]
pub struct Area {
    pub start: u32,
    pub end: u32,
}

impl Area {
    pub const fn new(start: u32, end: u32) -> Area {
        Area { start, end }
    }

    pub fn contains(self, address: u32) -> bool {
        self.holds(address, 1)
    }

    /// Whether `size` bytes from `address` on lie wholly inside. The sum is
    /// taken in 64 bits: in 32 bits it would wrap to a small address. Both
    /// sides are looked at: which one decides cannot be guessed.
    #[inline(always)]
    pub fn holds(self, address: u32, size: u32) -> bool {
        (self.start <= address) & (u64::from(address) + u64::from(size) <= u64::from(self.end))
    }

    fn is_empty(self) -> bool {
        self.end <= self.start
    }

    fn is_disjoint_from(self, other: Area) -> bool {
        self.end <= other.start || other.end <= self.start
    }
}

/// Where a buffer lies.
#[derive(Clone, Copy, Debug, PartialEq, Eq)]
pub enum BufferArea {
    /// It has no bytes, so that its address is of no matter.
    Empty,
    /// Wholly in the process's RAM, below its break.
    Ram,
    /// Wholly in the process's flash.
    Flash,
    Outside,
}

impl fmt::Display for BufferArea {
    fn fmt(&self, out: &mut fmt::Formatter) -> fmt::Result {
        out.write_str(match self {
            BufferArea::Empty => "empty",
            BufferArea::Ram => "RAM",
            BufferArea::Flash => "flash",
            BufferArea::Outside => "outside",
        })
    }
}

/// What the board says of one process.
#[derive(Clone, Copy, Debug, PartialEq, Eq)]
pub struct ProcessBoard {
    /// [S, E)
    pub ram: Area,
    /// G
    pub grant_start: u32,
    /// B
    pub first_break: u32,
    /// [F, FE)
    pub flash: Area,
    /// Bit k is driver k in board order.
    pub permissions: u32,
}

impl ProcessBoard {
    pub fn from_words(words: &ProcessWords) -> ProcessBoard {
        let &[ram_start, ram_end, grant_start, first_break, flash_start, flash_end, permissions] =
            words;
        ProcessBoard {
            ram: Area::new(ram_start, ram_end),
            grant_start,
            first_break,
            flash: Area::new(flash_start, flash_end),
            permissions,
        }
    }

    pub fn words(&self) -> ProcessWords {
        let ProcessBoard { ram, grant_start, first_break, flash, permissions } = *self;
        [ram.start, ram.end, grant_start, first_break, flash.start, flash.end, permissions]
    }

    #[inline(always)]
    pub fn permits(&self, driver: DriverPlace) -> bool {
        (self.permissions >> driver.0) & 1 == 1
    }

    /// Where a buffer lies while the break is there.
    #[inline(always)]
    pub fn area_of(&self, app_break: u32, [address, size]: [u32; 2]) -> BufferArea {
        if size == 0 {
            BufferArea::Empty
        } else if Area::new(self.ram.start, app_break).holds(address, size) {
            BufferArea::Ram
        } else if self.flash.holds(address, size) {
            BufferArea::Flash
        } else {
            BufferArea::Outside
        }
    }

    /// Whether a slot of this kind may hold the pair while the break is there:
    /// an upcall that is null or points into flash; a buffer that is empty, or
    /// lies wholly in RAM below the break or (read-only) in flash.
    #[inline(always)]
    pub fn accepts(&self, app_break: u32, kind: SlotKind, pair: [u32; 2]) -> bool {
        let [pointer, _] = pair;
        match kind {
            SlotKind::Subscribe => pointer == 0 || self.flash.contains(pointer),
            SlotKind::ReadWrite => {
                matches!(self.area_of(app_break, pair), BufferArea::Empty | BufferArea::Ram)
            }
            SlotKind::ReadOnly => self.area_of(app_break, pair) != BufferArea::Outside,
        }
    }
}

/// What the board says of one driver.
#[derive(Clone, Copy, Debug, PartialEq, Eq)]
pub struct DriverBoard {
    pub number: DriverNumber,
    /// How many slots of each kind it has.
    slots: [u32; SLOT_KINDS],
    pub shared: bool,
}

impl DriverBoard {
    /// Of the words of a good driver.
    pub fn from_words(words: &DriverWords) -> DriverBoard {
        let &[number, subscribe, read_write, read_only, shared] = words;
        let slots = [subscribe, read_write, read_only];
        DriverBoard { number: DriverNumber(number), slots, shared: shared == 1 }
    }

    pub fn words(&self) -> DriverWords {
        let [subscribe, read_write, read_only] = self.slots;
        [self.number.0, subscribe, read_write, read_only, u32::from(self.shared)]
    }

    /// How many slots of this kind the driver has.
    #[inline(always)]
    pub fn slots(&self, kind: SlotKind) -> u32 {
        self.slots[kind as usize]
    }
}

/// A good board: there is no other way to get one than from words.
#[derive(Clone, Debug, PartialEq, Eq)]
pub struct Board {
    processes: Vec<ProcessBoard>,
    drivers: Vec<DriverBoard>,
    numbers: DriverNumbers,
}

impl Board {
    /// The board that these words describe, or None if it is not good.
    pub fn from_words(words: &[u32]) -> Option<Board> {
        Board::checked(words).ok()
    }

    /// The same, or what is wrong with the words.
    pub fn checked(words: &[u32]) -> Result<Board, BoardFault> {
        let (processes, drivers) = split_words(words).ok_or_else(|| check::misfit(words))?;
        check_board(processes, drivers)?;
        let processes = processes.iter().map(ProcessBoard::from_words).collect();
        let drivers: Vec<_> = drivers.iter().map(DriverBoard::from_words).collect();
        let numbers = DriverNumbers::of(&drivers);
        Ok(Board { processes, drivers, numbers })
    }

    pub fn processes(&self) -> &[ProcessBoard] {
        &self.processes
    }

    pub fn drivers(&self) -> &[DriverBoard] {
        &self.drivers
    }

    /// Where the driver stands on the board, if it is installed.
    #[inline(always)]
    pub fn find_driver(&self, number: DriverNumber) -> Option<DriverPlace> {
        self.numbers.find(number)
    }
}

/// The drivers' numbers side by side, so that all can be compared at once:
/// where a search stops could not be guessed.
#[derive(Clone, Debug, Default, PartialEq, Eq)]
struct DriverNumbers {
    numbers: [u32; MAX_DRIVERS],
    /// Bit k alone at each place k that a driver has, and none at the others.
    bits: [u32; MAX_DRIVERS],
}

impl DriverNumbers {
    fn of(drivers: &[DriverBoard]) -> DriverNumbers {
        let mut all = DriverNumbers::default();
        for (place, driver) in drivers.iter().enumerate() {
            all.numbers[place] = driver.number.0;
            all.bits[place] = 1 << place;
        }
        all
    }

    #[inline(always)]
    fn find(&self, number: DriverNumber) -> Option<DriverPlace> {
        let mut found = 0_u32;
        for (&other, &bit) in self.numbers.iter().zip(&self.bits) {
            found |= if other == number.0 { bit } else { 0 };
        }
        (found != 0).then_some(DriverPlace(found.trailing_zeros() as usize))
    }
}

/// The words of each process and of each driver, if the two counts among the
/// words fit their length. Counts beyond the limits can fit too.
pub fn split_words(words: &[u32]) -> Option<(&[ProcessWords], &[DriverWords])> {
    let (&processes, rest) = words.split_first()?;
    let (processes, rest) =
        rest.split_at_checked(PROCESS_WORDS.checked_mul(processes as usize)?)?;
    let (&drivers, rest) = rest.split_first()?;
    let fits = DRIVER_WORDS.checked_mul(drivers as usize)? == rest.len();
    fits.then_some((processes.as_chunks().0, rest.as_chunks().0))
}
