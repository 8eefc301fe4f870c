//! The buffers that a table holds, and where each lies.

use makvluria::{Area, Class, Driver, Process};
use second::board::{BufferArea, SlotKind};
use second::state::{Buffer, Slot};

use crate::layout::count;
use crate::reading::Reading;

/// A buffer in a slot that the board has.
#[derive(Clone, Copy, Debug, PartialEq, Eq)]
pub struct Held {
    pub process: usize,
    pub slot: Slot,
    pub buffer: Buffer,
    pub area: BufferArea,
}

/// The buffers of a process whose pair is not (0, 0), in the order of the words.
pub fn held(reading: &Reading, process: usize) -> Vec<Held> {
    let kinds = [SlotKind::ReadWrite, SlotKind::ReadOnly];
    let slots = kinds.into_iter().flat_map(Reading::slots_of);
    let held = slots.filter(|&slot| reading.has(slot) && reading.pair(process, slot) != [0, 0]);
    held.map(|slot| {
        let buffer = Buffer::from(reading.pair(process, slot));
        Held { process, slot, buffer, area: area(reading, process, slot) }
    })
    .collect()
}

/// Where the buffer of a slot lies: told by the proved library, which refuses a table that is not well formed; of such a one, by the
/// second program's rule.
pub fn area(reading: &Reading, process: usize, slot: Slot) -> BufferArea {
    let told = if reading.well_formed { proved_area(reading, process, slot) } else { None };
    told.unwrap_or_else(|| own_area(reading, process, slot))
}

/// None where the library refuses.
pub fn proved_area(reading: &Reading, process: usize, slot: Slot) -> Option<BufferArea> {
    let class = match slot.kind {
        SlotKind::Subscribe => return None,
        SlotKind::ReadWrite => Class::READ_WRITE_ALLOW,
        SlotKind::ReadOnly => Class::READ_ONLY_ALLOW,
    };
    let driver = Driver(reading.driver(slot.driver.0).number.0);
    let process = Process(process as u32);
    let held = makvluria::area(reading.words(), process, class, driver, slot.number).ok()?;
    Some(match held.area {
        Area::Empty => BufferArea::Empty,
        Area::Ram => BufferArea::Ram,
        Area::Flash => BufferArea::Flash,
        Area::Outside => BufferArea::Outside,
    })
}

pub fn own_area(reading: &Reading, process: usize, slot: Slot) -> BufferArea {
    let app_break = reading.app_break(process);
    reading.process(process).area_of(app_break, reading.pair(process, slot))
}

/// A buffer's area, its bytes' range and how many there are. The end is exact: it can pass 2^32.
pub fn text(buffer: Buffer, area: BufferArea) -> String {
    let Buffer { address, size } = buffer;
    match area {
        BufferArea::Empty => format!("{area}, address 0x{address:08X}, size {size}"),
        _ => {
            let bytes = count(size as usize, "byte", "bytes");
            format!("{area} [0x{address:08X}, 0x{:08X}), {bytes}", buffer.end())
        }
    }
}
