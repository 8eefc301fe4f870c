//! The incident without std: the layer is a static of zeros, and what it answers goes to a console. A crate that brought std along would
//! not link, as this one has a panic handler of its own.
#![no_std]
#![no_main]

use core::cell::UnsafeCell;
use core::fmt::{self, Write};
use core::panic::PanicInfo;

use makvluria::{Class, Driver, Layer, Process, Refusal};

const RECEIVER: Driver = Driver(0x9_0001);

#[rustfmt::skip]
const BOARD: [u32; 21] = [
    2,
    0x2000_0000, 0x2000_2000, 0x2000_1800, 0x2000_1000, 0x0004_0000, 0x0004_4000, 1,
    0x2000_2000, 0x2000_4000, 0x2000_3800, 0x2000_3000, 0x0004_4000, 0x0004_8000, 1,
    1,
    RECEIVER.0, 0, 1, 0, 0,
];

// The C library is the machine here: it starts `main`, and prints.
#[link(name = "c")]
extern "C" {
    fn putchar(character: i32) -> i32;
    fn abort() -> !;
}

/// For one core, and no interrupts.
struct Single(UnsafeCell<Layer>);

unsafe impl Sync for Single {}

static LAYER: Single = Single(UnsafeCell::new(Layer::new()));

struct Console;

impl Write for Console {
    fn write_str(&mut self, text: &str) -> fmt::Result {
        for byte in text.bytes() {
            unsafe { putchar(byte.into()) };
        }
        Ok(())
    }
}

fn tell(layer: &mut Layer, console: &mut Console) -> fmt::Result {
    writeln!(console, "start: {}", layer.start(&BOARD))?;
    for (process, address, size) in [(0, 0xFFFF_FFFF, 2), (1, 0x2000_2100, 16)] {
        let process = Process(process);
        let lent = layer.call(process, Class::READ_WRITE_ALLOW, [RECEIVER.0, 0, address, size]);
        writeln!(console, "process {} lends {size} bytes at 0x{address:08X}: {lent}", process.0)?;
        if let Ok(held) = layer.area(process, Class::READ_WRITE_ALLOW, RECEIVER, 0) {
            writeln!(console, "it holds {} bytes: {}", held.size, held.area)?;
        }
        let filled = layer.deposit(process, RECEIVER, 0, 12, b"GPS!");
        writeln!(console, "a driver fills its last four: {filled}")?;
    }
    let written = layer.memory.iter().filter(|&&byte| byte != 0).count();
    writeln!(console, "bytes written in the whole image: {written}")
}

#[no_mangle]
extern "C" fn main() -> i32 {
    // Nothing else refers to it.
    let layer = unsafe { &mut *LAYER.0.get() };
    let unstarted = layer.resume(Process(0)).accepted() == Err(Refusal::NoTable);
    match tell(layer, &mut Console) {
        Ok(()) if unstarted => 0,
        _ => 1,
    }
}

#[panic_handler]
fn panic(_: &PanicInfo) -> ! {
    unsafe { abort() }
}

// What core is built with for a machine with an operating system refers to it; for one without, nothing does.
#[no_mangle]
extern "C" fn rust_eh_personality() {}
