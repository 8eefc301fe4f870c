//! A process's memory in bars of text.
//!
//! A column stands for an equal part of the area, and has the character of its first byte; but what has a byte has a column, be it below the
//! break, free or the grant region. A buffer's bar has every column that one of its bytes lies in, so that the smallest has one.

use std::ops::Range;

use second::board::{Area, BufferArea};

use crate::buffers::{self, Held};
use crate::layout::{count, paragraph};
use crate::names;
use crate::reading::Reading;

pub const COLUMNS: usize = 64;

const BELOW_BREAK: char = '=';
const FREE: char = '.';
const GRANT: char = '#';
const FLASH: char = '=';
const BUFFER: char = '*';

/// What the bars are drawn with.
const RAM_LEGEND: &str = "= below the break, . free, # grant region, * a buffer";
const FLASH_LEGEND: &str = "= flash, * a buffer";

/// The pictures of a process's RAM and flash, each with the buffers that lie in it.
pub fn of_process(reading: &Reading, process: usize) -> String {
    let held = buffers::held(reading, process);
    let bars = |area| held.iter().filter(move |held| held.area == area).map(bar_of).collect();
    let board = reading.process(process);
    let break_and_grant = [reading.app_break(process), board.grant_start];
    let ram = ram(board.ram, break_and_grant, bars(BufferArea::Ram));
    let flash = flash(board.flash, bars(BufferArea::Flash));
    format!("\n{}{}", titled(process, "RAM", ram), titled(process, "flash", flash))
}

/// A picture under its title; an error is why there is none.
fn titled(process: usize, area: &str, picture: Result<Picture, &str>) -> String {
    match picture {
        Ok(Picture { about, rows }) => {
            paragraph(&format!("process {process}, {area}, {about}")) + &rows
        }
        Err(why) => paragraph(&format!("process {process}, {area}: no picture, as {why}")),
    }
}

/// What there is to say before the rows, and the rows, each ended by a new line.
pub struct Picture {
    pub about: String,
    pub rows: String,
}

/// A buffer in a picture: its name, and its bytes.
pub struct Bar {
    pub name: String,
    pub bytes: Range<u64>,
}

fn bar_of(held: &Held) -> Bar {
    let bytes = u64::from(held.buffer.address)..held.buffer.end();
    Bar { name: names::slot(held.slot), bytes }
}

/// The picture of RAM, or why there is none.
pub fn ram(
    area: Area,
    [app_break, grant]: [u32; 2],
    bars: Vec<Bar>,
) -> Result<Picture, &'static str> {
    let Area { start, end } = area;
    if !(start < end && start <= app_break && app_break <= grant && grant <= end) {
        return Err("S, the break, G and E are not in order");
    }
    let [below, free] = parts(area, app_break, grant);
    let drawn: String = (0..COLUMNS)
        .map(|column| match column {
            _ if column < below => BELOW_BREAK,
            _ if column < free => FREE,
            _ => GRANT,
        })
        .collect();
    let places =
        format!("S 0x{start:08X}, break 0x{app_break:08X}, G 0x{grant:08X}, E 0x{end:08X}");
    let about = about(area, RAM_LEGEND);
    Ok(Picture { about, rows: rows(area, &drawn, &places, &bars) })
}

/// The picture of flash, or why there is none.
pub fn flash(area: Area, bars: Vec<Bar>) -> Result<Picture, &'static str> {
    let Area { start, end } = area;
    if start >= end {
        return Err("F and FE are not in order");
    }
    let drawn = String::from(FLASH).repeat(COLUMNS);
    let places = format!("F 0x{start:08X}, FE 0x{end:08X}");
    let about = about(area, FLASH_LEGEND);
    Ok(Picture { about, rows: rows(area, &drawn, &places, &bars) })
}

fn about(area: Area, legend: &str) -> String {
    let bytes = length(area);
    // Exact: a length has 32 bits, and its sixty-fourth part at most six behind the point.
    let each = bytes as f64 / COLUMNS as f64;
    format!("{}, {each} a column: {legend}", count(bytes as usize, "byte", "bytes"))
}

fn rows(area: Area, drawn: &str, places: &str, bars: &[Bar]) -> String {
    let mut out = format!("  |{drawn}|\n   {places}\n");
    for Bar { name, bytes } in bars {
        let row: String = (0..COLUMNS).map(|column| row_at(area, bytes, column)).collect();
        out += &format!("  |{row}|  {name}\n");
    }
    out
}

fn row_at(area: Area, bytes: &Range<u64>, column: usize) -> char {
    if columns_of(area, bytes).contains(&column) {
        BUFFER
    } else {
        ' '
    }
}

fn length(area: Area) -> u64 {
    u64::from(area.end) - u64::from(area.start)
}

/// The columns at which what is free and the grant region begin, S <= break <= G <= E.
fn parts(area: Area, app_break: u32, grant: u32) -> [usize; 2] {
    let [below, free, granted] =
        [area.start < app_break, app_break < grant, grant < area.end].map(usize::from);
    let begins = |byte: u32| columns_of(area, &(u64::from(area.start)..u64::from(byte))).end;
    let break_at = begins(app_break).clamp(below, COLUMNS - free - granted);
    let grant_at = match free {
        0 => break_at,
        _ => begins(grant).clamp(break_at + free, COLUMNS - granted),
    };
    [break_at, grant_at]
}

/// The columns of bytes that lie in the area.
fn columns_of(area: Area, bytes: &Range<u64>) -> Range<usize> {
    let place = |byte: u64| byte.saturating_sub(u64::from(area.start)) * COLUMNS as u64;
    let first = place(bytes.start) / length(area);
    let end = place(bytes.end).div_ceil(length(area));
    first as usize..end as usize
}
