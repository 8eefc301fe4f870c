//! The pictures, beside bars by hand.

use dump::picture::{flash, ram, Bar, Picture, COLUMNS};
use dump::table::dump;
use makvluria::{Class, Layer, Process};
use second::board::{Area, MAX_SLOTS};

/// RAM of 256 bytes, 4 a column, and flash of 64 bytes, one a column. The break is at column 32, and the grant region begins at column 48.
#[rustfmt::skip]
const BOARD: [u32; 14] = [
    1, 0x2000_0000, 0x2000_0100, 0x2000_00C0, 0x2000_0080, 0x0004_0000, 0x0004_0040, 1,
    1, 7, 0, MAX_SLOTS, MAX_SLOTS, 0,
];

fn lend(layer: &mut Layer, class: Class, slot: u32, address: u32, size: u32) {
    layer.call(Process(0), class, [7, slot, address, size]).accepted().unwrap();
}

/// One byte; one that ends at the break; two that overlap in 8 bytes; an empty one; one in flash.
const RAM_PICTURE: &str = "
process 0, RAM, 256 bytes, 4 a column: = below the break, . free, # grant region, * a buffer
  |================================................################|
   S 0x20000000, break 0x20000080, G 0x200000C0, E 0x20000100
  | *                                                              |  read-write slot 0 of driver 0
  |                            ****                                |  read-write slot 1 of driver 0
  |    ********                                                    |  read-write slot 2 of driver 0
  |          ****                                                  |  read-only slot 1 of driver 0
process 0, flash, 64 bytes, 1 a column: = flash, * a buffer
  |================================================================|
   F 0x00040000, FE 0x00040040
  |  ***                                                           |  read-only slot 0 of driver 0
";

#[test]
fn a_small_board() {
    let mut layer = Layer::started(&BOARD).unwrap();
    lend(&mut layer, Class::READ_WRITE_ALLOW, 0, 0x2000_0005, 1);
    lend(&mut layer, Class::READ_WRITE_ALLOW, 1, 0x2000_0070, 16);
    lend(&mut layer, Class::READ_WRITE_ALLOW, 2, 0x2000_0010, 32);
    lend(&mut layer, Class::READ_WRITE_ALLOW, 3, 0x2000_0020, 0);
    lend(&mut layer, Class::READ_ONLY_ALLOW, 0, 0x0004_0002, 3);
    lend(&mut layer, Class::READ_ONLY_ALLOW, 1, 0x2000_0028, 16);
    let text = dump(layer.table());
    assert!(text.contains(RAM_PICTURE), "{text}");
    assert!(text.contains("read-write slot 3 of driver 0 (0x7)  empty, address 0x20000020, size 0"));
}

/// The rows of a picture.
fn rows(picture: Result<Picture, &str>) -> Vec<String> {
    picture.unwrap_or_else(|why| panic!("{why}")).rows.lines().map(String::from).collect()
}

fn bar(bytes: std::ops::Range<u64>) -> Bar {
    Bar { name: String::from("buffer"), bytes }
}

#[test]
fn the_ends_of_an_area() {
    let area = Area::new(0x2000_0000, 0x2001_0000);
    let bars = vec![bar(0x2000_0000..0x2000_0001), bar(0x2000_FFFF..0x2001_0000)];
    let all = area.end;
    let rows = rows(ram(area, [all, all], bars));
    assert_eq!(rows[0], format!("  |{}|", "=".repeat(COLUMNS)));
    assert_eq!(rows[2], format!("  |*{}|  buffer", " ".repeat(COLUMNS - 1)));
    assert_eq!(rows[3], format!("  |{}*|  buffer", " ".repeat(COLUMNS - 1)));
}

/// Fewer bytes than columns: a byte has several.
#[test]
fn an_area_of_two_bytes() {
    let rows = rows(flash(Area::new(0x4_0000, 0x4_0002), vec![bar(0x4_0001..0x4_0002)]));
    let half = COLUMNS / 2;
    assert_eq!(rows[2], format!("  |{}{}|  buffer", " ".repeat(half), "*".repeat(half)));
    let Picture { about, .. } = flash(Area::new(0x4_0000, 0x4_0002), vec![]).ok().unwrap();
    assert_eq!(about, "2 bytes, 0.03125 a column: = flash, * a buffer");
}

/// A break within a column: the column is below it, as its first byte is.
#[test]
fn a_break_within_a_column() {
    let area = Area::new(0, 640);
    let drawn = &rows(ram(area, [11, 30], vec![bar(0..11)]))[..];
    assert_eq!(drawn[0], format!("  |==.{}|", "#".repeat(COLUMNS - 3)));
    assert_eq!(drawn[2], format!("  |**{}|  buffer", " ".repeat(COLUMNS - 2)));
    let drawn = &rows(ram(area, [10, 21], vec![]))[..];
    assert_eq!(drawn[0], format!("  |=..{}|", "#".repeat(COLUMNS - 3)));
}

/// What has a byte has a column, and what has none has none: ten bytes a column, by hand.
#[test]
fn small_parts_are_drawn() {
    let drawn =
        |app_break, grant| rows(ram(Area::new(0, 640), [app_break, grant], vec![])).swap_remove(0);
    let bar = |below: usize, free: usize| {
        let granted = COLUMNS - below - free;
        format!("  |{}{}{}|", "=".repeat(below), ".".repeat(free), "#".repeat(granted))
    };
    // A free part, and a grant region, of less than a column.
    assert_eq!(drawn(11, 20), bar(2, 1));
    assert_eq!(drawn(639, 639), bar(63, 0));
    assert_eq!(drawn(631, 639), bar(62, 1));
    assert_eq!(drawn(638, 639), bar(62, 1));
    // All three at the start.
    assert_eq!(drawn(1, 2), bar(1, 1));
    assert_eq!(drawn(0, 1), bar(0, 1));
    // None of it, and all of it.
    assert_eq!(drawn(0, 0), bar(0, 0));
    assert_eq!(drawn(0, 640), bar(0, 64));
    assert_eq!(drawn(640, 640), bar(64, 0));
    assert_eq!(drawn(639, 640), bar(63, 1));
}

#[test]
fn areas_that_are_not_in_order() {
    let why = |picture: Result<Picture, &'static str>| picture.err().unwrap();
    const RAM: &str = "S, the break, G and E are not in order";
    assert_eq!(why(ram(Area::new(10, 10), [10, 10], vec![])), RAM);
    assert_eq!(why(ram(Area::new(10, 20), [9, 15], vec![])), RAM);
    assert_eq!(why(ram(Area::new(10, 20), [16, 15], vec![])), RAM);
    assert_eq!(why(ram(Area::new(10, 20), [15, 21], vec![])), RAM);
    assert_eq!(why(flash(Area::new(10, 10), vec![])), "F and FE are not in order");
    let mut words = Layer::started(&BOARD).unwrap().table().to_vec();
    words[2] = 0;
    assert!(dump(&words).contains(&format!("process 0, RAM: no picture, as {RAM}\n")));
}

/// Of all addresses that there are.
#[test]
fn the_largest_area() {
    let all = Area::new(0, u32::MAX);
    let last = u64::from(u32::MAX);
    let rows = rows(ram(all, [u32::MAX, u32::MAX], vec![bar(0..last), bar(last - 1..last)]));
    assert_eq!(rows[2], format!("  |{}|  buffer", "*".repeat(COLUMNS)));
    assert_eq!(rows[3], format!("  |{}*|  buffer", " ".repeat(COLUMNS - 1)));
}
