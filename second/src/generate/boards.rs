//! Good boards of many shapes.

use std::collections::BTreeSet;

use crate::board::{Area, FLASH, MEMORY};
use crate::limits::{MAX_DRIVERS, MAX_PROCESSES, MAX_SLOTS};
use crate::random::Random;

#[derive(Clone, Copy, Debug, PartialEq, Eq)]
pub enum Shape {
    /// A few processes and drivers, with room to act.
    Ordinary,
    /// Areas of a few bytes that mostly touch each other.
    Tight,
    /// As much of everything as the limits let.
    Full,
    /// One process and no driver.
    Bare,
}

/// The words of a good board.
pub fn good_board(random: &mut Random, shape: Shape) -> Vec<u32> {
    let (processes, drivers) = counts(random, shape);
    board(random, shape, processes, drivers)
}

/// The words of a good board of as many processes as there can be.
pub fn board_of_most_processes(random: &mut Random, shape: Shape) -> Vec<u32> {
    let (_, drivers) = counts(random, shape);
    board(random, shape, MAX_PROCESSES, drivers)
}

/// A board that would be good, were it not for one process too many.
pub fn too_many_processes(random: &mut Random) -> Vec<u32> {
    let drivers = random.below(4);
    board(random, Shape::Tight, MAX_PROCESSES + 1, drivers)
}

/// A board that would be good, were it not for one driver too many. It has to
/// have a process less than there can be: a record of more words than the
/// largest board could not be read.
pub fn too_many_drivers(random: &mut Random) -> Vec<u32> {
    let processes = 1 + random.below(4.min(MAX_PROCESSES - 1));
    board(random, Shape::Tight, processes, MAX_DRIVERS + 1)
}

fn board(random: &mut Random, shape: Shape, processes: usize, drivers: usize) -> Vec<u32> {
    let ram = areas(random, MEMORY, processes, shape);
    let flash = areas(random, FLASH, processes, shape);
    let mut words = vec![processes as u32];
    for place in 0..processes {
        let (first_break, grant_start) = break_and_grant(random, ram[place]);
        words.extend([ram[place].start, ram[place].end, grant_start, first_break]);
        words.extend([flash[place].start, flash[place].end]);
        words.push(permissions(random, drivers, place));
    }
    words.push(drivers as u32);
    for number in driver_numbers(random, drivers) {
        words.push(number);
        words.extend(slot_counts(random, shape));
        words.push(random.within(0..=1));
    }
    words
}

fn counts(random: &mut Random, shape: Shape) -> (usize, usize) {
    match shape {
        Shape::Ordinary => {
            let processes = random.pick(&[1, 2, 2, 3, 3, 4, MAX_PROCESSES]);
            let drivers = random.pick(&[1, 2, 2, 3, 3, 4, 6]);
            (processes.min(MAX_PROCESSES), drivers.min(MAX_DRIVERS))
        }
        Shape::Tight => (1 + random.below(MAX_PROCESSES), random.below(MAX_DRIVERS + 1)),
        Shape::Full => (MAX_PROCESSES, MAX_DRIVERS),
        Shape::Bare => (1, 0),
    }
}

/// Disjoint areas of the image, in no order.
fn areas(random: &mut Random, image: Area, count: usize, shape: Shape) -> Vec<Area> {
    let mut areas = match (shape, random.below(3)) {
        (Shape::Tight, _) => tiny_areas(random, image, count),
        (_, 0) => filling_areas(random, image, count),
        (_, 1) => touching_areas(random, image, count),
        _ => areas_apart(random, image, count),
    };
    random.shuffle(&mut areas);
    areas
}

/// Areas that fill the image from its start to its end.
fn filling_areas(random: &mut Random, image: Area, count: usize) -> Vec<Area> {
    let mut cuts = BTreeSet::from([image.start, image.end]);
    add_cuts(random, image, &mut cuts, count + 1);
    between(&Vec::from_iter(cuts))
}

fn touching_areas(random: &mut Random, image: Area, count: usize) -> Vec<Area> {
    let mut cuts = BTreeSet::new();
    add_cuts(random, image, &mut cuts, count + 1);
    between(&Vec::from_iter(cuts))
}

fn areas_apart(random: &mut Random, image: Area, count: usize) -> Vec<Area> {
    let mut cuts = BTreeSet::new();
    add_cuts(random, image, &mut cuts, 2 * count);
    between(&Vec::from_iter(cuts)).into_iter().step_by(2).collect()
}

/// Areas of at most 40 bytes, at the image's start, at its end or between.
fn tiny_areas(random: &mut Random, image: Area, count: usize) -> Vec<Area> {
    let mut areas = Vec::new();
    let mut end = image.start;
    for _ in 0..count {
        let start = end + random.pick(&[0, 0, 0, 1, 3]);
        end = start + random.pick(&[1, 2, 3, 8, 16, 40]);
        areas.push(Area::new(start, end));
    }
    let shift = random.pick(&[0, image.end - end, 0x1000]);
    areas.into_iter().map(|area| Area::new(area.start + shift, area.end + shift)).collect()
}

fn add_cuts(random: &mut Random, image: Area, cuts: &mut BTreeSet<u32>, count: usize) {
    while cuts.len() < count {
        cuts.insert(random.within(image.start..=image.end));
    }
}

fn between(cuts: &[u32]) -> Vec<Area> {
    cuts.windows(2).map(|pair| Area::new(pair[0], pair[1])).collect()
}

/// The first break and the grant start, often equal to each other or to an
/// end of the RAM area.
fn break_and_grant(random: &mut Random, ram: Area) -> (u32, u32) {
    let first = random.within(ram.start..=ram.end);
    let second = random.within(ram.start..=ram.end);
    match random.below(14) {
        0 => (ram.start, ram.start),
        1 => (ram.start, ram.end),
        2 | 3 => (ram.end, ram.end),
        4 => (ram.start, first),
        5 | 6 => (first, first),
        7 | 8 => (first, ram.end),
        _ => (first.min(second), first.max(second)),
    }
}

/// Process 0 mostly may use every driver, so that a trace can go somewhere.
fn permissions(random: &mut Random, drivers: usize, process: usize) -> u32 {
    let all = (1 << drivers) - 1;
    match random.below(8) {
        0 if process > 0 => 0,
        1 => random.word() & all,
        2 => (random.word() | random.word()) & all,
        _ => all,
    }
}

/// Different numbers, many of which are also process indices or places.
fn driver_numbers(random: &mut Random, count: usize) -> Vec<u32> {
    let mut numbers = Vec::new();
    while numbers.len() < count {
        let number = match random.below(4) {
            0 => random.word(),
            1 => random.pick(&[0x9_0000, 0x8000_0000, u32::MAX, u32::MAX - 1, 0x100, 0x1_0000]),
            _ => random.within(0..=MAX_DRIVERS as u32),
        };
        if !numbers.contains(&number) {
            numbers.push(number);
        }
    }
    numbers
}

fn slot_counts(random: &mut Random, shape: Shape) -> [u32; 3] {
    match (shape, random.below(4)) {
        (Shape::Full, _) | (_, 0) => [MAX_SLOTS; 3],
        (_, 1) => [1 + random.within(0..=1), 1, 1],
        _ => [(); 3].map(|()| random.within(0..=MAX_SLOTS)),
    }
}
