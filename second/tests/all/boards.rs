//! What makes a board good.

use crate::common::*;
use second::board::{board_words, Board, MAX_BOARD_WORDS};

fn is_good(words: &[u32]) -> bool {
    Board::from_words(words).is_some()
}

/// The board of the cases with one word changed.
fn changed(place: usize, word: u32) -> Vec<u32> {
    let mut words = CASE_BOARD.to_vec();
    words[place] = word;
    words
}

/// Places of process 0's words, and of the drivers'.
const S: usize = 1;
const E: usize = 2;
const G: usize = 3;
const B: usize = 4;
const F: usize = 5;
const FE: usize = 6;
const MASK: usize = 7;
const DRIVERS: usize = 15;
const FIRST_DRIVER: usize = 16;

#[test]
fn the_case_board_is_good_and_a_start_writes_no_line() {
    assert!(is_good(&CASE_BOARD));
    assert_eq!(lines(&[]), Vec::<String>::new());
}

#[test]
fn length_fits_exactly() {
    for length in 0..CASE_BOARD.len() {
        assert!(!is_good(&CASE_BOARD[..length]), "{length} words");
    }
    let mut longer = CASE_BOARD.to_vec();
    longer.push(0);
    assert!(!is_good(&longer));
    assert_eq!(MAX_BOARD_WORDS, 138);
    assert_eq!(board_words(2, 2), CASE_BOARD.len());
}

#[test]
fn counts_are_within_limits() {
    for processes in [0, 1, 3, 9, u32::MAX] {
        assert!(!is_good(&changed(0, processes)));
    }
    for drivers in [0, 1, 3, 17, u32::MAX] {
        assert!(!is_good(&changed(DRIVERS, drivers)));
    }
    assert!(!is_good(&[0, 0]));
    assert!(is_good(&board(8, 16)));
    assert!(is_good(&board(1, 0)));
    assert!(!is_good(&board(9, 16)));
    assert!(!is_good(&board(8, 17)));
}

/// A board whose areas touch, with this many processes and drivers.
fn board(processes: u32, drivers: u32) -> Vec<u32> {
    let mut words = vec![processes];
    for index in 0..processes {
        let ram = 0x2000_0000 + 0x1000 * index;
        let flash = 0x4_0000 + 0x1000 * index;
        let mask = ((1_u64 << drivers) - 1) as u32;
        words.extend([ram, ram + 0x1000, ram + 0x800, ram, flash, flash + 0x1000, mask]);
    }
    words.push(drivers);
    for number in 0..drivers {
        words.extend([number, 4, 4, 4, number % 2]);
    }
    words
}

#[test]
fn ram_words_are_ordered_and_inside_the_image() {
    assert!(!is_good(&changed(S, 0x1FFF_FFFF)));
    assert!(!is_good(&changed(S, 0x2000_1001)), "S above B");
    assert!(is_good(&changed(S, 0x2000_1000)), "S equals B");
    assert!(!is_good(&changed(B, 0x2000_1801)), "B above G");
    assert!(is_good(&changed(B, 0x2000_1800)), "B equals G");
    assert!(!is_good(&changed(G, 0x2000_2001)), "G above E");
    assert!(is_good(&changed(G, 0x2000_2000)), "G equals E");
    assert!(!is_good(&changed(G, 0x2000_0FFF)), "G below B");
    // The second process's E is the one that can go up to the image's end.
    let second_end = E + 7;
    assert!(is_good(&changed(second_end, 0x2001_0000)));
    assert!(!is_good(&changed(second_end, 0x2001_0001)));
    assert!(!is_good(&changed(second_end, u32::MAX)));
}

#[test]
fn flash_words_are_ordered_and_inside_the_image() {
    assert!(!is_good(&changed(F, 0x3_FFFF)));
    assert!(!is_good(&changed(F, 0x4_4000)), "empty flash");
    assert!(is_good(&changed(F, 0x4_3FFF)));
    assert!(!is_good(&changed(FE, 0x4_0000)));
    assert!(is_good(&changed(FE + 7, 0x5_0000)));
    assert!(!is_good(&changed(FE + 7, 0x5_0001)));
}

#[test]
fn areas_are_pairwise_disjoint() {
    assert!(!is_good(&changed(E, 0x2000_2001)));
    assert!(!is_good(&changed(FE, 0x4_4001)));
    // One inside the other.
    let mut inside = CASE_BOARD;
    inside[S + 7..=B + 7].copy_from_slice(&[0x2000_0800, 0x2000_0900, 0x2000_0900, 0x2000_0800]);
    assert!(!is_good(&inside));
}

#[test]
fn mask_bits_name_drivers() {
    for mask in [0, 1, 2, 3] {
        assert!(is_good(&changed(MASK, mask)));
    }
    for mask in [4, 7, 0x8000_0000, u32::MAX] {
        assert!(!is_good(&changed(MASK, mask)));
    }
}

#[test]
fn driver_words_are_within_limits() {
    assert!(!is_good(&changed(FIRST_DRIVER, CORRELATOR)), "equal numbers");
    assert!(is_good(&changed(FIRST_DRIVER, u32::MAX)));
    for slots in 1..=3 {
        assert!(is_good(&changed(FIRST_DRIVER + slots, 0)));
        assert!(is_good(&changed(FIRST_DRIVER + slots, 4)));
        assert!(!is_good(&changed(FIRST_DRIVER + slots, 5)));
        assert!(!is_good(&changed(FIRST_DRIVER + slots, u32::MAX)));
    }
    assert!(is_good(&changed(FIRST_DRIVER + 4, 1)));
    assert!(!is_good(&changed(FIRST_DRIVER + 4, 2)));
}
