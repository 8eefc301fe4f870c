//! Numbers are read and written whole, without a choice per byte or digit:
//! here beside a reading byte by byte, and beside the standard library.

use crate::common::*;
use second::random::Random;
use second::trace::{read_number, write_number, BadNumber};

/// Document 01's numbers, group by group.
fn read_slowly(bytes: &[u8]) -> Result<(u32, usize), BadNumber> {
    let mut number = 0_u64;
    for group in 0..5 {
        let byte = *bytes.get(group).ok_or(BadNumber::Cut)?;
        number += u64::from(byte % 128) * 128_u64.pow(group as u32);
        if byte < 128 {
            if byte == 0 && group > 0 {
                return Err(BadNumber::NotShortest);
            }
            let number = u32::try_from(number).map_err(|_| BadNumber::Over32Bits)?;
            return Ok((number, group + 1));
        }
    }
    Err(BadNumber::TooManyGroups)
}

/// Every list of this many of the bytes that matter.
fn every_list(length: usize) -> Vec<Vec<u8>> {
    let bytes = [0x00, 0x01, 0x0F, 0x10, 0x7F, 0x80, 0x81, 0x8F, 0x90, 0xFF];
    let mut lists = vec![Vec::new()];
    for _ in 0..length {
        let longer = |list: &Vec<u8>| bytes.map(|byte| [&list[..], &[byte]].concat());
        lists = lists.iter().flat_map(longer).collect();
    }
    lists
}

#[test]
fn numbers_are_read_as_byte_by_byte() {
    for length in 0..=5 {
        for list in every_list(length) {
            assert_eq!(read_number(&list), read_slowly(&list), "{list:02X?}");
            // Not at the end, where all bytes are there to be looked at.
            for after in [0x00, 0x80, 0xFF] {
                let longer = [&list[..], &[after; 8]].concat();
                assert_eq!(read_number(&longer), read_slowly(&longer), "{longer:02X?}");
            }
        }
    }
}

/// Numbers next to every power of ten and of two, and some others.
fn numbers() -> Vec<u32> {
    let tens = (0..=9).map(|power| 10_u32.pow(power));
    let twos = (0..=31).map(|power| 1_u32 << power);
    let beside = |edge: u32| [edge.wrapping_sub(1), edge, edge + 1, edge.wrapping_mul(9)];
    let mut numbers: Vec<u32> = tens.chain(twos).flat_map(beside).collect();
    let mut random = Random::new(&[10]);
    numbers.extend((0..2_000).map(|_| random.word() >> random.below(32)));
    numbers.extend((0..2_000).map(|_| random.within(0..=199_999)));
    numbers.push(u32::MAX);
    numbers
}

#[test]
fn numbers_are_read_as_they_are_written() {
    for number in numbers() {
        let mut bytes = Vec::new();
        write_number(&mut bytes, number);
        assert_eq!(read_number(&bytes), Ok((number, bytes.len())));
    }
}

#[test]
fn numbers_in_lines_are_those_of_the_standard_library() {
    for number in numbers() {
        assert_eq!(lines(&[restart(0, number)]), [format!("R {number}")]);
        let wrong = [number, number / 7];
        let refused = lines(&[allow_ro(0, 7, 0, wrong)]);
        assert_eq!(refused, [format!("A 2 11 {} {}", wrong[0], wrong[1])]);
    }
}
