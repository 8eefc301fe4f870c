//! Numbers of a trace: groups of seven bits, low group first.

/// Most groups of seven bits that a number has.
pub const MAX_GROUPS: usize = 5;

const GROUP_BITS: u32 = 7;
/// The top bit of a byte: more groups follow.
pub(crate) const MORE: u8 = 0x80;

/// Why bytes do not begin with a number.
#[derive(Clone, Copy, Debug, PartialEq, Eq)]
pub enum BadNumber {
    Cut,
    NotShortest,
    Over32Bits,
    TooManyGroups,
}

/// The top bits of the bytes that a number can have.
const TOP_BITS: u64 = 0x80_8080_8080;

/// The number that the bytes begin with, in its shortest form and at most 32
/// bits, and how many bytes it has.
#[inline(always)]
pub fn read_number(bytes: &[u8]) -> Result<(u32, usize), BadNumber> {
    match bytes.first_chunk() {
        Some(&first) => number_in(first),
        None => read_number_near_end(bytes),
    }
}

/// The same where fewer than eight bytes are left: zeros stand for the others.
#[cold]
fn read_number_near_end(bytes: &[u8]) -> Result<(u32, usize), BadNumber> {
    if bytes.len() < MAX_GROUPS && bytes.iter().all(|byte| byte & MORE != 0) {
        return Err(BadNumber::Cut);
    }
    let mut first = [0; 8];
    first[..bytes.len()].copy_from_slice(bytes);
    number_in(first)
}

/// The number that eight bytes begin with. All its groups are taken together:
/// a test per byte would be guessed wrong, as lengths are mixed.
#[inline(always)]
pub(crate) fn number_in(bytes: [u8; 8]) -> Result<(u32, usize), BadNumber> {
    let word = u64::from_le_bytes(bytes);
    let ends = !word & TOP_BITS;
    if ends == 0 {
        return Err(BadNumber::TooManyGroups);
    }
    // Up to the lowest end, and its groups without their top bits.
    let own_bits = ends ^ (ends - 1);
    let groups = word & own_bits & !TOP_BITS;
    // A last group of zeros could have been left out, but for the first one.
    if groups | 1 <= own_bits >> 8 {
        return Err(BadNumber::NotShortest);
    }
    if groups >> 36 != 0 {
        return Err(BadNumber::Over32Bits);
    }
    Ok((packed(groups), (ends.trailing_zeros() as usize + 1) / 8))
}

/// Five groups of seven bits, each at the foot of a byte, moved together:
/// first by pairs, then all.
#[inline(always)]
fn packed(groups: u64) -> u32 {
    let pairs = groups - ((groups & 0x7F00_7F00) >> 1);
    (pairs & 0x3FFF | (pairs & 0x3FFF_0000) >> 2 | (pairs >> 32) << 28) as u32
}

/// Appends a number in its shortest form.
pub fn write_number(trace: &mut Vec<u8>, mut number: u32) {
    while number >= u32::from(MORE) {
        trace.push(number as u8 | MORE);
        number >>= GROUP_BITS;
    }
    trace.push(number as u8);
}

/// Appends numbers, each in its shortest form.
pub fn write_numbers(trace: &mut Vec<u8>, numbers: &[u32]) {
    for &number in numbers {
        write_number(trace, number);
    }
}
