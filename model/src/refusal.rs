//! The table of refusals: the first that applies, in the order of each operation.
use crate::number::Number;

pub const OK: u64 = 0;

/// The first refusal of a list.
pub fn first(refusals: &[u64]) -> u64 {
    refusals.iter().copied().find(|&n| n != OK).unwrap_or(OK)
}

fn unless(holds: bool, n: u64) -> u64 {
    if holds {
        OK
    } else {
        n
    }
}

pub fn dimension(d: u64) -> u64 {
    unless((1..=8).contains(&d), 1)
}

pub fn length(l: u64) -> u64 {
    unless((1..=576).contains(&l), 2)
}

/// A lent buffer hasn't exactly its length. Lengths are worked out wide enough that no product wraps.
pub fn shape(have: usize, want: u128) -> u64 {
    unless(have as u128 == want, 3)
}

pub fn scalar(l: u64, scalars: &[Number]) -> u64 {
    unless(scalars.iter().all(|k| k.has_bits(l as usize)), 4)
}

/// An arrangement of 1..d.
pub fn order(d: u64, start: &[u8]) -> u64 {
    let mut sorted: Vec<u64> = start.iter().map(|&j| u64::from(j)).collect();
    sorted.sort_unstable();
    unless(sorted.into_iter().eq(1..=d), 5)
}

pub fn row(d: u64, row: u64) -> u64 {
    unless(row >= 1 && u128::from(row) <= u128::from(d) + 1, 6)
}

pub fn modulus(m: u64) -> u64 {
    unless(m <= 1 << 63, 7)
}

pub fn element(m: u64, elements: &[u64]) -> u64 {
    unless(m == 0 || elements.iter().all(|&e| e < m), 8)
}

/// More bytes than are listed.
pub fn big(bytes: usize) -> u64 {
    unless(bytes <= 4096, 10)
}

/// Words of a scalar: ceil(l/64).
pub fn scalar_words(l: u64) -> u128 {
    u128::from(l).div_ceil(64)
}

/// Words of a decoded value: floor(l/64)+1.
pub fn value_words(l: u64) -> u128 {
    u128::from(l) / 64 + 1
}

/// Bytes of a plan's bits: ceil(l*d/8).
pub fn bits_bytes(d: u64, l: u64) -> u128 {
    (u128::from(l) * u128::from(d)).div_ceil(8)
}
