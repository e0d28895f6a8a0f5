//! The constants of the rules, and the lengths that the calls ask.

/// The largest dimension.
pub const LARGEST_D: u64 = 8;
/// The largest length.
pub const LARGEST_L: u64 = 576;
/// The trailer at the end of a plan file.
pub const TRAILER_BYTES: usize = 12;
/// The length of the buffer that [`listing`](crate::listing) asks: that of the longest text.
pub const TEXT_BYTES: usize = 8589;
/// The longest plan file that is listed.
pub const LISTED_BYTES: usize = 4096;

/// The length, or 0 where d or l is out of range, so that no product wraps.
fn sized(d: u64, l: u64, length: fn(u64, u64) -> u64) -> usize {
    if (1..=LARGEST_D).contains(&d) && (1..=LARGEST_L).contains(&l) {
        length(d, l) as usize
    } else {
        0
    }
}

/// Words of d scalars of l bits, ceil(l/64) each; 0 where d or l is out of range.
pub fn scalars_words(d: u64, l: u64) -> usize {
    sized(d, l, |d, l| d * l.div_ceil(64))
}

/// Words of d decoded values, floor(l/64)+1 each, since an entry of a row can be 2^l; 0 where d or l is out of range.
pub fn values_words(d: u64, l: u64) -> usize {
    sized(d, l, |d, l| d * (l / 64 + 1))
}

/// Bytes of a plan's bits, ceil(l*d/8); 0 where d or l is out of range.
pub fn bits_bytes(d: u64, l: u64) -> usize {
    sized(d, l, |d, l| (l * d).div_ceil(8))
}

/// Bytes of a trace, l*(d+1)*(d+2); 0 where d or l is out of range.
pub fn trace_bytes(d: u64, l: u64) -> usize {
    sized(d, l, |d, l| l * (d + 1) * (d + 2))
}

/// Bytes of the file that [`pack`](crate::pack) writes: start order, bits and trailer; 0 where d or l is out of range.
pub fn file_bytes(d: u64, l: u64) -> usize {
    sized(d, l, |d, l| d + (l * d).div_ceil(8) + TRAILER_BYTES as u64)
}
