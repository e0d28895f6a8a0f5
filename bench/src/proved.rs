//! The proved calls, as the bindings declare them, each with the signature that its plain form has.
#[allow(dead_code)]
#[path = "../../bindings/rust/src/raw.rs"]
mod c;

pub fn encode(
    d: u64,
    l: u64,
    scalars: &[u64],
    start: &mut [u8],
    bits: &mut [u8],
    row: &mut u64,
) -> u64 {
    // Safe: every pointer comes with the length of what it points to, and is not kept.
    unsafe {
        c::immarduzh_encode(
            d,
            l,
            scalars.as_ptr(),
            scalars.len(),
            start.as_mut_ptr(),
            start.len(),
            bits.as_mut_ptr(),
            bits.len(),
            row,
        )
    }
}

pub fn decode(d: u64, l: u64, start: &[u8], bits: &[u8], row: u64, values: &mut [u64]) -> u64 {
    // Safe: as in encode.
    unsafe {
        c::immarduzh_decode(
            d,
            l,
            start.as_ptr(),
            start.len(),
            bits.as_ptr(),
            bits.len(),
            row,
            values.as_mut_ptr(),
            values.len(),
        )
    }
}

pub fn check(
    d: u64,
    l: u64,
    start: &[u8],
    bits: &[u8],
    row: u64,
    scalars: &[u64],
    yes: &mut u64,
) -> u64 {
    // Safe: as in encode.
    unsafe {
        c::immarduzh_check(
            d,
            l,
            start.as_ptr(),
            start.len(),
            bits.as_ptr(),
            bits.len(),
            row,
            scalars.as_ptr(),
            scalars.len(),
            yes,
        )
    }
}

#[allow(clippy::too_many_arguments)]
pub fn trace(
    d: u64,
    l: u64,
    start: &[u8],
    bits: &[u8],
    row: u64,
    out: &mut [u8],
    doublings: &mut u64,
    additions: &mut u64,
) -> u64 {
    // Safe: as in encode.
    unsafe {
        c::immarduzh_trace(
            d,
            l,
            start.as_ptr(),
            start.len(),
            bits.as_ptr(),
            bits.len(),
            row,
            out.as_mut_ptr(),
            out.len(),
            doublings,
            additions,
        )
    }
}

#[allow(clippy::too_many_arguments)]
pub fn plain_run(
    d: u64,
    l: u64,
    start: &[u8],
    bits: &[u8],
    row: u64,
    m: u64,
    elements: &[u64],
    registers: &mut [u64],
    answer: &mut u64,
    doublings: &mut u64,
    additions: &mut u64,
) -> u64 {
    // Safe: as in encode.
    unsafe {
        c::immarduzh_plain_run(
            d,
            l,
            start.as_ptr(),
            start.len(),
            bits.as_ptr(),
            bits.len(),
            row,
            m,
            elements.as_ptr(),
            elements.len(),
            registers.as_mut_ptr(),
            registers.len(),
            answer,
            doublings,
            additions,
        )
    }
}

#[allow(clippy::too_many_arguments)]
pub fn difference_run(
    d: u64,
    l: u64,
    start: &[u8],
    bits: &[u8],
    row: u64,
    m: u64,
    elements: &[u64],
    registers: &mut [u64],
    answer: &mut u64,
    doublings: &mut u64,
    additions: &mut u64,
) -> u64 {
    // Safe: as in encode.
    unsafe {
        c::immarduzh_difference_run(
            d,
            l,
            start.as_ptr(),
            start.len(),
            bits.as_ptr(),
            bits.len(),
            row,
            m,
            elements.as_ptr(),
            elements.len(),
            registers.as_mut_ptr(),
            registers.len(),
            answer,
            doublings,
            additions,
        )
    }
}
