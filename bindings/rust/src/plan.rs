//! The calls that make and read a plan.
use crate::raw;
use crate::Refusal;

/// A plan as it is lent to a call: any numbers, any bytes.
#[derive(Clone, Copy, Debug, PartialEq, Eq, Hash)]
pub struct Plan<'a> {
    /// The dimension.
    pub d: u64,
    /// The length.
    pub l: u64,
    /// The start order, d bytes.
    pub start: &'a [u8],
    /// The bits, ceil(l*d/8) bytes; those past l*d are not looked at.
    pub bits: &'a [u8],
    /// The answer row.
    pub row: u64,
}

/// The operations that a trace has, or that a run makes.
#[derive(Clone, Copy, Debug, PartialEq, Eq, Hash)]
pub struct Counts {
    /// Doublings: one for each step.
    pub doublings: u64,
    /// Additions: d for each step.
    pub additions: u64,
}

/// What a run answers.
#[derive(Clone, Copy, Debug, PartialEq, Eq, Hash)]
pub struct Run {
    /// The register of the answer row.
    pub answer: u64,
    /// The counts of the trace.
    pub counts: Counts,
}

/// Writes the start order and the bits of the scalars' plan, whose bits are dealt as the header says and whose answer row is the scalars,
/// and answers the row. Refuses 1, 2, 3, 4.
pub fn encode(
    d: u64,
    l: u64,
    scalars: &[u64],
    start: &mut [u8],
    bits: &mut [u8],
) -> Result<u64, Refusal> {
    let mut row = 0;
    // SAFETY: each slice is as many elements as its length says; those that are written, and the answer, are the call's alone.
    let number = unsafe {
        raw::immarduzh_encode(
            d,
            l,
            scalars.as_ptr(),
            scalars.len(),
            start.as_mut_ptr(),
            start.len(),
            bits.as_mut_ptr(),
            bits.len(),
            &mut row,
        )
    };
    Refusal::unless(number, row)
}

/// Writes the answer row of the plan's last matrix. Refuses 1, 2, 3, 5, 6.
pub fn decode(plan: Plan, values: &mut [u64]) -> Result<(), Refusal> {
    // SAFETY: as in `encode`.
    let number = unsafe {
        raw::immarduzh_decode(
            plan.d,
            plan.l,
            plan.start.as_ptr(),
            plan.start.len(),
            plan.bits.as_ptr(),
            plan.bits.len(),
            plan.row,
            values.as_mut_ptr(),
            values.len(),
        )
    };
    Refusal::unless(number, ())
}

/// Whether that row equals the scalars; an entry of 2^l equals none. Refuses 1, 2, 3, 5, 6, 4.
pub fn check(plan: Plan, scalars: &[u64]) -> Result<bool, Refusal> {
    let mut yes = 0;
    // SAFETY: as in `encode`.
    let number = unsafe {
        raw::immarduzh_check(
            plan.d,
            plan.l,
            plan.start.as_ptr(),
            plan.start.len(),
            plan.bits.as_ptr(),
            plan.bits.len(),
            plan.row,
            scalars.as_ptr(),
            scalars.len(),
            &mut yes,
        )
    };
    Refusal::unless(number, yes == 1)
}

/// Writes for each step d+1 entries in row order, each x, y and then d signed bytes: row y minus row x of the matrix before the step. Refuses 1,
/// 2, 3, 5, 6.
pub fn trace(plan: Plan, out: &mut [u8]) -> Result<Counts, Refusal> {
    let (mut doublings, mut additions) = (0, 0);
    // SAFETY: as in `encode`.
    let number = unsafe {
        raw::immarduzh_trace(
            plan.d,
            plan.l,
            plan.start.as_ptr(),
            plan.start.len(),
            plan.bits.as_ptr(),
            plan.bits.len(),
            plan.row,
            out.as_mut_ptr(),
            out.len(),
            &mut doublings,
            &mut additions,
        )
    };
    Refusal::unless(
        number,
        Counts {
            doublings,
            additions,
        },
    )
}

/// Leaves the d+1 end registers, each the sum of its row's entries times the elements by the modulus m, where 0 stands for 2^64. Refuses 1,
/// 2, 3, 5, 6, 7, 8.
pub fn plain_run(
    plan: Plan,
    m: u64,
    elements: &[u64],
    registers: &mut [u64],
) -> Result<Run, Refusal> {
    run(raw::immarduzh_plain_run, plan, m, elements, registers)
}

/// The same registers and answers as [`plain_run`], each addition made from register x and the trace's difference vector, with no use of
/// register y.
pub fn difference_run(
    plan: Plan,
    m: u64,
    elements: &[u64],
    registers: &mut [u64],
) -> Result<Run, Refusal> {
    run(raw::immarduzh_difference_run, plan, m, elements, registers)
}

/// What the two runs take.
type RawRun = unsafe extern "C" fn(
    u64,
    u64,
    *const u8,
    usize,
    *const u8,
    usize,
    u64,
    u64,
    *const u64,
    usize,
    *mut u64,
    usize,
    *mut u64,
    *mut u64,
    *mut u64,
) -> u64;

fn run(
    raw: RawRun,
    plan: Plan,
    m: u64,
    elements: &[u64],
    registers: &mut [u64],
) -> Result<Run, Refusal> {
    let (mut answer, mut doublings, mut additions) = (0, 0, 0);
    // SAFETY: `raw` is one of the two runs; else as in `encode`.
    let number = unsafe {
        raw(
            plan.d,
            plan.l,
            plan.start.as_ptr(),
            plan.start.len(),
            plan.bits.as_ptr(),
            plan.bits.len(),
            plan.row,
            m,
            elements.as_ptr(),
            elements.len(),
            registers.as_mut_ptr(),
            registers.len(),
            &mut answer,
            &mut doublings,
            &mut additions,
        )
    };
    let counts = Counts {
        doublings,
        additions,
    };
    Refusal::unless(number, Run { answer, counts })
}

/// Writes the plan file: start order, bits and a trailer of 12 bytes. Refuses 1, 2, 3, 5, 6.
pub fn pack(plan: Plan, file: &mut [u8]) -> Result<(), Refusal> {
    // SAFETY: as in `encode`.
    let number = unsafe {
        raw::immarduzh_pack(
            plan.d,
            plan.l,
            plan.start.as_ptr(),
            plan.start.len(),
            plan.bits.as_ptr(),
            plan.bits.len(),
            plan.row,
            file.as_mut_ptr(),
            file.len(),
        )
    };
    Refusal::unless(number, ())
}
