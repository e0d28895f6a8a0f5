//! The two runs: a plan evaluated over words by a modulus.
use super::bits::Reader;
use super::order::{advance, from_start};
use super::refuse::{self, Plan, Refusal};
use std::hint::select_unpredictable;

type Registers = [u64; 9];

/// A sum by the modulus. No sum of elements wraps but by modulus 0, which stands for 2^64 and takes nothing away. Whether the modulus is
/// taken away cannot be foreseen, so the compiler is asked for no branch.
fn add(m: u64, a: u64, b: u64) -> u64 {
    let sum = a.wrapping_add(b);
    select_unpredictable(sum < m, sum, sum.wrapping_sub(m))
}

/// An element times -1, 0 or 1.
fn times(m: u64, coefficient: i8, e: u64) -> u64 {
    let negative = select_unpredictable(e == 0, 0, m.wrapping_sub(e));
    let turned = select_unpredictable(coefficient < 0, negative, e);
    select_unpredictable(coefficient == 0, 0, turned)
}

#[allow(clippy::too_many_arguments)]
pub fn plain_run(
    d: u64,
    l: u64,
    start: &[u8],
    bits: &[u8],
    row: u64,
    m: u64,
    elements: &[u64],
    registers: &mut [u64],
    answer: &mut u64,
    doublings: &mut u64,
    additions: &mut u64,
) -> u64 {
    let ran = judge(d, l, start, bits, row, m, elements, registers)
        .map(|plan| finish(&plan, plain_steps(&plan, m, elements), registers));
    let (refusal, ran) = refuse::answer(ran);
    (*answer, *doublings, *additions) = ran;
    refusal
}

#[allow(clippy::too_many_arguments)]
pub fn difference_run(
    d: u64,
    l: u64,
    start: &[u8],
    bits: &[u8],
    row: u64,
    m: u64,
    elements: &[u64],
    registers: &mut [u64],
    answer: &mut u64,
    doublings: &mut u64,
    additions: &mut u64,
) -> u64 {
    let ran = judge(d, l, start, bits, row, m, elements, registers)
        .map(|plan| finish(&plan, difference_steps(&plan, m, elements), registers));
    let (refusal, ran) = refuse::answer(ran);
    (*answer, *doublings, *additions) = ran;
    refusal
}

#[allow(clippy::too_many_arguments)]
fn judge<'a>(
    d: u64,
    l: u64,
    start: &'a [u8],
    bits: &'a [u8],
    row: u64,
    m: u64,
    elements: &[u64],
    registers: &[u64],
) -> Result<Plan<'a>, Refusal> {
    let plan = Plan::new(d, l, start, bits, row, |size| {
        elements.len() == size.d && registers.len() == size.d + 1
    })?;
    refuse::elements(m, elements)?;
    Ok(plan)
}

/// Leaves the end registers, and answers that of the answer row and the counts.
fn finish(plan: &Plan, end: Registers, registers: &mut [u64]) -> (u64, u64, u64) {
    registers.copy_from_slice(&end[..registers.len()]);
    let (d, l) = (plan.size.d as u64, plan.size.l as u64);
    (end[plan.row - 1], l, l * d)
}

/// Register 0 is 0; each next one adds the element of the column at its place of the start order.
fn start_registers(plan: &Plan, m: u64, elements: &[u64]) -> Registers {
    let mut registers = Registers::default();
    for (k, column) in plan.start.iter().enumerate() {
        registers[k + 1] = add(m, registers[k], elements[usize::from(*column) - 1]);
    }
    registers
}

fn plain_steps(plan: &Plan, m: u64, elements: &[u64]) -> Registers {
    let mut reader = Reader::new(plan.bits);
    let mut registers = start_registers(plan, m, elements);
    let mut spare = Registers::default();
    let (mut old, mut new) = (&mut registers, &mut spare);
    for _ in 0..plan.size.l {
        plain_step(m, plan.size.d, reader.next(plan.size.d), old, new);
        std::mem::swap(&mut old, &mut new);
    }
    *old
}

fn plain_step(m: u64, d: usize, r: u32, old: &Registers, new: &mut Registers) {
    let mut x = r.count_ones() as usize;
    new[0] = add(m, old[x], old[x]);
    for k in 1..=d {
        x -= (r >> (d - k) & 1) as usize;
        new[k] = add(m, old[x], old[x + k]);
    }
}

/// The addition of the difference run: twice register x, and the elements' combination by the vector.
fn difference_add(x: u64, vector: &[i8; 8], elements: &[u64], m: u64) -> u64 {
    vector
        .iter()
        .zip(elements)
        .fold(add(m, x, x), |sum, (&c, &e)| add(m, sum, times(m, c, e)))
}

fn difference_steps(plan: &Plan, m: u64, elements: &[u64]) -> Registers {
    let d = plan.size.d;
    let mut reader = Reader::new(plan.bits);
    let mut order = from_start(plan.start);
    let mut signs = [1i8; 8];
    let mut registers = start_registers(plan, m, elements);
    let mut spare = Registers::default();
    let (mut old, mut new) = (&mut registers, &mut spare);
    for _ in 0..plan.size.l {
        let r = reader.next(d);
        let mut vector = [0i8; 8];
        let h = r.count_ones() as usize;
        new[0] = add(m, old[h], old[h]);
        order = advance(&order, d, r, |a| {
            let sign = &mut signs[a.column];
            vector[a.column] = *sign;
            new[a.y - a.x] = difference_add(old[a.x], &vector, elements, m);
            if a.bit == 1 {
                *sign = -*sign;
            }
        });
        std::mem::swap(&mut old, &mut new);
    }
    *old
}
