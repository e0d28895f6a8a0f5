//! The two runs, each by its own rule.
use crate::plan::{operations, step, Plan, Row};
use crate::refusal as refuse;
use crate::trace::difference;

pub struct Ran {
    pub refusal: u64,
    pub answer: u64,
    pub doublings: u64,
    pub additions: u64,
}

/// The plain run: each row of the last matrix as a sum of its entries times the elements, by the modulus.
fn plain(plan: &Plan, modulus: u128, elements: &[u64]) -> Vec<u128> {
    let combination = |row: &Row| {
        row.iter().zip(elements).fold(0, |sum, (entry, &e)| {
            (sum + entry.rest(modulus) * u128::from(e) % modulus) % modulus
        })
    };
    plan.last_matrix().iter().map(combination).collect()
}

/// Twice register x, and the elements' combination by row y minus row x.
fn by_difference(register: u128, x: &Row, y: &Row, modulus: u128, elements: &[u64]) -> u128 {
    let twice = register * 2 % modulus;
    let rows = x.iter().zip(y);
    rows.zip(elements)
        .fold(twice, |sum, ((a, b), &e)| match difference(a, b) {
            0 => sum,
            1 => (sum + u128::from(e)) % modulus,
            _ => (sum + modulus - u128::from(e)) % modulus,
        })
}

/// The registers of the start matrix: 0, then one element more with each place of the start order.
fn start_registers(plan: &Plan, modulus: u128, elements: &[u64]) -> Vec<u128> {
    let mut registers = vec![0];
    for &column in plan.start {
        let last = registers[registers.len() - 1];
        registers.push((last + u128::from(elements[usize::from(column) - 1])) % modulus);
    }
    registers
}

/// The difference run: a new register is twice register x, and for an addition the elements' combination by the difference vector of
/// the matrix before the step.
fn by_differences(plan: &Plan, modulus: u128, elements: &[u64]) -> Vec<u128> {
    let mut matrix = plan.start_matrix();
    let mut registers = start_registers(plan, modulus, elements);
    for s in 0..plan.l as usize {
        let bits = plan.step_bits(s);
        let made = operations(&bits)
            .into_iter()
            .map(|(x, y)| by_difference(registers[x], &matrix[x], &matrix[y], modulus, elements));
        registers = made.collect();
        matrix = step(&matrix, &bits);
    }
    registers
}

/// The doublings and the additions of all steps.
fn counts(plan: &Plan) -> (u64, u64) {
    let all: Vec<(usize, usize)> = (0..plan.l as usize)
        .flat_map(|s| operations(&plan.step_bits(s)))
        .collect();
    let doublings = all.iter().filter(|(x, y)| x == y).count();
    (doublings as u64, (all.len() - doublings) as u64)
}

pub fn run(plan: &Plan, m: u64, elements: &[u64], registers: &mut [u64], differences: bool) -> Ran {
    let buffers = refuse::first(&[
        refuse::shape(elements.len(), u128::from(plan.d)),
        refuse::shape(registers.len(), u128::from(plan.d) + 1),
    ]);
    let refusal = refuse::first(&[
        plan.refusal(buffers),
        refuse::modulus(m),
        refuse::element(m, elements),
    ]);
    if refusal != refuse::OK {
        return Ran {
            refusal,
            answer: 0,
            doublings: 0,
            additions: 0,
        };
    }
    let modulus = if m == 0 { 1 << 64 } else { u128::from(m) };
    let end = if differences {
        by_differences(plan, modulus, elements)
    } else {
        plain(plan, modulus, elements)
    };
    for (register, value) in registers.iter_mut().zip(end) {
        *register = value as u64;
    }
    let (doublings, additions) = counts(plan);
    Ran {
        refusal,
        answer: registers[plan.row as usize - 1],
        doublings,
        additions,
    }
}
