//! The trace: for each operation the two rows and their difference, from the matrix before the step.
use crate::number::Number;
use crate::plan::{operations, step, Matrix, Plan};
use crate::refusal as refuse;

/// Entry b minus entry a of two rows of a state matrix, as a byte in two's complement.
pub fn difference(a: &Number, b: &Number) -> u8 {
    if a == b {
        0
    } else if a.one_more() == *b {
        1
    } else {
        assert_eq!(b.one_more(), *a, "neighbouring numbers");
        255
    }
}

/// An entry: rows x and y, counted from 1, and their difference.
fn entry(matrix: &Matrix, x: usize, y: usize) -> Vec<u8> {
    let rows = matrix[x].iter().zip(&matrix[y]);
    let vector = rows.map(|(a, b)| difference(a, b));
    [x as u8 + 1, y as u8 + 1]
        .into_iter()
        .chain(vector)
        .collect()
}

/// The bytes of a trace: l*(d+1)*(d+2).
fn trace_bytes(d: u64, l: u64) -> u128 {
    let d = u128::from(d);
    u128::from(l)
        .checked_mul(d + 1)
        .and_then(|n| n.checked_mul(d + 2))
        .unwrap_or(u128::MAX)
}

/// The refusal, the doublings and the additions; writes every entry.
pub fn trace(plan: &Plan, out: &mut [u8]) -> (u64, u64, u64) {
    let refusal = plan.refusal(refuse::shape(out.len(), trace_bytes(plan.d, plan.l)));
    if refusal != refuse::OK {
        return (refusal, 0, 0);
    }
    let mut entries = Vec::new();
    let mut matrix = plan.start_matrix();
    for s in 0..plan.l as usize {
        let bits = plan.step_bits(s);
        let made = operations(&bits).into_iter();
        entries.extend(made.map(|(x, y)| entry(&matrix, x, y)));
        matrix = step(&matrix, &bits);
    }
    out.copy_from_slice(&entries.concat());
    let doublings = entries.iter().filter(|e| e[0] == e[1]).count();
    let additions = entries.len() - doublings;
    (refuse::OK, doublings as u64, additions as u64)
}
