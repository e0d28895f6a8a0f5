//! Trace: every operation of a plan, with the difference of its rows.
use super::bits::Reader;
use super::order::{advance, from_start, Order};
use super::refuse::{self, Plan, Refusal};

#[allow(clippy::too_many_arguments)]
pub fn trace(
    d: u64,
    l: u64,
    start: &[u8],
    bits: &[u8],
    row: u64,
    out: &mut [u8],
    doublings: &mut u64,
    additions: &mut u64,
) -> u64 {
    let (refusal, counts) = refuse::answer(trace_judged(d, l, start, bits, row, out));
    (*doublings, *additions) = counts;
    refusal
}

fn trace_judged(
    d: u64,
    l: u64,
    start: &[u8],
    bits: &[u8],
    row: u64,
    out: &mut [u8],
) -> Result<(u64, u64), Refusal> {
    let plan = Plan::new(d, l, start, bits, row, |size| {
        out.len() == size.l * (size.d + 1) * (size.d + 2)
    })?;
    let d = plan.size.d;
    let mut reader = Reader::new(plan.bits);
    let mut order = from_start(plan.start);
    let mut signs = [1i8; 8];
    for block in out.chunks_exact_mut((d + 1) * (d + 2)) {
        order = write_block(d, &order, &mut signs, reader.next(d), block);
    }
    Ok((plan.size.l as u64, (plan.size.l * d) as u64))
}

/// Writes the doubling and the d additions of a step, turns the signs, and gives back the order after it.
fn write_block(d: usize, order: &Order, signs: &mut [i8; 8], r: u32, block: &mut [u8]) -> Order {
    let mut entries = block.chunks_exact_mut(d + 2);
    let mut vector = [0i8; 8];
    let h = r.count_ones() as usize;
    write_entry(entries.next(), h, h, &vector);
    advance(order, d, r, |a| {
        vector[a.column] = signs[a.column];
        write_entry(entries.next(), a.x, a.y, &vector);
        if a.bit == 1 {
            signs[a.column] = -signs[a.column];
        }
    })
}

/// Rows x and y, counted from 1, and as many coefficients as the entry has room for.
fn write_entry(entry: Option<&mut [u8]>, x: usize, y: usize, vector: &[i8; 8]) {
    if let Some([at_x, at_y, difference @ ..]) = entry {
        *at_x = x as u8 + 1;
        *at_y = y as u8 + 1;
        for (byte, coefficient) in difference.iter_mut().zip(vector) {
            *byte = *coefficient as u8;
        }
    }
}
