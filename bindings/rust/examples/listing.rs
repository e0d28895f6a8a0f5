//! From two scalars to a plan file and its listing: the plan of 73 and 59, of 7 bits each.
use immarduzh::{bits_bytes, encode, file_bytes, listing, pack, Plan, Refusal, TEXT_BYTES};
use std::io::Write;

fn main() -> Result<(), Box<dyn std::error::Error>> {
    let file = plan_file(7, [73, 59])?;
    let mut buffer = [0; TEXT_BYTES];
    let text = listing(&file, &mut buffer)?;
    std::io::stdout().write_all(text)?;
    Ok(())
}

/// The plan file of two scalars of at most 64 bits: one word each.
fn plan_file(l: u64, scalars: [u64; 2]) -> Result<Vec<u8>, Refusal> {
    let d = 2;
    let mut start = [0; 2];
    let mut bits = vec![0; bits_bytes(d, l)];
    let row = encode(d, l, &scalars, &mut start, &mut bits)?;
    let plan = Plan {
        d,
        l,
        start: &start,
        bits: &bits,
        row,
    };
    let mut file = vec![0; file_bytes(d, l)];
    pack(plan, &mut file)?;
    Ok(file)
}
