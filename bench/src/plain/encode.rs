//! Encode: from scalars to a start order, bits and an answer row.
use super::bits::BackWriter;
use super::order::Order;
use super::refuse::{self, Refusal, Size};

pub fn encode(
    d: u64,
    l: u64,
    scalars: &[u64],
    start: &mut [u8],
    bits: &mut [u8],
    row: &mut u64,
) -> u64 {
    let (refusal, answer) = refuse::answer(encode_judged(d, l, scalars, start, bits));
    *row = answer;
    refusal
}

fn encode_judged(
    d: u64,
    l: u64,
    scalars: &[u64],
    start: &mut [u8],
    bits: &mut [u8],
) -> Result<u64, Refusal> {
    let size = Size::new(d, l)?;
    refuse::shape(
        scalars.len() == size.d * size.scalar_words()
            && start.len() == size.d
            && bits.len() == size.bit_bytes(),
    )?;
    refuse::scalars(size, scalars)?;
    let (end, odd) = house_order(size, scalars);
    let order = deal(size, scalars, end, bits);
    for (place, column) in start.iter_mut().zip(order) {
        *place = column + 1;
    }
    Ok(odd as u64 + 1)
}

/// The columns with odd scalars rising, then those with even ones, and how many are odd.
fn house_order(size: Size, scalars: &[u64]) -> (Order, usize) {
    let words = size.scalar_words();
    let is_odd = |column: &u8| scalars[usize::from(*column) * words] & 1 == 1;
    let columns = 0..size.d as u8;
    let odd = columns.clone().filter(is_odd);
    let even = columns.filter(|column| !is_odd(column));
    let mut order = Order::default();
    for (place, column) in order.iter_mut().zip(odd.clone().chain(even)) {
        *place = column;
    }
    (order, odd.count())
}

/// Writes the bits from the last step to the first, and gives back the start order.
fn deal(size: Size, scalars: &[u64], end: Order, bits: &mut [u8]) -> Order {
    let mut writer = BackWriter::new(bits, size.l * size.d);
    let mut order = end;
    for word in 0..size.scalar_words() {
        let turns = turns(size, scalars, word);
        for i in 0..64.min(size.l - word * 64) {
            let (before, r) = step_back(&order, size.d, &turns, i);
            writer.put(size.d, r);
            order = before;
        }
    }
    order
}

/// For each column a word of its scalar, each bit XOR the next higher one.
fn turns(size: Size, scalars: &[u64], word: usize) -> [u64; 8] {
    let mut turns = [0; 8];
    for (turn, scalar) in turns
        .iter_mut()
        .zip(scalars.chunks_exact(size.scalar_words()))
    {
        let above = scalar.get(word + 1).copied().unwrap_or(0);
        *turn = scalar[word] ^ (scalar[word] >> 1 | above << 63);
    }
    turns
}

/// The order before a step, and the step's bits as one number, the first highest. The places are walked from the last: a column with
/// bit 1 goes to the front, which reverses these, and one with bit 0 to the back.
fn step_back(order: &Order, d: usize, turns: &[u64; 8], i: usize) -> (Order, u32) {
    let mut before = Order::default();
    let (mut front, mut back) = (0, d);
    let mut r = 0;
    for k in (0..d).rev() {
        let bit = turns[usize::from(order[k])] >> i & 1;
        r |= (bit as u32) << (d - 1 - k);
        // Of the two places the one that is not its own is written again later.
        before[front] = order[k];
        before[back - 1] = order[k];
        front += bit as usize;
        back -= 1 - bit as usize;
    }
    (before, r)
}
