//! Decode and check: the answer row of a plan's last matrix.
use super::bits::Reader;
use super::order::{advance, from_start, Order};
use super::refuse::{self, Plan, Refusal};

pub fn decode(d: u64, l: u64, start: &[u8], bits: &[u8], row: u64, values: &mut [u64]) -> u64 {
    refuse::answer(decode_judged(d, l, start, bits, row, values)).0
}

fn decode_judged(
    d: u64,
    l: u64,
    start: &[u8],
    bits: &[u8],
    row: u64,
    values: &mut [u64],
) -> Result<(), Refusal> {
    let plan = Plan::new(d, l, start, bits, row, |size| {
        values.len() == size.d * size.value_words()
    })?;
    answer_row(&plan, values);
    Ok(())
}

pub fn check(
    d: u64,
    l: u64,
    start: &[u8],
    bits: &[u8],
    row: u64,
    scalars: &[u64],
    yes: &mut u64,
) -> u64 {
    let (refusal, same) = refuse::answer(check_judged(d, l, start, bits, row, scalars));
    *yes = same.into();
    refusal
}

fn check_judged(
    d: u64,
    l: u64,
    start: &[u8],
    bits: &[u8],
    row: u64,
    scalars: &[u64],
) -> Result<bool, Refusal> {
    let plan = Plan::new(d, l, start, bits, row, |size| {
        scalars.len() == size.d * size.scalar_words()
    })?;
    refuse::scalars(plan.size, scalars)?;
    let mut room = [0; 80];
    let values = &mut room[..plan.size.d * plan.size.value_words()];
    answer_row(&plan, values);
    Ok(same(&plan, values, scalars))
}

/// Whether each value is its scalar; a word that only the value has is 0.
fn same(plan: &Plan, values: &[u64], scalars: &[u64]) -> bool {
    let words = plan.size.scalar_words();
    values
        .chunks_exact(plan.size.value_words())
        .zip(scalars.chunks_exact(words))
        .all(|(value, scalar)| value[..words] == *scalar && value[words..].iter().all(|&w| w == 0))
}

/// Writes the entries of the answer row.
fn answer_row(plan: &Plan, values: &mut [u64]) {
    let order = lower_entries(plan, values);
    let above = order[..plan.row - 1].iter().fold(0, |set, c| set | 1 << c);
    for (j, value) in values.chunks_exact_mut(plan.size.value_words()).enumerate() {
        // An entry is odd exactly where its column stands above the row.
        if value[0] & 1 != above >> j & 1 {
            increment(value);
        }
    }
}

/// Writes the lower of each column's two entries in the last matrix, and gives back the last order. A digit of it is 1 where the
/// column's sign is -1, so a bit of the plan says whether the next digit differs from the one before.
fn lower_entries(plan: &Plan, values: &mut [u64]) -> Order {
    let (d, l, words) = (plan.size.d, plan.size.l, plan.size.value_words());
    let mut reader = Reader::new(plan.bits);
    let mut order = from_start(plan.start);
    let mut digits = [0u64; 8];
    store(&digits, values, words, words - 1);
    for left in (0..l).rev() {
        order = advance(&order, d, reader.next(d), |a| {
            let held = &mut digits[a.column];
            *held = *held << 1 | (*held ^ u64::from(a.bit)) & 1;
        });
        if left % 64 == 0 {
            store(&digits, values, words, left / 64);
        }
    }
    order
}

/// One word of each value.
fn store(digits: &[u64; 8], values: &mut [u64], words: usize, word: usize) {
    for (value, digit) in values.chunks_exact_mut(words).zip(digits) {
        value[word] = *digit;
    }
}

/// One more, with the carry as far as it goes.
fn increment(words: &mut [u64]) {
    for word in words {
        *word = word.wrapping_add(1);
        if *word != 0 {
            return;
        }
    }
}
