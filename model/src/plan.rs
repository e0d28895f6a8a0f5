//! State matrices, their step, encoding, decoding and checking.
use crate::number::Number;
use crate::refusal as refuse;

pub type Row = Vec<Number>;
pub type Matrix = Vec<Row>;

/// A plan as it is lent.
pub struct Plan<'a> {
    pub d: u64,
    pub l: u64,
    pub start: &'a [u8],
    pub bits: &'a [u8],
    pub row: u64,
}

impl Plan<'_> {
    /// 1, 2, 3, 5, 6; `other` is number 3 of the call's own buffers.
    pub fn refusal(&self, other: u64) -> u64 {
        refuse::first(&[
            refuse::dimension(self.d),
            refuse::length(self.l),
            refuse::shape(self.start.len(), u128::from(self.d)),
            refuse::shape(self.bits.len(), refuse::bits_bytes(self.d, self.l)),
            other,
            refuse::order(self.d, self.start),
            refuse::row(self.d, self.row),
        ])
    }

    /// The bits of step s (from 0).
    pub fn step_bits(&self, s: usize) -> Vec<bool> {
        let d = self.d as usize;
        (s * d..(s + 1) * d)
            .map(|n| self.bits[n / 8] >> (7 - n % 8) & 1 == 1)
            .collect()
    }

    /// Row 1 is all 0; each row after it adds 1 in the column at the next place of the start order.
    pub fn start_matrix(&self) -> Matrix {
        let mut matrix = vec![vec![Number::default(); self.d as usize]];
        for &column in self.start {
            let mut next = matrix.last().expect("a row").clone();
            let j = usize::from(column) - 1;
            next[j] = next[j].one_more();
            matrix.push(next);
        }
        matrix
    }

    pub fn last_matrix(&self) -> Matrix {
        (0..self.l as usize).fold(self.start_matrix(), |matrix, s| {
            step(&matrix, &self.step_bits(s))
        })
    }

    /// What the plan decodes to.
    pub fn answer_row(&self) -> Row {
        self.last_matrix()[self.row as usize - 1].clone()
    }
}

/// The rows (from 0) of each operation of a step, in row order: the doubling, whose rows are one row, then the additions.
pub fn operations(bits: &[bool]) -> Vec<(usize, usize)> {
    let h = bits.iter().filter(|&&b| b).count();
    let (mut x, mut y) = (h, h);
    let mut rows = vec![(h, h)];
    for &b in bits {
        if b {
            x -= 1;
        } else {
            y += 1;
        }
        rows.push((x, y));
    }
    rows
}

pub fn sum(a: &Row, b: &Row) -> Row {
    a.iter().zip(b).map(|(a, b)| a.plus(b)).collect()
}

pub fn step(matrix: &Matrix, bits: &[bool]) -> Matrix {
    operations(bits)
        .into_iter()
        .map(|(x, y)| sum(&matrix[x], &matrix[y]))
        .collect()
}

/// d scalars of ceil(l/64) words each.
pub fn scalars(d: u64, l: u64, words: &[u64]) -> Vec<Number> {
    let k = refuse::scalar_words(l) as usize;
    (0..d as usize)
        .map(|j| Number::from_words(&words[j * k..(j + 1) * k]))
        .collect()
}

/// The order of the last matrix: columns with odd scalars rising, then those with even ones rising.
pub fn end_order(scalars: &[Number]) -> Vec<usize> {
    let columns = 0..scalars.len();
    let odd = columns.clone().filter(|&j| scalars[j].is_odd());
    odd.chain(columns.filter(|&j| !scalars[j].is_odd()))
        .collect()
}

/// The bits of step s (from 1) in the running order: bit s of a scalar XOR its bit s-1, counted from the top of l bits, bit 0 being 0.
pub fn deal(scalars: &[Number], l: usize, s: usize, order: &[usize]) -> Vec<bool> {
    let top = |j: usize, s: usize| s > 0 && scalars[j].bit(l - s);
    order.iter().map(|&j| top(j, s) ^ top(j, s - 1)).collect()
}

/// The order before a step: the columns with bit 1 in reverse, then those with bit 0.
pub fn order_before(order: &[usize], dealt: &[bool]) -> Vec<usize> {
    let with = |bit: bool| {
        let kept = order.iter().zip(dealt).filter(move |&(_, &b)| b == bit);
        kept.map(|(&j, _)| j)
    };
    let mut before: Vec<usize> = with(true).collect();
    before.reverse();
    before.extend(with(false));
    before
}

/// The first refusal of encode: 1, 2, 3, 4.
fn encode_refusal(d: u64, l: u64, words: &[u64], start: &[u8], bits: &[u8]) -> u64 {
    let early = refuse::first(&[
        refuse::dimension(d),
        refuse::length(l),
        refuse::shape(words.len(), u128::from(d) * refuse::scalar_words(l)),
        refuse::shape(start.len(), u128::from(d)),
        refuse::shape(bits.len(), refuse::bits_bytes(d, l)),
    ]);
    if early != refuse::OK {
        return early;
    }
    refuse::scalar(l, &scalars(d, l, words))
}

/// The refusal and the answer row; writes start order and bits.
pub fn encode(d: u64, l: u64, words: &[u64], start: &mut [u8], bits: &mut [u8]) -> (u64, u64) {
    let refusal = encode_refusal(d, l, words, start, bits);
    if refusal != refuse::OK {
        return (refusal, 0);
    }
    let scalars = scalars(d, l, words);
    let mut order = end_order(&scalars);
    bits.fill(0);
    for s in (1..=l as usize).rev() {
        let dealt = deal(&scalars, l as usize, s, &order);
        for (k, _) in dealt.iter().enumerate().filter(|&(_, &b)| b) {
            let n = (s - 1) * d as usize + k;
            bits[n / 8] |= 1 << (7 - n % 8);
        }
        order = order_before(&order, &dealt);
    }
    for (place, &j) in start.iter_mut().zip(&order) {
        *place = j as u8 + 1;
    }
    let odd = scalars.iter().filter(|k| k.is_odd()).count() as u64;
    (refuse::OK, 1 + odd)
}

pub fn decode(plan: &Plan, values: &mut [u64]) -> u64 {
    let k = refuse::value_words(plan.l);
    let refusal = plan.refusal(refuse::shape(values.len(), u128::from(plan.d) * k));
    if refusal == refuse::OK {
        for (j, entry) in plan.answer_row().iter().enumerate() {
            for i in 0..k as usize {
                values[j * k as usize + i] = entry.word(i);
            }
        }
    }
    refusal
}

pub fn check(plan: &Plan, words: &[u64]) -> (u64, bool) {
    let early = plan.refusal(refuse::shape(
        words.len(),
        u128::from(plan.d) * refuse::scalar_words(plan.l),
    ));
    if early != refuse::OK {
        return (early, false);
    }
    let scalars = scalars(plan.d, plan.l, words);
    let late = refuse::scalar(plan.l, &scalars);
    (late, late == refuse::OK && plan.answer_row() == scalars)
}
