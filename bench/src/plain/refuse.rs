//! What is refused, and a plan that was judged.
pub const OK: u64 = 0;
const DIM: u64 = 1;
const LENGTH: u64 = 2;
const SHAPE: u64 = 3;
const SCALAR: u64 = 4;
const ORDER: u64 = 5;
const ROW: u64 = 6;
const MODULUS: u64 = 7;
const ELEMENT: u64 = 8;

/// A refusal number other than 0.
pub type Refusal = u64;

fn judge(good: bool, refusal: Refusal) -> Result<(), Refusal> {
    if good {
        Ok(())
    } else {
        Err(refusal)
    }
}

/// The refusal number to answer, and the answer itself, which is the default where something is refused.
pub fn answer<T: Default>(result: Result<T, Refusal>) -> (u64, T) {
    match result {
        Ok(value) => (OK, value),
        Err(refusal) => (refusal, T::default()),
    }
}

/// d and l, each in its range.
#[derive(Clone, Copy)]
pub struct Size {
    pub d: usize,
    pub l: usize,
}

impl Size {
    pub fn new(d: u64, l: u64) -> Result<Size, Refusal> {
        judge((1..=8).contains(&d), DIM)?;
        judge((1..=576).contains(&l), LENGTH)?;
        Ok(Size {
            d: d as usize,
            l: l as usize,
        })
    }

    pub fn scalar_words(self) -> usize {
        self.l.div_ceil(64)
    }

    pub fn value_words(self) -> usize {
        self.l / 64 + 1
    }

    pub fn bit_bytes(self) -> usize {
        (self.l * self.d).div_ceil(8)
    }
}

pub fn shape(good: bool) -> Result<(), Refusal> {
    judge(good, SHAPE)
}

/// Every scalar is below 2^l: nothing stands in its top word above the l bits.
pub fn scalars(size: Size, scalars: &[u64]) -> Result<(), Refusal> {
    let words = size.scalar_words();
    let top_bit = (size.l - 1) % 64;
    let good = scalars
        .chunks_exact(words)
        .all(|scalar| scalar[words - 1] >> top_bit <= 1);
    judge(good, SCALAR)
}

/// The modulus is at most 2^63, and unless it is 0 every element is below it.
pub fn elements(m: u64, elements: &[u64]) -> Result<(), Refusal> {
    judge(m <= 1 << 63, MODULUS)?;
    judge(m == 0 || elements.iter().all(|&e| e < m), ELEMENT)
}

/// A plan that was judged: its start order is an arrangement and its row is a row.
pub struct Plan<'a> {
    pub size: Size,
    pub start: &'a [u8],
    pub bits: &'a [u8],
    pub row: usize,
}

impl<'a> Plan<'a> {
    /// `others` says whether the call's other buffers have their lengths.
    pub fn new(
        d: u64,
        l: u64,
        start: &'a [u8],
        bits: &'a [u8],
        row: u64,
        others: impl FnOnce(Size) -> bool,
    ) -> Result<Plan<'a>, Refusal> {
        let size = Size::new(d, l)?;
        shape(start.len() == size.d && bits.len() == size.bit_bytes() && others(size))?;
        judge(is_arrangement(start), ORDER)?;
        judge((1..=d + 1).contains(&row), ROW)?;
        Ok(Plan {
            size,
            start,
            bits,
            row: row as usize,
        })
    }
}

/// Each of 1..d stands once among d places.
fn is_arrangement(order: &[u8]) -> bool {
    let columns = 1..=order.len() as u8;
    let mut seen = 0u16;
    for column in order {
        if !columns.contains(column) {
            return false;
        }
        seen |= 1 << column;
    }
    seen.count_ones() as usize == order.len()
}
