//! Orders of columns, counted from 0 in the first d of eight places, and how a step changes them.
pub type Order = [u8; 8];

/// The order of a plan's start, whose columns are counted from 1.
pub fn from_start(start: &[u8]) -> Order {
    let mut order = Order::default();
    for (place, column) in order.iter_mut().zip(start) {
        *place = column - 1;
    }
    order
}

/// One addition of a step: its rows, counted from 0, the column that its difference gains, and its bit.
pub struct Addition {
    pub x: usize,
    pub y: usize,
    pub column: usize,
    pub bit: u32,
}

/// The order after a step with the bits in r, the first highest. Each addition is shown to `visit`, in row order.
#[inline(always)]
pub fn advance(order: &Order, d: usize, r: u32, mut visit: impl FnMut(Addition)) -> Order {
    let mut next = Order::default();
    let mut x = r.count_ones() as usize;
    // Places and columns are below 8, which the masks tell the compiler.
    for k in 0..d.min(8) {
        let bit = r >> (d - 1 - k) & 1;
        x -= bit as usize;
        let y = x + k + 1;
        let place = if bit == 1 { x } else { y - 1 };
        next[k] = order[place & 7];
        let column = usize::from(next[k]) & 7;
        visit(Addition { x, y, column, bit });
    }
    next
}
