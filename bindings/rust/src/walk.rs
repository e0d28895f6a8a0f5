//! The paused walk.
use crate::raw;
use crate::Refusal;

/// A paused walk: a value that its owner may copy and step twice. It begins with the start order and every sign 1.
#[derive(Clone, Copy, Debug, PartialEq, Eq, Hash)]
pub struct Walk {
    /// The dimension.
    pub d: u64,
    /// The order of the columns; places past d are 0.
    pub order: [u8; 8],
    /// `signs[j-1]` is the sign of column j, 1 or -1; places past d are 0.
    pub signs: [i8; 8],
}

impl Walk {
    /// The walk after one step, whose bits are one number, r1 the highest of its d bits. Refuses 1, 5, 3.
    pub fn step(self, bits: u64) -> Result<Walk, Refusal> {
        let mut next = self;
        // SAFETY: order and signs are eight bytes each, apart from one another, and the call's alone.
        let number = unsafe { raw::immarduzh_step(self.d, &mut next.order, &mut next.signs, bits) };
        Refusal::unless(number, next)
    }
}
