//! A paused walk and its single step.
use crate::refusal as refuse;

#[derive(Clone)]
pub struct Walk {
    pub d: u64,
    pub order: [u8; 8],
    pub signs: [i8; 8],
}

impl Walk {
    /// 1, 5, 3.
    fn refusal(&self, number: u64) -> u64 {
        let dimension = refuse::dimension(self.d);
        if dimension != refuse::OK {
            return dimension;
        }
        let d = self.d as usize;
        let units = self.signs[..d].iter().all(|&s| s == 1 || s == -1);
        let zeros =
            self.order[d..].iter().all(|&j| j == 0) && self.signs[d..].iter().all(|&s| s == 0);
        let order = if units && zeros {
            refuse::order(self.d, &self.order[..d])
        } else {
            5
        };
        let shape = if u128::from(number) < 1 << d {
            refuse::OK
        } else {
            3
        };
        refuse::first(&[order, shape])
    }

    /// The refusal and the next state, or this one where it refuses. The highest of the d bits is the first.
    pub fn step(&self, number: u64) -> (u64, Walk) {
        let refusal = self.refusal(number);
        if refusal != refuse::OK {
            return (refusal, self.clone());
        }
        let d = self.d as usize;
        let bits: Vec<bool> = (0..d).map(|k| number >> (d - 1 - k) & 1 == 1).collect();
        let mut next = self.clone();
        // Rows x and y of the rules, counted from 1.
        let (mut x, mut y) = (
            number.count_ones() as usize + 1,
            number.count_ones() as usize + 1,
        );
        for (k, &b) in bits.iter().enumerate() {
            if b {
                x -= 1;
            } else {
                y += 1;
            }
            let place = if b { x } else { y - 1 };
            let column = self.order[place - 1];
            next.order[k] = column;
            if b {
                next.signs[usize::from(column) - 1] *= -1;
            }
        }
        (refuse::OK, next)
    }
}
