//! The bits of a plan: d at a time, the first bit of a byte highest.

/// Reads from the first step on.
pub struct Reader<'a> {
    bytes: std::slice::Iter<'a, u8>,
    held: u32,
    count: usize,
}

impl<'a> Reader<'a> {
    pub fn new(bytes: &'a [u8]) -> Self {
        Reader {
            bytes: bytes.iter(),
            held: 0,
            count: 0,
        }
    }

    /// The next d bits, at most 8, as one number, the first highest.
    pub fn next(&mut self, d: usize) -> u32 {
        if self.count < d {
            self.held = self.held << 8 | u32::from(*self.bytes.next().unwrap_or(&0));
            self.count += 8;
        }
        self.count -= d;
        self.held >> self.count & ((1 << d) - 1)
    }
}

/// Writes from the last step back to the first.
pub struct BackWriter<'a> {
    bytes: std::iter::Rev<std::slice::IterMut<'a, u8>>,
    held: u32,
    count: usize,
}

impl<'a> BackWriter<'a> {
    /// For `count` bits; the bits past them in the last byte are 0.
    pub fn new(bytes: &'a mut [u8], count: usize) -> Self {
        let past = bytes.len() * 8 - count;
        BackWriter {
            bytes: bytes.iter_mut().rev(),
            held: 0,
            count: past,
        }
    }

    /// Puts d bits, at most 8, before those that were put.
    pub fn put(&mut self, d: usize, r: u32) {
        self.held |= r << self.count;
        self.count += d;
        if self.count >= 8 {
            if let Some(byte) = self.bytes.next() {
                *byte = self.held as u8;
            }
            self.held >>= 8;
            self.count -= 8;
        }
    }
}
