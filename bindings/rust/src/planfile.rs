//! The calls on a plan file: any bytes.
use crate::raw;
use crate::Refusal;

/// The numbers of the plan that a file ends with.
#[derive(Clone, Copy, Debug, PartialEq, Eq, Hash)]
pub struct Unpacked {
    /// The dimension.
    pub d: u64,
    /// The length.
    pub l: u64,
    /// The answer row.
    pub row: u64,
}

/// The numbers of the plan that a file ends with; anything may stand before its body. Refuses 9 (short, mark), 1, 2, 9 (distance), 5, 6.
pub fn unpack(file: &[u8]) -> Result<Unpacked, Refusal> {
    let (mut d, mut l, mut row) = (0, 0, 0);
    // SAFETY: a slice is as many elements as its length says, and the answers are three places apart from it.
    let number =
        unsafe { raw::immarduzh_unpack(file.as_ptr(), file.len(), &mut d, &mut l, &mut row) };
    Refusal::unless(number, Unpacked { d, l, row })
}

/// The part of the file that is the body: d bytes of start order, then the bits. Refuses exactly as [`unpack`].
pub fn body(file: &[u8]) -> Result<&[u8], Refusal> {
    let (mut offset, mut length) = (0, 0);
    // SAFETY: as in `unpack`.
    let number =
        unsafe { raw::immarduzh_body(file.as_ptr(), file.len(), &mut offset, &mut length) };
    Refusal::unless(number, part(file, offset as usize, length as usize))
}

/// Writes the lines of the plan that a file ends with into a buffer of exactly [`TEXT_BYTES`](crate::TEXT_BYTES) bytes and hands back the
/// part of it that is the text; the bytes past it are as they came. Refuses 10 (more than [`LISTED_BYTES`](crate::LISTED_BYTES) bytes of
/// file), 3, and then as [`unpack`].
pub fn listing<'t>(file: &[u8], text: &'t mut [u8]) -> Result<&'t [u8], Refusal> {
    let mut length = 0;
    // SAFETY: as in `unpack`; the text is the call's alone.
    let number = unsafe {
        raw::immarduzh_listing(
            file.as_ptr(),
            file.len(),
            text.as_mut_ptr(),
            text.len(),
            &mut length,
        )
    };
    Refusal::unless(number, part(text, 0, length as usize))
}

/// A part of a slice. The library's are always inside; the empty part stands here for any that is not, so that nothing panics.
fn part(bytes: &[u8], offset: usize, length: usize) -> &[u8] {
    let rest = bytes.get(offset..).unwrap_or_default();
    rest.get(..length).unwrap_or_default()
}
