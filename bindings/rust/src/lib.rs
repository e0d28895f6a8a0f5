//! Plans for the Montgomery ladder in many dimensions: safe calls over the proved library.
//!
//! A plan is a dimension d (1 to 8), a length l (1 to 576), a start order, l*d bits and an answer row. Each call takes any numbers and slices of
//! any length, finishes, and answers `Ok`, or the first refusal of its list that applies. On refusal a slice that was lent to be written is as
//! it came. What the calls answer and write is proved of the library's code; these bindings hand slices over and name the refusals,
//! and are tested. The rules for numbers, bits and words are in the header `include/immarduzh.h`.
#![deny(missing_docs)]

mod lengths;
mod plan;
mod planfile;
mod raw;
mod refusal;
mod walk;

pub use lengths::{bits_bytes, file_bytes, scalars_words, trace_bytes, values_words};
pub use lengths::{LARGEST_D, LARGEST_L, LISTED_BYTES, TEXT_BYTES, TRAILER_BYTES};
pub use plan::{check, decode, difference_run, encode, pack, plain_run, trace};
pub use plan::{Counts, Plan, Run};
pub use planfile::{body, listing, unpack, Unpacked};
pub use refusal::Refusal;
pub use walk::Walk;
