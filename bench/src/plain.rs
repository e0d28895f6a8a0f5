//! The calls in plain Rust: the rules of the ladder by walks over bits, orders and signs, l * d small steps, with no matrix and nothing
//! allocated. This is what the proved calls are timed against.
mod bits;
mod decode;
mod encode;
mod order;
mod refuse;
mod run;
mod trace;

pub use decode::{check, decode};
pub use encode::encode;
pub use run::{difference_run, plain_run};
pub use trace::trace;
