//! Calls for a tool that counts instructions: it is told to count inside `counted` alone, and to write down its count and begin anew
//! where `mark` is entered.
use crate::calls::{Call, Input, Output, PAIRS};
use crate::random::Random;
use crate::tables::SIZES;
use std::hint::black_box;

/// Calls of a cell.
const CALLS: usize = 64;

#[inline(never)]
#[no_mangle]
extern "C" fn bench_mark(section: usize) -> usize {
    black_box(section)
}

#[inline(never)]
#[no_mangle]
extern "C" fn bench_counted(call: &Call, input: &Input, output: &mut Output) -> u64 {
    black_box(call.make(input, output))
}

/// Makes the calls, a section for each size, call and side. Each section's name is printed before a mark begins it.
pub fn count(seed: u64) {
    for pair in &PAIRS {
        for (d, l) in SIZES {
            for call in [pair.proved, pair.plain] {
                println!("{CALLS} {d} {l} {}", pair.name);
                bench_mark(d * l);
                section(&call, seed, d, l);
            }
        }
    }
    bench_mark(0);
}

fn section(call: &Call, seed: u64, d: usize, l: usize) {
    let mut random = Random(seed);
    let mut output = Output::new(d, l);
    for _ in 0..CALLS {
        let input = Input::encoded(&mut random, d, l);
        output.fill(0);
        bench_counted(call, &input, &mut output);
    }
}
