//! The stack that encode uses at its largest size. It is called on a stack of its own, which is painted before; how far down the paint is
//! gone says how much was written. What the way there uses is measured with a call that does nothing, and taken off.
use crate::calls::{Encode, Input, Output};
use crate::random::Random;
use crate::{plain, proved};
use std::arch::asm;
use std::hint::black_box;

/// A stack: 256 KiB in sixteens, as the machine aligns it.
#[repr(C, align(16))]
#[derive(Clone, Copy)]
struct Sixteen([u8; 16]);

const STACK: usize = 256 * 1024 / 16;

struct Job<'a> {
    call: Encode,
    input: &'a Input,
    output: &'a mut Output,
}

extern "C" fn enter(job: &mut Job) {
    let input = job.input;
    let output = &mut *job.output;
    (job.call)(
        input.d,
        input.l,
        &input.scalars,
        &mut output.start,
        &mut output.bits,
        &mut output.numbers[0],
    );
}

/// Runs a job on another stack.
///
/// # Safety
/// `top` is the end of memory that is aligned to sixteen bytes and large enough as a stack.
unsafe fn on_stack(top: *mut Sixteen, job: &mut Job) {
    #[cfg(target_arch = "x86_64")]
    asm!("mov r12, rsp", "mov rsp, {top}", "call {enter}", "mov rsp, r12",
        top = in(reg) top, enter = sym enter, in("rdi") job, out("r12") _, clobber_abi("C"));
    #[cfg(target_arch = "aarch64")]
    asm!("mov x20, sp", "mov sp, {top}", "bl {enter}", "mov sp, x20",
        top = in(reg) top, enter = sym enter, in("x0") job, out("x20") _, clobber_abi("C"));
}

/// The bytes from the stack's top down to the lowest that lost its paint.
fn depth(job: &mut Job, paint: u8) -> usize {
    let mut stack = vec![Sixteen([paint; 16]); STACK];
    // Safe: the stack is the vector, whose end is aligned as its elements are.
    unsafe { on_stack(stack.as_mut_ptr().add(STACK), job) };
    let bytes = stack.iter().flat_map(|sixteen| sixteen.0);
    STACK * 16 - bytes.take_while(|&byte| byte == paint).count()
}

/// The most that a call uses on any of the inputs, by two paints, so that a byte written with the paint's own value is seen.
fn most(call: Encode, inputs: &[Input]) -> usize {
    let first = &inputs[0];
    let mut output = Output::new(first.d as usize, first.l as usize);
    let mut most = 0;
    for input in inputs {
        let mut job = Job {
            call: black_box(call),
            input,
            output: &mut output,
        };
        most = most.max(depth(&mut job, 0xa5)).max(depth(&mut job, 0x3c));
    }
    most
}

fn nothing(_: u64, _: u64, _: &[u64], _: &mut [u8], _: &mut [u8], row: &mut u64) -> u64 {
    *row = 0;
    0
}

pub fn stack(seed: u64) {
    let mut random = Random(seed);
    let inputs: Vec<Input> = (0..64)
        .map(|_| Input::encoded(&mut random, 8, 576))
        .collect();
    let way = most(nothing, &inputs);
    println!("| encode at d = 8, l = 576 | bytes of stack |");
    println!("|---|---|");
    println!("| proved | {} |", most(proved::encode, &inputs) - way);
    println!("| plain | {} |", most(plain::encode, &inputs) - way);
}
