//! The six calls, proved and plain, under one signature each; what they are lent, and what they leave.
use crate::random::Random;
use crate::{plain, proved};

pub type Encode = fn(u64, u64, &[u64], &mut [u8], &mut [u8], &mut u64) -> u64;
pub type Decode = fn(u64, u64, &[u8], &[u8], u64, &mut [u64]) -> u64;
type Check = fn(u64, u64, &[u8], &[u8], u64, &[u64], &mut u64) -> u64;
pub type Trace = fn(u64, u64, &[u8], &[u8], u64, &mut [u8], &mut u64, &mut u64) -> u64;
type Run =
    fn(u64, u64, &[u8], &[u8], u64, u64, &[u64], &mut [u64], &mut u64, &mut u64, &mut u64) -> u64;

/// One call, of either side.
#[derive(Clone, Copy)]
pub enum Call {
    Encode(Encode),
    Decode(Decode),
    Check(Check),
    Trace(Trace),
    Run(Run),
}

/// A call's name, and its two sides.
pub struct Pair {
    pub name: &'static str,
    pub proved: Call,
    pub plain: Call,
}

pub const PAIRS: [Pair; 6] = [
    Pair {
        name: "encode",
        proved: Call::Encode(proved::encode),
        plain: Call::Encode(plain::encode),
    },
    Pair {
        name: "decode",
        proved: Call::Decode(proved::decode),
        plain: Call::Decode(plain::decode),
    },
    Pair {
        name: "check",
        proved: Call::Check(proved::check),
        plain: Call::Check(plain::check),
    },
    Pair {
        name: "trace",
        proved: Call::Trace(proved::trace),
        plain: Call::Trace(plain::trace),
    },
    Pair {
        name: "plain_run",
        proved: Call::Run(proved::plain_run),
        plain: Call::Run(plain::plain_run),
    },
    Pair {
        name: "difference_run",
        proved: Call::Run(proved::difference_run),
        plain: Call::Run(plain::difference_run),
    },
];

/// What is lent to be read.
#[derive(Clone, Debug)]
pub struct Input {
    pub d: u64,
    pub l: u64,
    pub scalars: Vec<u64>,
    pub start: Vec<u8>,
    pub bits: Vec<u8>,
    pub row: u64,
    pub m: u64,
    pub elements: Vec<u64>,
}

/// What is lent to be written, for any of the calls.
#[derive(Clone, PartialEq, Debug)]
pub struct Output {
    pub start: Vec<u8>,
    pub bits: Vec<u8>,
    pub values: Vec<u64>,
    pub trace: Vec<u8>,
    pub registers: Vec<u64>,
    pub numbers: [u64; 3],
}

impl Output {
    pub fn new(d: usize, l: usize) -> Output {
        Output {
            start: vec![0; d],
            bits: vec![0; (l * d).div_ceil(8)],
            values: vec![0; d * (l / 64 + 1)],
            trace: vec![0; l * (d + 1) * (d + 2)],
            registers: vec![0; d + 1],
            numbers: [0; 3],
        }
    }

    /// Every byte of every buffer is the one given.
    pub fn fill(&mut self, byte: u8) {
        let word = u64::from_ne_bytes([byte; 8]);
        self.start.fill(byte);
        self.bits.fill(byte);
        self.values.fill(word);
        self.trace.fill(byte);
        self.registers.fill(word);
        self.numbers.fill(word);
    }
}

impl Call {
    pub fn make(self, i: &Input, o: &mut Output) -> u64 {
        let [first, second, third] = &mut o.numbers;
        match self {
            Call::Encode(f) => f(i.d, i.l, &i.scalars, &mut o.start, &mut o.bits, first),
            Call::Decode(f) => f(i.d, i.l, &i.start, &i.bits, i.row, &mut o.values),
            Call::Check(f) => f(i.d, i.l, &i.start, &i.bits, i.row, &i.scalars, first),
            Call::Trace(f) => f(
                i.d,
                i.l,
                &i.start,
                &i.bits,
                i.row,
                &mut o.trace,
                first,
                second,
            ),
            Call::Run(f) => f(
                i.d,
                i.l,
                &i.start,
                &i.bits,
                i.row,
                i.m,
                &i.elements,
                &mut o.registers,
                first,
                second,
                third,
            ),
        }
    }
}

impl Input {
    /// Random scalars of l bits with their plan, a random modulus and random elements below it.
    pub fn encoded(random: &mut Random, d: usize, l: usize) -> Input {
        let words = l.div_ceil(64);
        let past = words * 64 - l;
        let scalars: Vec<u64> = (0..d * words)
            .map(|w| {
                let top = w % words == words - 1;
                random.word() >> if top { past } else { 0 }
            })
            .collect();
        let m = match random.below(4) {
            0 => 0,
            1 => 1 << 63,
            _ => random.word() >> 1 | 1,
        };
        let mut input = Input {
            d: d as u64,
            l: l as u64,
            scalars,
            start: vec![0; d],
            bits: vec![0; (l * d).div_ceil(8)],
            row: 0,
            m,
            elements: (0..d).map(|_| element(random, m)).collect(),
        };
        let refusal = plain::encode(
            input.d,
            input.l,
            &input.scalars,
            &mut input.start,
            &mut input.bits,
            &mut input.row,
        );
        assert_eq!(refusal, 0);
        input
    }
}

/// A random element of a modulus; any word where it is 0.
pub fn element(random: &mut Random, m: u64) -> u64 {
    random.word().checked_rem(m).unwrap_or(random.word())
}
