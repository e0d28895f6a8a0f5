//! Times of a call on both sides.
use crate::calls::{Call, Input, Output, Pair};
use crate::random::Random;
use std::hint::black_box;
use std::time::Instant;

/// Different inputs of a cell, and how many of them are called between two looks at the clock.
pub const INPUTS: usize = 256;
const GROUP: usize = 8;

/// Nanoseconds for a call, the median over all rounds and in the fastest round; and of the rounds' ratios, proved to plain, the least and
/// the most.
pub struct Times {
    pub proved: f64,
    pub plain: f64,
    pub fastest_proved: f64,
    pub fastest_plain: f64,
    pub least: f64,
    pub most: f64,
}

/// One call at one d and l, its inputs, and the times of the rounds so far.
pub struct Cell<'a> {
    pub pair: &'a Pair,
    pub d: usize,
    pub l: usize,
    inputs: Vec<Input>,
    outputs: Vec<Output>,
    proved: Vec<f64>,
    plain: Vec<f64>,
}

impl<'a> Cell<'a> {
    pub fn new(pair: &'a Pair, d: usize, l: usize, seed: u64) -> Cell<'a> {
        let mut random = Random(seed);
        Cell {
            pair,
            d,
            l,
            inputs: (0..INPUTS)
                .map(|_| Input::encoded(&mut random, d, l))
                .collect(),
            outputs: vec![Output::new(d, l); GROUP],
            proved: Vec::new(),
            plain: Vec::new(),
        }
    }

    /// Rounds, after one that does not count. Each calls both sides on every input; which goes first changes from round to round.
    fn rounds(&mut self, n: usize) {
        for round in 0..=n {
            let first = round % 2 == 0;
            let (proved, plain) = self::round(self.pair, &self.inputs, &mut self.outputs, first);
            if round > 0 {
                self.proved.push(proved);
                self.plain.push(plain);
            }
        }
    }

    pub fn times(&self) -> Times {
        let ratios = self.proved.iter().zip(&self.plain).map(|(a, b)| a / b);
        Times {
            proved: median(self.proved.clone()),
            plain: median(self.plain.clone()),
            fastest_proved: least(self.proved.iter().copied()),
            fastest_plain: least(self.plain.iter().copied()),
            least: least(ratios.clone()),
            most: ratios.fold(0.0, f64::max),
        }
    }
}

/// Some rounds of each cell in turn, again and again, so that a busy time of the machine does not fall on one cell alone.
pub fn time(cells: &mut [Cell], turns: usize, rounds: usize) {
    for _ in 0..turns {
        for cell in cells.iter_mut() {
            cell.rounds(rounds);
        }
    }
}

/// The median time of a call of each side, over the groups of inputs.
fn round(pair: &Pair, inputs: &[Input], outputs: &mut [Output], proved_first: bool) -> (f64, f64) {
    let (mut proved, mut plain) = (Vec::new(), Vec::new());
    for group in inputs.chunks_exact(GROUP) {
        if proved_first {
            proved.push(time_group(pair.proved, group, outputs));
            plain.push(time_group(pair.plain, group, outputs));
        } else {
            plain.push(time_group(pair.plain, group, outputs));
            proved.push(time_group(pair.proved, group, outputs));
        }
    }
    (median(proved), median(plain))
}

/// Nanoseconds for each call of a group, whose buffers are cleared before the clock is looked at.
fn time_group(call: Call, group: &[Input], outputs: &mut [Output]) -> f64 {
    for output in outputs.iter_mut() {
        output.fill(0);
    }
    let call = black_box(call);
    let begin = Instant::now();
    for (input, output) in group.iter().zip(outputs.iter_mut()) {
        black_box(call.make(black_box(input), black_box(output)));
    }
    begin.elapsed().as_nanos() as f64 / group.len() as f64
}

fn median(mut times: Vec<f64>) -> f64 {
    times.sort_by(f64::total_cmp);
    let n = times.len();
    (times[(n - 1) / 2] + times[n / 2]) / 2.0
}

fn least(numbers: impl Iterator<Item = f64>) -> f64 {
    numbers.fold(f64::INFINITY, f64::min)
}
