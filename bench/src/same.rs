//! Both sides held to each other, and to the worked cases of the rules, before anything is timed.
use crate::calls::{element, Call, Decode, Encode, Input, Output, Trace, PAIRS};
use crate::random::Random;
use crate::{plain, proved};

const LENGTHS: [usize; 16] = [
    1, 2, 7, 8, 9, 31, 63, 64, 65, 127, 128, 129, 256, 320, 575, 576,
];

/// The byte that every output buffer holds before a call, so that one which is to stay is seen to stay.
const BEFORE: u8 = 0xaa;

/// Makes each call on both sides, and ends the program where they differ. Says how often each refusal was answered.
pub fn same(seed: u64, per_size: usize) {
    worked(plain::encode, plain::decode, plain::trace);
    worked(proved::encode, proved::decode, proved::trace);
    let mut random = Random(seed);
    let mut counts = [0u64; 9];
    for d in 1..=8 {
        for l in LENGTHS {
            for n in 0..per_size {
                let (input, output) = request(&mut random, d, l, n);
                compare(&input, &output, &mut counts);
            }
        }
    }
    println!(
        "Both sides gave the same refusals, answers and buffers on every input, from seed {seed}:"
    );
    println!(
        "{} calls each, of which 0 to 8 was answered to {counts:?}.",
        counts.iter().sum::<u64>()
    );
}

fn compare(input: &Input, output: &Output, counts: &mut [u64; 9]) {
    for pair in &PAIRS {
        let (refusal, left) = after(pair.proved, input, output);
        let plain = after(pair.plain, input, output);
        assert!(
            (refusal, &left) == (plain.0, &plain.1),
            "{}: {input:?}",
            pair.name
        );
        counts[refusal as usize] += 1;
    }
}

fn after(call: Call, input: &Input, output: &Output) -> (u64, Output) {
    let mut left = output.clone();
    left.fill(BEFORE);
    (call.make(input, &mut left), left)
}

/// Half of all requests are sound: of these half have an encoded plan, half any plan. The rest have one fault or two.
fn request(random: &mut Random, d: usize, l: usize, n: usize) -> (Input, Output) {
    let mut input = Input::encoded(random, d, l);
    let mut output = Output::new(d, l);
    if n % 2 == 1 {
        input.start = random.arrangement(d);
        input.bits = random.bytes(input.bits.len());
        input.row = random.below(d as u64 + 1) + 1;
    }
    if n % 8 == 3 {
        input.m = random.below(5);
        input.elements = (0..d).map(|_| element(random, input.m)).collect();
    }
    for _ in 0..n / 2 % 4 / 2 + n / 2 % 4 / 3 {
        spoil(random, &mut input, &mut output);
    }
    (input, output)
}

fn spoil(random: &mut Random, i: &mut Input, o: &mut Output) {
    match random.below(16) {
        0 => i.d = random.one_of(&[0, 9, 10, 1 << 32, u64::MAX]),
        1 => i.l = random.one_of(&[0, 577, 578, 1 << 32, u64::MAX]),
        2 => resize(random, &mut i.scalars),
        3 => resize(random, &mut i.start),
        4 => resize(random, &mut i.bits),
        5 => resize(random, &mut i.elements),
        6 => resize(random, &mut o.start),
        7 => resize(random, &mut o.bits),
        8 => resize(random, &mut o.values),
        9 => resize(random, &mut o.trace),
        10 => resize(random, &mut o.registers),
        11 => set(random, &mut i.scalars, |r| r.one_of(&[1, u64::MAX])),
        12 | 13 => set(random, &mut i.start, |r| r.one_of(&[0, 1, 2, 9, 255])),
        14 => i.row = random.one_of(&[0, i.d.wrapping_add(2), u64::MAX]),
        _ => {
            if random.below(2) == 0 {
                i.m = random.one_of(&[(1 << 63) + 1, u64::MAX]);
            } else {
                let m = i.m;
                set(random, &mut i.elements, |_| m);
            }
        }
    }
}

/// One element more or less, or none.
fn resize<T: Clone + Default>(random: &mut Random, list: &mut Vec<T>) {
    let n = list.len();
    let size = random.one_of(&[n + 1, n.saturating_sub(1), 0]);
    list.resize(size, T::default());
}

/// One element changed to another value.
fn set<T>(random: &mut Random, list: &mut [T], value: impl FnOnce(&mut Random) -> T) {
    if !list.is_empty() {
        let at = random.below(list.len() as u64) as usize;
        list[at] = value(random);
    }
}

/// Worked cases of the rules: scalars, start order, bits, row, and the last rows.
fn worked(encode: Encode, decode: Decode, trace: Trace) {
    type Case = (
        u64,
        &'static [u64],
        &'static [u8],
        &'static [u8],
        &'static [&'static [u64]],
    );
    let cases: [Case; 7] = [
        (7, &[73], &[1], &[0xda], &[&[74], &[73]]),
        (1, &[1], &[1], &[0x80], &[&[2], &[1]]),
        (1, &[0, 0], &[1, 2], &[0], &[&[0, 0], &[1, 0], &[1, 1]]),
        (2, &[2, 1], &[1, 2], &[0xb0], &[&[2, 2], &[2, 1], &[3, 1]]),
        (2, &[3, 3], &[2, 1], &[0xc0], &[&[4, 4], &[3, 4], &[3, 3]]),
        (
            2,
            &[1, 2, 3],
            &[3, 2, 1],
            &[0xb4],
            &[&[2, 2, 4], &[1, 2, 4], &[1, 2, 3], &[1, 3, 3]],
        ),
        (
            7,
            &[73, 59],
            &[1, 2],
            &[0x72, 0xd8],
            &[&[74, 60], &[73, 60], &[73, 59]],
        ),
    ];
    for (l, scalars, start, bits, rows) in cases {
        worked_case(encode, decode, l, scalars, (start, bits), rows);
    }
    worked_trace(trace);
}

fn worked_trace(trace: Trace) {
    let mut out = [0; 24];
    let (mut doublings, mut additions) = (0, 0);
    let refusal = trace(
        2,
        2,
        &[1, 2],
        &[0xb0],
        2,
        &mut out,
        &mut doublings,
        &mut additions,
    );
    assert_eq!((refusal, doublings, additions), (0, 2, 4));
    let want = [
        2, 2, 0, 0, 1, 2, 1, 0, 1, 3, 1, 1, 3, 3, 0, 0, 2, 3, 0, 1, 1, 3, 255, 1,
    ];
    assert_eq!(out, want);
}

fn worked_case(
    encode: Encode,
    decode: Decode,
    l: u64,
    scalars: &[u64],
    plan: (&[u8], &[u8]),
    rows: &[&[u64]],
) {
    let d = scalars.len() as u64;
    let mut start = plan.0.to_vec();
    let mut bits = plan.1.to_vec();
    start.fill(BEFORE);
    bits.fill(BEFORE);
    let mut row = 0;
    assert_eq!(encode(d, l, scalars, &mut start, &mut bits, &mut row), 0);
    assert_eq!((&start[..], &bits[..]), plan);
    let odd = scalars.iter().filter(|&s| s % 2 == 1).count() as u64;
    assert_eq!(row, odd + 1);
    for (i, want) in rows.iter().enumerate() {
        let mut values = vec![0; scalars.len()];
        let refusal = decode(d, l, &start, &bits, i as u64 + 1, &mut values);
        assert_eq!((refusal, &values[..]), (0, *want));
    }
}
