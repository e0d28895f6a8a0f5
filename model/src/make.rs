//! Requests made from a seed: of every call, short and long, valid, with one fault and with two.
use crate::file;
use crate::plan;
use crate::random::Random;
use crate::refusal as refuse;
use crate::requests::{
    Request, BODY, CHECK, DECODE, DIFFERENCE, ENCODE, LISTING, PACK, PLAIN, STEP, TRACE, UNPACK,
};

/// Lengths where words, bytes and the range end.
const EDGES: [u64; 12] = [1, 2, 7, 8, 9, 63, 64, 65, 127, 128, 129, 575];

const LONGEST: u64 = 576;

/// The longest file that `conform` holds.
const MOST_HELD: usize = 65536;

fn length(random: &mut Random) -> u64 {
    match random.below(8) {
        0 => LONGEST,
        1 | 2 => random.one_of(&EDGES),
        3 => 1 + random.below(LONGEST),
        _ => 1 + random.below(20),
    }
}

fn arrangement(random: &mut Random, d: u64) -> Vec<u8> {
    let mut order: Vec<u8> = (1..=d as u8).collect();
    for i in (1..order.len()).rev() {
        order.swap(i, random.below(i as u64 + 1) as usize);
    }
    order
}

/// d scalars below 2^l: any, 0, 1, the largest.
fn scalars(random: &mut Random, d: u64, l: u64) -> Vec<u64> {
    let k = refuse::scalar_words(l) as usize;
    let top = u64::MAX >> (64 * k as u64 - l);
    let mut words = Vec::new();
    for _ in 0..d {
        let kind = random.below(8);
        let mut scalar: Vec<u64> = (0..k)
            .map(|_| match kind {
                0 | 1 => 0,
                2 => u64::MAX,
                _ => random.word(),
            })
            .collect();
        if kind == 1 {
            scalar[0] = 1;
        }
        scalar[k - 1] &= top;
        words.extend(scalar);
    }
    words
}

/// A plan: one that encoding gives, or any bits at all from any order. Filling bits can be 1 in both.
fn with_plan(random: &mut Random, request: &mut Request) {
    let (d, l) = (request.d, request.l);
    let bytes = refuse::bits_bytes(d, l) as usize;
    request.start = arrangement(random, d);
    request.bits = random.bytes(bytes);
    request.row = 1 + random.below(d + 1);
    if random.once_in(2) {
        let words = scalars(random, d, l);
        let (_, row) = plan::encode(d, l, &words, &mut request.start, &mut request.bits);
        request.row = row;
        if random.once_in(2) {
            let filling = bytes as u64 * 8 - d * l;
            let ones = (random.word() as u8) & ((1u16 << filling) - 1) as u8;
            *request.bits.last_mut().expect("a byte") |= ones;
        }
    }
}

/// The scalars that a plan decodes to, where they fit, else others.
fn for_check(random: &mut Random, request: &Request) -> Vec<u64> {
    let (d, l) = (request.d, request.l);
    let k = refuse::scalar_words(l) as usize;
    let entries = request.plan().answer_row();
    if random.once_in(4) || entries.iter().any(|n| !n.has_bits(l as usize)) {
        return scalars(random, d, l);
    }
    let mut words: Vec<u64> = entries
        .iter()
        .flat_map(|n| (0..k).map(|i| n.word(i)))
        .collect();
    if random.once_in(4) {
        let at = random.below(words.len() as u64) as usize;
        words[at] ^= 1;
    }
    words
}

fn with_elements(random: &mut Random, request: &mut Request) {
    let large = 1 << 63;
    let any = 1 + random.below(large);
    request.m = random.one_of(&[0, 1, 2, 3, 7, 101, large - 1, large, any, any]);
    let m = request.m;
    request.words = (0..request.d)
        .map(|_| match (m, random.below(4)) {
            (0, 0) => u64::MAX,
            (0, _) => random.word(),
            (_, 0) => m - 1,
            _ => random.below(m),
        })
        .collect();
    request.out = request.d as usize + 1;
}

fn with_walk(random: &mut Random, request: &mut Request) {
    request.start = arrangement(random, request.d);
    request.bits = (0..request.d).map(|_| random.one_of(&[1, 255])).collect();
    request.start.resize(8, 0);
    request.bits.resize(8, 0);
    request.l = random.below(1 << request.d);
}

/// A plan's file for bits, often with something before it and with filling bits of 1.
fn with_file(random: &mut Random, request: &mut Request) {
    with_plan(random, request);
    let mut packed = file::file_of(&request.plan());
    let at = packed.len() - 13;
    packed[at] = *request.bits.last().expect("a byte");
    let preface = match random.below(8) {
        0 if request.call != LISTING && random.once_in(32) => MOST_HELD - packed.len(),
        0 => 4096 - packed.len(),
        1..=3 => random.below(40) as usize,
        _ => 0,
    };
    let mut whole = random.bytes(preface);
    whole.extend(packed);
    *request = Request {
        call: request.call,
        bits: whole,
        out: request.out,
        ..Request::default()
    };
}

/// What a call that takes a plan is lent beside it.
fn beside_plan(random: &mut Random, request: &mut Request) {
    let (d, l) = (request.d, request.l);
    match request.call {
        DECODE => {
            let n = d * refuse::value_words(l) as u64;
            request.words = (0..n).map(|_| random.word()).collect();
        }
        CHECK => request.words = for_check(random, request),
        TRACE => request.out = (l * (d + 1) * (d + 2)) as usize,
        PACK => request.out = d as usize + refuse::bits_bytes(d, l) as usize + 12,
        _ => with_elements(random, request),
    }
}

/// A request that is not refused.
fn sound(random: &mut Random, call: u64) -> Request {
    let d = 1 + random.below(8);
    let l = length(random);
    let mut request = Request {
        call,
        d,
        l,
        ..Request::default()
    };
    match call {
        ENCODE => {
            request.start = random.bytes(d as usize);
            request.bits = random.bytes(refuse::bits_bytes(d, l) as usize);
            request.words = scalars(random, d, l);
        }
        STEP => with_walk(random, &mut request),
        UNPACK | BODY => with_file(random, &mut request),
        LISTING => {
            request.out = 8589;
            with_file(random, &mut request);
        }
        _ => {
            with_plan(random, &mut request);
            beside_plan(random, &mut request);
        }
    }
    request
}

/// Another length: none, one less, one more.
fn other_length(random: &mut Random, n: usize) -> usize {
    match random.below(3) {
        0 if n > 0 => 0,
        1 if n > 0 => n - 1,
        _ => n + 1,
    }
}

fn resize<T: Clone>(random: &mut Random, s: &mut Vec<T>, with: T) {
    let n = other_length(random, s.len());
    s.resize(n, with);
}

fn spoil_order(random: &mut Random, order: &mut [u8], d: u64) {
    if order.is_empty() {
        return;
    }
    let n = order.len() as u64;
    let at = random.below(n.min(8)) as usize;
    let from = random.below(n.min(8)) as usize;
    let any = random.word() as u8;
    order[at] = random.one_of(&[0, order[from], (d as u8).wrapping_add(1), 255, any]);
}

fn spoil_d(random: &mut Random, request: &mut Request) {
    let any = random.word();
    request.d = random.one_of(&[0, 9, 10, 255, 256, 258, 1 << 32, 1 << 63, u64::MAX, any]);
}

fn spoil_l(random: &mut Random, request: &mut Request) {
    let any = random.word();
    request.l = random.one_of(&[
        0,
        577,
        578,
        1024,
        65535,
        65536,
        1 << 32,
        1 << 61,
        u64::MAX,
        any,
    ]);
}

fn spoil_row(random: &mut Random, request: &mut Request) {
    let next = request.d.wrapping_add(2);
    let any = random.word();
    request.row = random.one_of(&[0, next, 10, 255, 257, u64::MAX, any]);
}

/// A scalar with a bit past l.
fn spoil_scalar(random: &mut Random, request: &mut Request) {
    let k = refuse::scalar_words(request.l.min(LONGEST)) as usize;
    let spare = (64 * k as u64).saturating_sub(request.l);
    if spare == 0 || k == 0 || request.words.len() < k {
        return;
    }
    let j = random.below((request.words.len() / k) as u64) as usize;
    request.words[j * k + k - 1] |= 1 << (63 - random.below(spare));
}

fn spoil_walk(random: &mut Random, request: &mut Request) {
    let d = request.d;
    match random.below(4) {
        0 => request.l = random.one_of(&[1 << d.min(60), (1 << d.min(60)) + 1, 256, u64::MAX]),
        1 => spoil_order(random, &mut request.start, d),
        2 => {
            let at = random.below(8) as usize;
            request.bits[at] = random.one_of(&[0, 1, 2, 127, 128, 254, 255]);
        }
        _ => spoil_d(random, request),
    }
}

fn spoil_elements(random: &mut Random, request: &mut Request) {
    let large = 1 << 63;
    match random.below(4) {
        0 => request.m = random.one_of(&[large + 1, u64::MAX]),
        1 if !request.words.is_empty() => {
            let at = random.below(request.words.len() as u64) as usize;
            request.words[at] = random.one_of(&[request.m, u64::MAX]);
        }
        2 => resize(random, &mut request.words, 0),
        _ => request.out = other_length(random, request.out),
    }
}

/// Bytes put before a file, so that it is longer than what is listed: by one, by two, or as long as can be.
fn lengthen(random: &mut Random, file: &mut Vec<u8>) {
    let length = match random.below(32) {
        0 => MOST_HELD,
        n => 4097 + n as usize % 2,
    };
    let more = random.bytes(length.saturating_sub(file.len()));
    file.splice(0..0, more);
}

/// A byte of the trailer or the body changed, or bytes taken away or put in.
fn spoil_file(random: &mut Random, file: &mut Vec<u8>) {
    let n = file.len();
    let any = random.word() as u8;
    let other = random.one_of(&[0, 1, 8, 9, 255, any]);
    match random.below(9) {
        0 => file.truncate(random.below(n as u64 + 1) as usize),
        1 => {
            let drop = random.below(n as u64 + 1) as usize;
            file.drain(..drop);
        }
        2 => lengthen(random, file),
        3 if n > 12 => {
            let distance = usize::from(file[n - 8]) + 256 * usize::from(file[n - 7]);
            let d = u64::from(file[n - 12]).clamp(1, 8);
            let at = (n - 12).saturating_sub(distance) + random.below(d) as usize;
            file[at.min(n - 13)] = other;
        }
        4 if n >= 12 => file[n - 12] = other,
        5 if n >= 12 => file[n - 11] = other,
        6 if n >= 12 => {
            let l: u16 = random.one_of(&[0, 577, 1024, 65535]);
            file[n - 10..n - 8].copy_from_slice(&l.to_le_bytes());
        }
        _ if n >= 12 => {
            let at = n - 1 - random.below(12) as usize;
            file[at] = file[at].wrapping_add(other);
        }
        _ => file.push(other),
    }
}

/// A text buffer of another length, a file that is longer than what is listed, or another fault of the file.
fn spoil_listing(random: &mut Random, request: &mut Request) {
    match random.below(6) {
        0 => request.out = other_length(random, request.out),
        1 => lengthen(random, &mut request.bits),
        _ => spoil_file(random, &mut request.bits),
    }
}

/// More than the program holds, by one or by more than it reads at a time.
fn lend_too_much(random: &mut Random, request: &mut Request) {
    let more = random.one_of(&[0, 0, 0, 0, 70000]);
    match random.below(4) {
        0 => request.start.resize(65 + more, 1),
        1 => request.bits.resize(MOST_HELD + 1 + more, 255),
        2 => request.words.resize(129 + more, u64::MAX >> more.min(60)),
        _ => request.out = 51905,
    }
}

/// One fault more. It can be none: then the request is as sound as before.
fn spoil(random: &mut Random, request: &mut Request) {
    if random.once_in(64) {
        return lend_too_much(random, request);
    }
    match request.call {
        STEP => return spoil_walk(random, request),
        UNPACK | BODY => return spoil_file(random, &mut request.bits),
        LISTING => return spoil_listing(random, request),
        PLAIN | DIFFERENCE if random.once_in(2) => return spoil_elements(random, request),
        ENCODE | CHECK if random.once_in(4) => return spoil_scalar(random, request),
        _ => (),
    }
    let d = request.d;
    match random.below(8) {
        0 => spoil_d(random, request),
        1 => spoil_l(random, request),
        2 => resize(random, &mut request.start, 1),
        3 => resize(random, &mut request.bits, 0),
        4 if !request.words.is_empty() => resize(random, &mut request.words, 0),
        4 | 5 => request.out = other_length(random, request.out),
        6 => spoil_order(random, &mut request.start, d),
        _ => spoil_row(random, request),
    }
}

/// As many requests as asked for, of every call in turn.
pub fn requests(seed: u64, count: u64) -> Vec<Request> {
    let mut random = Random(seed);
    (0..count)
        .map(|i| {
            let mut request = sound(&mut random, 1 + i % LISTING);
            let faults = random.one_of(&[0, 0, 0, 1, 1, 2]);
            for _ in 0..faults {
                spoil(&mut random, &mut request);
            }
            request
        })
        .collect()
}
