//! Each refusal of each call, two faults at once, and what was lent as it came.
use immarduzh::*;
use std::fmt::Debug;

const START: usize = 0;
const BITS: usize = 1;
const SCALARS: usize = 2;
const VALUES: usize = 3;
const TRACE: usize = 4;
const ELEMENTS: usize = 5;
const REGISTERS: usize = 6;
const FILE: usize = 7;

/// What is lent to a call. `SOUND` is the rules' plan of 2 and 1.
#[derive(Clone, Copy)]
struct Input {
    d: u64,
    l: u64,
    row: u64,
    m: u64,
    start: [u8; 3],
    bits: [u8; 2],
    scalars: [u64; 3],
    elements: [u64; 3],
    lengths: [usize; 8],
}

const SOUND: Input = Input {
    d: 2,
    l: 2,
    row: 2,
    m: 101,
    start: [1, 2, 0],
    bits: [0xB0, 0],
    scalars: [2, 1, 0],
    elements: [10, 20, 0],
    lengths: [2, 1, 2, 2, 24, 2, 3, 15],
};

impl Input {
    fn plan(&self) -> Plan<'_> {
        Plan {
            d: self.d,
            l: self.l,
            start: &self.start[..self.lengths[START]],
            bits: &self.bits[..self.lengths[BITS]],
            row: self.row,
        }
    }

    fn scalars(&self) -> &[u64] {
        &self.scalars[..self.lengths[SCALARS]]
    }

    /// The input with the fault that gives a number.
    fn with(mut self, number: u64) -> Input {
        match number {
            1 => self.d = 9,
            2 => self.l = 577,
            3 => self.lengths[START] = 3,
            4 => self.scalars[1] = 4,
            5 => self.start[1] = 1,
            6 => self.row = 4,
            7 => self.m = (1 << 63) + 1,
            _ => self.elements[0] = u64::MAX,
        }
        self
    }
}

/// The number of what a call gave, which left a lent buffer as it came if it refused, and wrote to it if not.
fn number<T, E: PartialEq + Debug>(given: Result<T, Refusal>, lent: &[E], mark: E) -> u64 {
    let kept = lent.iter().all(|e| *e == mark);
    assert_eq!(kept, given.is_err() || lent.is_empty());
    given.err().map_or(0, Refusal::number)
}

fn call_encode(input: &Input) -> u64 {
    let mut start = vec![0xA5; input.lengths[START]];
    let mut bits = vec![0xA5; input.lengths[BITS]];
    let given = encode(input.d, input.l, input.scalars(), &mut start, &mut bits);
    number(given, &start, 0xA5);
    number(given, &bits, 0xA5)
}

fn call_decode(input: &Input) -> u64 {
    let mut values = vec![77; input.lengths[VALUES]];
    number(decode(input.plan(), &mut values), &values, 77)
}

fn call_check(input: &Input) -> u64 {
    let given = check(input.plan(), input.scalars());
    number(given, &[0; 0], 0)
}

fn call_trace(input: &Input) -> u64 {
    let mut out = vec![0xA5; input.lengths[TRACE]];
    number(trace(input.plan(), &mut out), &out, 0xA5)
}

fn call_plain(input: &Input) -> u64 {
    let mut registers = vec![77; input.lengths[REGISTERS]];
    let elements = &input.elements[..input.lengths[ELEMENTS]];
    let given = plain_run(input.plan(), input.m, elements, &mut registers);
    number(given, &registers, 77)
}

fn call_difference(input: &Input) -> u64 {
    let mut registers = vec![77; input.lengths[REGISTERS]];
    let elements = &input.elements[..input.lengths[ELEMENTS]];
    let given = difference_run(input.plan(), input.m, elements, &mut registers);
    number(given, &registers, 77)
}

fn call_pack(input: &Input) -> u64 {
    let mut file = vec![0xA5; input.lengths[FILE]];
    number(pack(input.plan(), &mut file), &file, 0xA5)
}

/// A call, its refusals in the order that the rules give, and its buffers.
struct Call {
    name: &'static str,
    call: fn(&Input) -> u64,
    order: &'static [u64],
    buffers: &'static [usize],
}

const CALLS: [Call; 7] = [
    Call {
        name: "encode",
        call: call_encode,
        order: &[1, 2, 3, 4],
        buffers: &[SCALARS, START, BITS],
    },
    Call {
        name: "decode",
        call: call_decode,
        order: &[1, 2, 3, 5, 6],
        buffers: &[START, BITS, VALUES],
    },
    Call {
        name: "check",
        call: call_check,
        order: &[1, 2, 3, 5, 6, 4],
        buffers: &[START, BITS, SCALARS],
    },
    Call {
        name: "trace",
        call: call_trace,
        order: &[1, 2, 3, 5, 6],
        buffers: &[START, BITS, TRACE],
    },
    Call {
        name: "plain run",
        call: call_plain,
        order: &[1, 2, 3, 5, 6, 7, 8],
        buffers: &[START, BITS, ELEMENTS, REGISTERS],
    },
    Call {
        name: "difference run",
        call: call_difference,
        order: &[1, 2, 3, 5, 6, 7, 8],
        buffers: &[START, BITS, ELEMENTS, REGISTERS],
    },
    Call {
        name: "pack",
        call: call_pack,
        order: &[1, 2, 3, 5, 6],
        buffers: &[START, BITS, FILE],
    },
];

#[test]
fn each_number_of_each_call() {
    for call in &CALLS {
        assert_eq!((call.call)(&SOUND), 0, "{}", call.name);
        for &n in call.order {
            assert_eq!((call.call)(&SOUND.with(n)), n, "{}", call.name);
        }
    }
}

#[test]
fn two_faults_at_once() {
    for call in &CALLS {
        for (i, &first) in call.order.iter().enumerate() {
            for &second in &call.order[i + 1..] {
                let given = (call.call)(&SOUND.with(first).with(second));
                assert_eq!(given, first, "{}: {first} and {second}", call.name);
            }
        }
    }
}

#[test]
fn each_buffer_of_each_call() {
    for call in &CALLS {
        for &buffer in call.buffers {
            let right = SOUND.lengths[buffer];
            for length in [0, right - 1, right + 1] {
                let mut input = SOUND;
                input.lengths[buffer] = length;
                let given = (call.call)(&input);
                assert_eq!(given, 3, "{}: buffer {buffer}, {length}", call.name);
            }
        }
    }
}

/// Wide numbers are refused and not cut: 258 is 2 in a byte, and 2^32 + 2 in 32 bits.
#[test]
fn wide_numbers() {
    for wide in [0, 258, (1 << 16) + 2, (1 << 32) + 2, u64::MAX] {
        for call in &CALLS {
            let (mut d, mut l, mut row) = (SOUND, SOUND, SOUND);
            (d.d, l.l, row.row) = (wide, wide, wide);
            assert_eq!((call.call)(&d), 1, "{}", call.name);
            // 258 is a length: then the buffers are too short.
            let want = if wide == 258 { 3 } else { 2 };
            assert_eq!((call.call)(&l), want, "{}", call.name);
            if call.order.contains(&6) {
                assert_eq!((call.call)(&row), 6, "{}", call.name);
            }
        }
    }
}

#[test]
fn elements_by_the_modulus() {
    for (m, element, want) in [
        (101, 100, 0),
        (101, 101, 8),
        (1, 0, 0),
        (1, 1, 8),
        (0, u64::MAX, 0),
        (1 << 63, (1 << 63) - 1, 0),
        (1 << 63, 1 << 63, 8),
        (u64::MAX, 0, 7),
    ] {
        let mut input = SOUND;
        input.m = m;
        input.elements = [0, element, 0];
        assert_eq!(call_plain(&input), want, "{element} modulo {m}");
        assert_eq!(call_difference(&input), want, "{element} modulo {m}");
    }
}

const WALK: Walk = Walk {
    d: 2,
    order: [1, 2, 0, 0, 0, 0, 0, 0],
    signs: [1, -1, 0, 0, 0, 0, 0, 0],
};

#[test]
fn step_refuses() {
    // A walk state with another fault each, at number 5.
    let mut faulty = [WALK; 8];
    faulty[0].order[1] = 1;
    faulty[1].order[1] = 0;
    faulty[2].order[1] = 3;
    faulty[3].signs[0] = 0;
    faulty[4].signs[1] = 2;
    faulty[5].signs[1] = -128;
    faulty[6].order[2] = 3;
    faulty[7].signs[7] = 1;
    assert!(WALK.step(3).is_ok());
    assert_eq!(WALK.step(4), Err(Refusal::Shape));
    assert_eq!(WALK.step(u64::MAX), Err(Refusal::Shape));
    for walk in faulty {
        assert_eq!(walk.step(0), Err(Refusal::Order), "{walk:?}");
        assert_eq!(walk.step(4), Err(Refusal::Order), "5 comes before 3");
        for d in [0, 9, 258, u64::MAX] {
            assert_eq!(Walk { d, ..walk }.step(4), Err(Refusal::Dim));
        }
    }
    let wide = Walk {
        d: 8,
        order: [8, 7, 6, 5, 4, 3, 2, 1],
        signs: [1; 8],
    };
    assert!(wide.step(255).is_ok());
    assert_eq!(wide.step(256), Err(Refusal::Shape));
}

/// The rules' plan file of 73 and 59, with other bytes from a place on.
fn file_with(changes: &[(usize, &[u8])]) -> Vec<u8> {
    let mut file = b"\x01\x02\x72\xD8\x02\x03\x07\x00\x04\x00\x00\x00dmul".to_vec();
    for &(at, bytes) in changes {
        file[at..at + bytes.len()].copy_from_slice(bytes);
    }
    file
}

/// Files, and the number that unpack, body and listing give.
fn files() -> Vec<(Vec<u8>, u64)> {
    let mark: (usize, &[u8]) = (15, b"2");
    let dimension: (usize, &[u8]) = (4, &[9]);
    let length: (usize, &[u8]) = (6, &[0x41, 0x02]);
    let distance: (usize, &[u8]) = (8, &[5]);
    let order: (usize, &[u8]) = (1, &[1]);
    let row: (usize, &[u8]) = (5, &[4]);
    vec![
        (file_with(&[]), 0),
        (Vec::new(), 9),
        (file_with(&[])[5..].to_vec(), 9),
        (file_with(&[mark]), 9),
        (file_with(&[dimension]), 1),
        (file_with(&[(4, &[0])]), 1),
        (file_with(&[length]), 2),
        (file_with(&[(6, &[0, 0])]), 2),
        (file_with(&[distance]), 9),
        (file_with(&[(11, &[1])]), 9),
        (file_with(&[])[1..].to_vec(), 9),
        (file_with(&[order]), 5),
        (file_with(&[row]), 6),
        (file_with(&[(5, &[0])]), 6),
        (file_with(&[mark, dimension]), 9),
        (file_with(&[dimension, length]), 1),
        (file_with(&[dimension, distance]), 1),
        (file_with(&[length, distance]), 2),
        (file_with(&[distance, order]), 9),
        (file_with(&[distance, row]), 9),
        (file_with(&[order, row]), 5),
    ]
}

/// The number of a listing into a buffer of this length, which is as it came past the text.
fn call_listing(file: &[u8], length: usize) -> u64 {
    let mut buffer = vec![b'#'; length];
    let text = listing(file, &mut buffer).map(<[u8]>::len);
    let past = text.unwrap_or(0);
    assert!(buffer[past..].iter().all(|&b| b == b'#'));
    number(text, &buffer, b'#')
}

#[test]
fn files_are_refused() {
    for (file, want) in files() {
        assert_eq!(number(unpack(&file), &[0; 0], 0), want, "{file:02x?}");
        assert_eq!(number(body(&file), &[0; 0], 0), want, "{file:02x?}");
        assert_eq!(call_listing(&file, TEXT_BYTES), want, "{file:02x?}");
    }
}

const OTHER_TEXT_BYTES: [usize; 4] = [0, 1, TEXT_BYTES - 1, TEXT_BYTES + 1];

#[test]
fn listing_refuses_the_buffer_before_the_file() {
    for (file, _) in files() {
        for length in OTHER_TEXT_BYTES {
            assert_eq!(call_listing(&file, length), 3, "{length}: {file:02x?}");
        }
    }
}

#[test]
fn listing_refuses_long_files_before_all_else() {
    for (length, long) in [
        (LISTED_BYTES, false),
        (LISTED_BYTES + 1, true),
        (9000, true),
    ] {
        let mut file = vec![0xFF; length];
        file[length - 16..].copy_from_slice(&file_with(&[]));
        assert!(unpack(&file).is_ok());
        let of = |number: u64| if long { 10 } else { number };
        for (mark_end, want) in [(b'l', 0), (b'2', 9)] {
            file[length - 1] = mark_end;
            assert_eq!(call_listing(&file, TEXT_BYTES), of(want), "{length}");
            for other in OTHER_TEXT_BYTES {
                assert_eq!(call_listing(&file, other), of(3), "{length}, {other}");
            }
        }
    }
}

#[test]
fn empty_slices() {
    assert_eq!(encode(1, 1, &[], &mut [], &mut []), Err(Refusal::Shape));
    let empty = Plan {
        d: 1,
        l: 1,
        start: &[],
        bits: &[],
        row: 1,
    };
    assert_eq!(decode(empty, &mut []), Err(Refusal::Shape));
    assert_eq!(check(empty, &[]), Err(Refusal::Shape));
    assert_eq!(trace(empty, &mut []), Err(Refusal::Shape));
    assert_eq!(plain_run(empty, 0, &[], &mut []), Err(Refusal::Shape));
    assert_eq!(difference_run(empty, 0, &[], &mut []), Err(Refusal::Shape));
    assert_eq!(pack(empty, &mut []), Err(Refusal::Shape));
    assert_eq!(unpack(&[]), Err(Refusal::Trailer));
    assert_eq!(body(&[]), Err(Refusal::Trailer));
    assert_eq!(listing(&[], &mut []), Err(Refusal::Shape));
}

#[test]
fn the_table() {
    assert_eq!(Refusal::of_number(0), None);
    for n in 1..=10 {
        let refusal = Refusal::of_number(n).expect("a number of the table");
        assert_eq!(refusal.number(), n);
        assert!(!matches!(refusal, Refusal::Unknown(_)));
        assert!(refusal.to_string().starts_with(&format!("refused {n}: ")));
    }
    for n in [11, u64::MAX] {
        assert_eq!(Refusal::of_number(n), Some(Refusal::Unknown(n)));
        assert_eq!(Refusal::Unknown(n).number(), n);
    }
    let error: Box<dyn std::error::Error> = Box::new(Refusal::Row);
    assert_eq!(
        error.to_string(),
        "refused 6: the answer row is not 1 to d+1"
    );
}

#[test]
fn lengths() {
    assert_eq!(scalars_words(8, 576), 72);
    assert_eq!(values_words(8, 576), 80);
    assert_eq!((scalars_words(3, 64), values_words(3, 64)), (3, 6));
    assert_eq!((bits_bytes(2, 7), bits_bytes(8, 576)), (2, 576));
    assert_eq!((trace_bytes(2, 2), trace_bytes(8, 576)), (24, 51840));
    assert_eq!((file_bytes(2, 7), file_bytes(8, 576)), (16, 596));
    for (d, l) in [(0, 1), (9, 1), (1, 0), (1, 577), (u64::MAX, u64::MAX)] {
        assert_eq!(scalars_words(d, l) + values_words(d, l), 0);
        assert_eq!(bits_bytes(d, l) + trace_bytes(d, l) + file_bytes(d, l), 0);
    }
}
