//! The rules' numbers worked through, by way of the bindings.
use immarduzh::*;

/// A plan of the rules: d, l, scalars, start order, bits, answer row and the last rows that the rules give.
struct Case {
    d: u64,
    l: u64,
    scalars: &'static [u64],
    start: &'static [u8],
    bits: &'static [u8],
    row: u64,
    last: &'static [(u64, &'static [u64])],
}

impl Case {
    fn plan(&self) -> Plan<'static> {
        Plan {
            d: self.d,
            l: self.l,
            start: self.start,
            bits: self.bits,
            row: self.row,
        }
    }
}

const CASES: [Case; 8] = [
    Case {
        d: 1,
        l: 7,
        scalars: &[73],
        start: &[1],
        bits: &[0xDA],
        row: 2,
        last: &[(1, &[74]), (2, &[73])],
    },
    Case {
        d: 1,
        l: 1,
        scalars: &[0],
        start: &[1],
        bits: &[0x00],
        row: 1,
        last: &[(1, &[0]), (2, &[1])],
    },
    Case {
        d: 1,
        l: 1,
        scalars: &[1],
        start: &[1],
        bits: &[0x80],
        row: 2,
        last: &[(1, &[2]), (2, &[1])],
    },
    Case {
        d: 2,
        l: 1,
        scalars: &[0, 0],
        start: &[1, 2],
        bits: &[0x00],
        row: 1,
        last: &[(1, &[0, 0]), (2, &[1, 0]), (3, &[1, 1])],
    },
    Case {
        d: 2,
        l: 2,
        scalars: &[2, 1],
        start: &[1, 2],
        bits: &[0xB0],
        row: 2,
        last: &[(1, &[2, 2]), (2, &[2, 1]), (3, &[3, 1])],
    },
    Case {
        d: 2,
        l: 2,
        scalars: &[3, 3],
        start: &[2, 1],
        bits: &[0xC0],
        row: 3,
        last: &[(1, &[4, 4]), (2, &[3, 4]), (3, &[3, 3])],
    },
    Case {
        d: 3,
        l: 2,
        scalars: &[1, 2, 3],
        start: &[3, 2, 1],
        bits: &[0xB4],
        row: 3,
        last: &[
            (1, &[2, 2, 4]),
            (2, &[1, 2, 4]),
            (3, &[1, 2, 3]),
            (4, &[1, 3, 3]),
        ],
    },
    Case {
        d: 2,
        l: 7,
        scalars: &[73, 59],
        start: &[1, 2],
        bits: &[0x72, 0xD8],
        row: 3,
        last: &[(1, &[74, 60]), (2, &[73, 60]), (3, &[73, 59])],
    },
];

/// The plan of 2 and 1, whose trace and runs the rules give.
const TWO_ONE: Plan = Plan {
    d: 2,
    l: 2,
    start: &[1, 2],
    bits: &[0xB0],
    row: 2,
};

const FILE: [u8; 16] = [
    0x01, 0x02, 0x72, 0xD8, 0x02, 0x03, 0x07, 0x00, 0x04, 0x00, 0x00, 0x00, 0x64, 0x6D, 0x75, 0x6C,
];

const LISTING: &str = "plan 2 7 3
start 1 2
1 01
2 11
3 00
4 10
5 11
6 01
7 10
value 49 3b
";

#[test]
fn encodes() {
    for case in &CASES {
        let mut start = vec![0xA5; case.d as usize];
        let mut bits = vec![0xA5; case.bits.len()];
        let row = encode(case.d, case.l, case.scalars, &mut start, &mut bits);
        assert_eq!(row, Ok(case.row), "{:?}", case.scalars);
        assert_eq!(start, case.start, "{:?}", case.scalars);
        assert_eq!(bits, case.bits, "{:?}", case.scalars);
    }
}

#[test]
fn decodes_every_row() {
    for case in &CASES {
        for &(row, entries) in case.last {
            let mut values = vec![77; case.d as usize];
            let plan = Plan { row, ..case.plan() };
            assert_eq!(decode(plan, &mut values), Ok(()));
            assert_eq!(values, entries, "{:?}, row {row}", case.scalars);
        }
    }
}

#[test]
fn checks() {
    for case in &CASES {
        assert_eq!(check(case.plan(), case.scalars), Ok(true));
        let mut others = case.scalars.to_vec();
        others[0] ^= 1;
        assert_eq!(check(case.plan(), &others), Ok(false));
    }
    // Row 1 of d 1, l 1, bit 1 is 2, which no scalar of one bit equals.
    let full = Plan {
        row: 1,
        ..CASES[2].plan()
    };
    assert_eq!(check(full, &[0]), Ok(false));
    assert_eq!(check(full, &[1]), Ok(false));
    assert_eq!(check(full, &[2]), Err(Refusal::Scalar));
}

#[test]
fn traces() {
    let mut out = [0x55; 24];
    let counts = Counts {
        doublings: 2,
        additions: 4,
    };
    assert_eq!(trace(TWO_ONE, &mut out), Ok(counts));
    let entries = [
        [0x02, 0x02, 0x00, 0x00],
        [0x01, 0x02, 0x01, 0x00],
        [0x01, 0x03, 0x01, 0x01],
        [0x03, 0x03, 0x00, 0x00],
        [0x02, 0x03, 0x00, 0x01],
        [0x01, 0x03, 0xFF, 0x01],
    ];
    assert_eq!(out.to_vec(), entries.concat());
}

#[test]
fn runs() {
    let top = 1 << 63;
    let cases = [
        (101, [10, 20], [60, 40, 50]),
        (7, [5, 6], [1, 2, 0]),
        (0, [top, 1], [2, 1, top + 1]),
    ];
    for (m, elements, want) in cases {
        for run in [plain_run, difference_run] {
            let mut registers = [77; 3];
            let given = run(TWO_ONE, m, &elements, &mut registers);
            let counts = Counts {
                doublings: 2,
                additions: 4,
            };
            let answer = want[1];
            assert_eq!(given, Ok(Run { answer, counts }), "modulus {m}");
            assert_eq!(registers, want, "modulus {m}");
        }
    }
}

#[test]
fn packs_and_lists() {
    let plan = CASES[7].plan();
    let mut file = [0xA5; 16];
    assert_eq!(pack(plan, &mut file), Ok(()));
    assert_eq!(file, FILE);
    let numbers = Unpacked { d: 2, l: 7, row: 3 };
    assert_eq!(unpack(&FILE), Ok(numbers));
    assert_eq!(body(&FILE), Ok(&FILE[..4]));
    let mut buffer = [b'#'; TEXT_BYTES];
    assert_eq!(listing(&FILE, &mut buffer), Ok(LISTING.as_bytes()));
    assert!(buffer[LISTING.len()..].iter().all(|&b| b == b'#'));
}

/// Figure 1 of the source: the matrix has order 4 1 2 3, its column 2 alone falls; after bits 1001 the order is 1 2 3 4, and column 3 alone
/// rises.
#[test]
fn steps_figure_1() {
    let before = Walk {
        d: 4,
        order: [4, 1, 2, 3, 0, 0, 0, 0],
        signs: [1, -1, 1, 1, 0, 0, 0, 0],
    };
    let after = Walk {
        d: 4,
        order: [1, 2, 3, 4, 0, 0, 0, 0],
        signs: [-1, -1, 1, -1, 0, 0, 0, 0],
    };
    assert_eq!(before.step(0b1001), Ok(after));
    assert_eq!(
        before.step(0b1001),
        Ok(after),
        "a walk can be stepped twice"
    );
}

/// Table 4 of the source.
#[test]
fn decodes_table_4() {
    // 01 11 00 10 11 01 01, and two filling bits.
    let bits = [0b0111_0010, 0b1101_0100];
    let plan = Plan {
        d: 2,
        l: 7,
        start: &[1, 2],
        bits: &bits,
        row: 3,
    };
    let mut values = [77; 2];
    assert_eq!(decode(plan, &mut values), Ok(()));
    assert_eq!(values, [73, 59]);
    let filled = [bits[0], bits[1] | 3];
    let plan = Plan {
        bits: &filled,
        ..plan
    };
    assert_eq!(check(plan, &[73, 59]), Ok(true));
}

/// The edges that the rules name.
#[test]
fn edges() {
    let (mut start, mut bits) = ([0; 1], [0; 72]);
    assert_eq!(encode(1, 576, &[0; 9], &mut start, &mut bits), Ok(1));
    let long = encode(1, 577, &[0; 10], &mut start, &mut [0; 73]);
    assert_eq!(long, Err(Refusal::Length));
    for d in [0, 9] {
        let refused = encode(d, 7, &[73], &mut start, &mut [0]);
        assert_eq!(refused, Err(Refusal::Dim));
    }
    let refused = encode(1, 1, &[2], &mut start, &mut [0]);
    assert_eq!(refused, Err(Refusal::Scalar));
    let mut registers = [0; 3];
    let top = 1 << 63;
    assert!(plain_run(TWO_ONE, top, &[10, 20], &mut registers).is_ok());
    let refused = plain_run(TWO_ONE, top + 1, &[10, 20], &mut registers);
    assert_eq!(refused, Err(Refusal::Modulus));
    let mut values = [0; 2];
    assert!(decode(Plan { row: 3, ..TWO_ONE }, &mut values).is_ok());
    let refused = decode(Plan { row: 4, ..TWO_ONE }, &mut values);
    assert_eq!(refused, Err(Refusal::Row));
}
