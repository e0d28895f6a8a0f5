//! Plans of many sizes, from scalars and back, and plans of any bits held to whole matrices that are formed here as the rules say.
use immarduzh::*;

/// Numbers that look random, the same in each run.
struct Numbers(u64);

impl Numbers {
    fn next(&mut self) -> u64 {
        self.0 ^= self.0 << 13;
        self.0 ^= self.0 >> 7;
        self.0 ^= self.0 << 17;
        self.0
    }

    fn below(&mut self, n: u64) -> u64 {
        self.next() % n
    }

    /// A scalar of l bits: any, or at an edge.
    fn scalar(&mut self, l: u64) -> Vec<u64> {
        let edge = self.below(8);
        let mut words: Vec<u64> = (0..l.div_ceil(64))
            .map(|_| match edge {
                0 => 0,
                1 => u64::MAX,
                _ => self.next(),
            })
            .collect();
        let over = l % 64;
        if over > 0 {
            *words.last_mut().expect("a word") &= (1 << over) - 1;
        }
        words
    }

    fn arrangement(&mut self, d: u64) -> Vec<u8> {
        let mut order: Vec<u8> = (1..=d as u8).collect();
        for i in (1..order.len()).rev() {
            order.swap(i, self.below(i as u64 + 1) as usize);
        }
        order
    }

    /// A modulus: 0, an edge or any.
    fn modulus(&mut self) -> u64 {
        let any = 1 + self.below(1 << 63);
        [0, 1, 2, 1 << 63, any, any][self.below(6) as usize]
    }

    fn elements(&mut self, d: u64, m: u64) -> Vec<u64> {
        (0..d)
            .map(|_| match m {
                0 => self.next(),
                _ => self.below(m),
            })
            .collect()
    }
}

const LENGTHS: [u64; 13] = [1, 2, 7, 8, 9, 63, 64, 65, 127, 128, 300, 575, 576];

/// The modulus as a number: 0 stands for 2^64.
fn size(m: u64) -> u128 {
    match m {
        0 => 1 << 64,
        _ => u128::from(m),
    }
}

/// A number, lowest word first, by a modulus.
fn rest(words: &[u64], m: u64) -> u128 {
    let next = |rest: u128, &word: &u64| ((rest << 64) + u128::from(word)) % size(m);
    words.iter().rev().fold(0, next)
}

/// The sum of numbers times elements, by the modulus.
fn combination(numbers: &[Vec<u64>], elements: &[u64], m: u64) -> u64 {
    let product = |(k, &e): (&Vec<u64>, &u64)| rest(k, m) * u128::from(e) % size(m);
    let sum: u128 = numbers.iter().zip(elements).map(product).sum();
    (sum % size(m)) as u64
}

/// What a plan of encode's gives back: by decode, check, plan file and runs.
fn round(d: u64, l: u64, numbers: &mut Numbers) {
    let scalars: Vec<Vec<u64>> = (0..d).map(|_| numbers.scalar(l)).collect();
    let words = scalars.concat();
    let mut start = vec![0; d as usize];
    let mut bits = vec![0; bits_bytes(d, l)];
    let row = encode(d, l, &words, &mut start, &mut bits).expect("scalars of l bits");
    let odd = scalars.iter().filter(|k| k[0] % 2 == 1).count() as u64;
    assert_eq!(row, 1 + odd);
    let plan = Plan {
        d,
        l,
        start: &start,
        bits: &bits,
        row,
    };
    decodes_to(plan, &scalars);
    checks(plan, &words, numbers);
    packs(plan, numbers);
    runs_to(plan, &scalars, numbers);
}

fn decodes_to(plan: Plan, scalars: &[Vec<u64>]) {
    let mut values = vec![77; values_words(plan.d, plan.l)];
    assert_eq!(decode(plan, &mut values), Ok(()));
    for (value, scalar) in values.chunks(plan.l as usize / 64 + 1).zip(scalars) {
        assert_eq!(&value[..scalar.len()], scalar);
        assert!(value[scalar.len()..].iter().all(|&word| word == 0));
    }
}

fn checks(plan: Plan, words: &[u64], numbers: &mut Numbers) {
    assert_eq!(check(plan, words), Ok(true));
    let mut others = words.to_vec();
    let word = numbers.below(words.len() as u64) as usize;
    others[word] ^= 1;
    assert_eq!(check(plan, &others), Ok(false));
}

fn packs(plan: Plan, numbers: &mut Numbers) {
    let mut file = vec![0xA5; file_bytes(plan.d, plan.l)];
    assert_eq!(pack(plan, &mut file), Ok(()));
    let preface = numbers.below(40) as usize;
    let prefaced = [vec![0x6D; preface], file].concat();
    let (d, l, row) = (plan.d, plan.l, plan.row);
    assert_eq!(unpack(&prefaced), Ok(Unpacked { d, l, row }));
    let part = body(&prefaced).expect("a plan file");
    assert!(std::ptr::eq(part.as_ptr(), &prefaced[preface]), "no copy");
    assert_eq!(part, [plan.start, plan.bits].concat());
}

fn runs_to(plan: Plan, scalars: &[Vec<u64>], numbers: &mut Numbers) {
    let m = numbers.modulus();
    let elements = numbers.elements(plan.d, m);
    let (mut plain, mut difference) =
        (vec![77; plan.d as usize + 1], vec![78; plan.d as usize + 1]);
    let given = plain_run(plan, m, &elements, &mut plain);
    let counts = Counts {
        doublings: plan.l,
        additions: plan.l * plan.d,
    };
    let answer = combination(scalars, &elements, m);
    assert_eq!(given, Ok(Run { answer, counts }), "modulus {m}");
    assert_eq!(difference_run(plan, m, &elements, &mut difference), given);
    assert_eq!(plain, difference);
    assert_eq!(plain[plan.row as usize - 1], answer);
    let mut out = vec![0; trace_bytes(plan.d, plan.l)];
    assert_eq!(trace(plan, &mut out), Ok(counts));
}

#[test]
fn rounds() {
    let mut numbers = Numbers(2020);
    for d in 1..=8 {
        for l in LENGTHS {
            round(d, l, &mut numbers);
            round(d, l, &mut numbers);
        }
    }
}

type Matrix = Vec<Vec<u128>>;

fn sum(a: &[u128], b: &[u128]) -> Vec<u128> {
    a.iter().zip(b).map(|(a, b)| a + b).collect()
}

/// Row 1 is all 0; each row after it adds 1 in the column at the next place.
fn start_matrix(start: &[u8]) -> Matrix {
    let mut rows = vec![vec![0; start.len()]];
    for &column in start {
        let mut row = rows[rows.len() - 1].clone();
        row[usize::from(column) - 1] += 1;
        rows.push(row);
    }
    rows
}

/// The bits of step s, counted from 1.
fn step_bits(plan: Plan, s: u64) -> Vec<bool> {
    let bit = |n: u64| plan.bits[n as usize / 8] >> (7 - n % 8) & 1 == 1;
    (1..=plan.d)
        .map(|k| bit((s - 1) * plan.d + (k - 1)))
        .collect()
}

/// The rows x and y of each operation of a step, counted from 1.
fn pairs(bits: &[bool]) -> Vec<(usize, usize)> {
    let h = bits.iter().filter(|&&r| r).count();
    let (mut x, mut y) = (h + 1, h + 1);
    let mut pairs = vec![(x, y)];
    for &r in bits {
        if r {
            x -= 1;
        } else {
            y += 1;
        }
        pairs.push((x, y));
    }
    pairs
}

/// The walk state that a matrix has: where neighbouring rows differ, and whether a column's odd entry is above its even one.
fn walk_of(matrix: &Matrix) -> Walk {
    let d = matrix.len() - 1;
    let (mut order, mut signs) = ([0; 8], [0; 8]);
    for i in 0..d {
        let column = (0..d).position(|j| matrix[i][j] != matrix[i + 1][j]);
        order[i] = column.expect("a column") as u8 + 1;
        signs[i] = if matrix[d][i] > matrix[0][i] { 1 } else { -1 };
    }
    let d = d as u64;
    Walk { d, order, signs }
}

/// An entry of the trace: x, y, and row y minus row x.
fn entry(matrix: &Matrix, x: usize, y: usize) -> Vec<u8> {
    let difference = matrix[y - 1].iter().zip(&matrix[x - 1]);
    let bytes = difference.map(|(b, a)| (*b as i128 - *a as i128) as i8 as u8);
    [x as u8, y as u8].into_iter().chain(bytes).collect()
}

/// The last matrix, by way of all; the walk goes along, and the trace is filled.
fn follow(plan: Plan, entries: &mut Vec<u8>) -> Matrix {
    let mut matrix = start_matrix(plan.start);
    let mut walk = walk_of(&matrix);
    for s in 1..=plan.l {
        let bits = step_bits(plan, s);
        let pairs = pairs(&bits);
        entries.extend(pairs.iter().flat_map(|&(x, y)| entry(&matrix, x, y)));
        let next = |&(x, y): &(usize, usize)| sum(&matrix[x - 1], &matrix[y - 1]);
        matrix = pairs.iter().map(next).collect();
        let number = bits.iter().fold(0, |n, &r| 2 * n + u64::from(r));
        walk = walk.step(number).expect("a walk along a plan");
        assert_eq!(walk, walk_of(&matrix), "after step {s}");
    }
    matrix
}

/// What decode writes and both runs answer for a plan whose answer row has these entries.
fn answers(plan: Plan, row: &[u128], m: u64, elements: &[u64]) {
    let words = plan.l as usize / 64 + 1;
    let whole = |&entry: &u128| [entry as u64, (entry >> 64) as u64][..words].to_vec();
    let entries: Vec<Vec<u64>> = row.iter().map(whole).collect();
    let mut values = vec![77; values_words(plan.d, plan.l)];
    assert_eq!(decode(plan, &mut values), Ok(()));
    assert_eq!(values, entries.concat());
    for run in [plain_run, difference_run] {
        let mut registers = vec![77; plan.d as usize + 1];
        let given = run(plan, m, elements, &mut registers).expect("elements below the modulus");
        assert_eq!(given.answer, combination(&entries, elements, m));
        assert_eq!(given.answer, registers[plan.row as usize - 1]);
    }
}

/// A plan of any bits, filling bits too, held to its matrices: the trace, and every row.
fn any_plan(d: u64, l: u64, numbers: &mut Numbers) {
    let start = numbers.arrangement(d);
    let bits: Vec<u8> = (0..bits_bytes(d, l))
        .map(|_| numbers.next() as u8)
        .collect();
    let plan = |row| Plan {
        d,
        l,
        start: &start,
        bits: &bits,
        row,
    };
    let mut entries = Vec::new();
    let last = follow(plan(1), &mut entries);
    let mut out = vec![0x55; trace_bytes(d, l)];
    assert!(trace(plan(1), &mut out).is_ok());
    assert_eq!(out, entries);
    let m = numbers.modulus();
    let elements = numbers.elements(d, m);
    for (row, entries) in (1..).zip(&last) {
        answers(plan(row), entries, m, &elements);
    }
}

#[test]
fn plans_of_any_bits() {
    let mut numbers = Numbers(7359);
    for d in 1..=8 {
        for l in [1, 2, 3, 7, 8, 20, 63, 64, 65, 120] {
            any_plan(d, l, &mut numbers);
        }
    }
}
